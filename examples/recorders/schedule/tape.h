// What a run leaves: its events, its switches, and how it ended. A part of schedule.c. A search has it in memory that
// is shared with the child process that makes the run, so that it is there when the child has crashed.

enum ending { NOT_BEGUN, RUNNING, COMPLETE, DEADLOCK, LIVELOCK };

// What a thread does at a point.
enum access { READS, WRITES, LOADS, STORES, MODIFIES, FENCES, WAITS, RESTS, ENDS };

struct event {
    uint64_t value;
    unsigned thread;
    unsigned what; // enum fifobench_schedule_what
};

// At this point, of which the thread counts its own, another thread goes on; or a store waits.
struct decision {
    uint64_t point;
    uint64_t event;    // number of events before it
    uintptr_t from;    // the return address of the point
    uint32_t thread;   // FIRST_TURN: the start
    uint32_t to;       // the thread that goes on, or STORE_WAITS for `points` points, or STORE_IS_SEEN
    uint32_t points;
    uint16_t access;   // enum access
    uint16_t is_forced; // the thread could not go on, or had ended
};

enum { FIRST_TURN = FIFOBENCH_MAX_THREADS, STORE_WAITS, STORE_IS_SEEN };

// Where a thread is when a run ends early: its last point.
struct place {
    uintptr_t from;
    const char *waits; // what for, or NULL
    bool has_ended;
};

enum { MAX_DECISIONS = 1 << 20, MAX_INITIAL_VALUES = 100000 };

struct tape {
    enum ending ending;
    unsigned threads;
    bool has_own_threads; // of the queue, which run free
    bool has_failed;
    char failure[400];
    const char *strategy;
    unsigned rate;
    bool has_buffers;
    uint64_t points, accesses, atomics, locks; // how many there were
    uint64_t patience;
    unsigned seconds; // without an end of an operation, after which the run is given up
    size_t events, decisions, initial;
    size_t max_events;
    struct place places[FIFOBENCH_MAX_THREADS];
    uint64_t *initial_values;
    struct decision *decision;
    struct event *event;
};

static struct tape *tape;

static void *map(size_t bytes)
{
    void *at = mmap(NULL, bytes, PROT_READ | PROT_WRITE, MAP_SHARED | MAP_ANONYMOUS | MAP_NORESERVE, -1, 0);
    return at == MAP_FAILED ? NULL : at;
}

// Returns an empty tape with room for this many events; NULL without memory. Pages are taken as they are used.
static struct tape *new_tape(size_t events)
{
    struct tape *fresh = map(sizeof *fresh);
    if (fresh == NULL) {
        return NULL;
    }
    fresh->max_events = events;
    fresh->event = map(events * sizeof *fresh->event);
    fresh->decision = map(MAX_DECISIONS * sizeof *fresh->decision);
    fresh->initial_values = map(MAX_INITIAL_VALUES * sizeof *fresh->initial_values);
    return fresh->event != NULL && fresh->decision != NULL && fresh->initial_values != NULL ? fresh : NULL;
}

static void free_tape(struct tape *old)
{
    munmap(old->event, old->max_events * sizeof *old->event);
    munmap(old->decision, MAX_DECISIONS * sizeof *old->decision);
    munmap(old->initial_values, MAX_INITIAL_VALUES * sizeof *old->initial_values);
    munmap(old, sizeof *old);
}

static void clear_tape(struct tape *used)
{
    struct tape empty = {.max_events = used->max_events, .seconds = used->seconds, .event = used->event,
                         .decision = used->decision, .initial_values = used->initial_values};
    *used = empty;
}

static void note_event(unsigned thread, unsigned what, uint64_t value)
{
    if (tape->events < tape->max_events) {
        tape->event[tape->events] = (struct event){value, thread, what};
    }
    tape->events++;
}

static void note_decision(struct decision decision)
{
    if (tape->decisions < MAX_DECISIONS) {
        tape->decision[tape->decisions] = decision;
    }
    tape->decisions++;
}

static bool is_call(const struct event *event)
{
    return event->what == FIFOBENCH_SCHEDULE_CALL_ENQ || event->what == FIFOBENCH_SCHEDULE_CALL_DEQ;
}

static bool has_value(const struct event *event)
{
    return event->what == FIFOBENCH_SCHEDULE_CALL_ENQ || event->what == FIFOBENCH_SCHEDULE_RET_DEQ;
}

// The calls that haven't returned: for each thread the place of the call's event plus 1, or 0. Returns their number.
static unsigned open_calls(const struct tape *of, size_t open[FIFOBENCH_MAX_THREADS])
{
    unsigned count = 0;
    memset(open, 0, FIFOBENCH_MAX_THREADS * sizeof *open);
    for (size_t place = 0; place < of->events; place++) {
        open[of->event[place].thread] = is_call(&of->event[place]) ? place + 1 : 0;
    }
    for (unsigned number = 0; number < FIFOBENCH_MAX_THREADS; number++) {
        count += open[number] != 0;
    }
    return count;
}

// Writes a history, or a pending text if some call hasn't returned.
static void write_tape(const struct tape *of, FILE *to)
{
    static const char *const words[] = {"call-enq", "ret-enq", "ret-not", "call-deq", "ret-deq", "ret-empty"};
    size_t open[FIFOBENCH_MAX_THREADS];
    unsigned pending = open_calls(of, open);
    fprintf(to, "fifo-%s %d\n", pending == 0 ? "history" : "pending", of->initial == 0 ? 1 : 2);
    if (of->initial > 0) {
        fprintf(to, "initial %zu\n", of->initial);
    }
    for (size_t place = 0; place < of->initial; place++) {
        fprintf(to, "%" PRIu64 "\n", of->initial_values[place]);
    }
    for (size_t place = 0; place < of->events; place++) {
        const struct event *event = &of->event[place];
        fprintf(to, "%zu %u %s", place, event->thread, words[event->what]);
        if (has_value(event)) {
            fprintf(to, " %" PRIu64, event->value);
        }
        fputc('\n', to);
    }
    if (pending > 0) {
        fprintf(to, "open %u\n", pending);
    }
    fprintf(to, "end %zu\n", of->events);
}

// Returns whether it was written.
static bool write_tape_to(const struct tape *of, const char *path)
{
    FILE *file = fopen(path, "wb");
    if (file == NULL) {
        return false;
    }
    write_tape(of, file);
    bool is_written = !ferror(file);
    return fclose(file) == 0 && is_written;
}
