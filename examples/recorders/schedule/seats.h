// The threads of a run and its state. A part of schedule.c.

enum strategy { NAPS, WALK, PCT, STRATEGIES };
static const char *const strategy_names[] = {"naps", "walk", "pct"};

enum {
    MAX_STORES = 16,       // that wait in the list of a thread
    IDLE_POINTS = 200,     // of one operation without a write: the thread waits for another
    LONG_OPERATION = 500,  // points of one operation, whatever it does
    CLOCKS = 16,           // of the system
    MAX_DEPTH = 10         // of PCT
};

// A store that waits, for a number of points of its thread.
struct store {
    uint64_t value;
    volatile void *at;
    unsigned size;
    unsigned points;
};

// A thread of the run.
struct seat {
    unsigned number;
    _Atomic uint32_t has_turn;
    _Atomic uint32_t has_arrived;
    bool has_ended;
    bool rests;            // until all others have ended
    bool is_inside;        // a call of the queue
    bool is_quiet;         // in a routine of pthread_once: nothing is a point
    const void *waits_for; // NULL: for nothing
    const char *waits;     // what for, in words
    uint64_t waits_since;
    bool may_time_out;
    bool has_timed_out;
    bool relaxes;      // until another thread writes
    bool spins;        // goes last, until another thread writes
    bool is_long;      // goes last, until some operation has ended
    uint64_t wakes_at; // number of operations that have ended; it sleeps until then
    uint64_t count;    // its points, and its other chances of a switch
    uint64_t steps;    // points of the operation
    uint64_t idle;     // points since it last wrote
    uint64_t stops_at; // naps: sleeps at this count
    int64_t priority;  // PCT
    unsigned quota;    // PCT: operations left in the round
    uintptr_t from;
    enum access access;
    uintptr_t stack, stack_size;
    size_t next_wanted;
    unsigned stores;
    struct store store[MAX_STORES];
};

static struct {
    bool is_on;
    bool is_child; // a search judges the run
    struct fifobench_schedule settings;
    unsigned threads;
    uint64_t random;
    uint64_t steps;    // points
    uint64_t ended;    // operations
    uint64_t progress; // steps when one ended last
    uint64_t patience;
    enum strategy strategy;
    unsigned rate;         // naps: in halves of the points of an operation; walk: a switch at one of this many points
    bool naps_before_writes;
    bool naps_in_pairs;
    unsigned nap_bits;     // naps: a nap ends when 1 to 2^(nap_bits - 1) operations have ended
    uint64_t one_in;       // naps: sleep at one of this many points
    unsigned depth, round; // PCT: a round has 1 to `round` operations of each thread; 0: the run is one
    uint64_t changes[MAX_DEPTH];
    unsigned changed, change_count;
    uint64_t round_began, estimate;
    int64_t lowest;
    bool has_buffers;
    unsigned store_rate; // one store of this many waits
    unsigned restless;   // threads that relax or spin
    uint64_t slept;      // nanoseconds, in no time
    uint64_t clock[CLOCKS];
    uint64_t outside_waits;
    _Atomic uint32_t outside_changes; // by threads that aren't the run's
    _Atomic uint32_t own_threads;     // of the queue
    _Atomic uint32_t is_over;
    const struct decision *wanted;    // by thread and point; NULL: the seed's strategy decides
    size_t wanted_count;
    struct seat seat[FIFOBENCH_MAX_THREADS];
    struct seat *ready[FIFOBENCH_MAX_THREADS];
} run;

static _Thread_local struct seat *seat;     // NULL: not a thread of a run
static _Thread_local bool is_disturbed;     // free runs: inside a call
static _Thread_local uint64_t disturbance;  // free runs: the thread's random numbers
static _Atomic uint64_t disturbances;
static _Atomic uint32_t created_threads; // since the run or its process began, but by a call of the queue
static atomic_bool disturbs;

static void let_stores_out(struct seat *self, bool all);
static _Noreturn void report_early(void);

// Vigna's splitmix64.
static uint64_t next_random(uint64_t *state)
{
    uint64_t z = *state += UINT64_C(0x9E3779B97F4A7C15);
    z = (z ^ (z >> 30)) * UINT64_C(0xBF58476D1CE4E5B9);
    z = (z ^ (z >> 27)) * UINT64_C(0x94D049BB133111EB);
    return z ^ (z >> 31);
}

// Returns a number below the bound, drawn from the seed.
static uint64_t draw(uint64_t bound)
{
    return next_random(&run.random) % bound;
}

// Returns a number below the bound that depends on the seed and the number of points so far. Unlike `draw` it changes
// nothing, so that it is the same when a run's switches are made again.
static uint64_t choice(uint64_t bound)
{
    uint64_t state = run.settings.seed * UINT64_C(0xD1B54A32D192ED03) + run.steps;
    return next_random(&state) % bound;
}

static long futex(_Atomic uint32_t *word, int operation, uint32_t value, const struct timespec *most)
{
    static long (*system_call)(long, ...);
    if (system_call == NULL) {
        *(void **)&system_call = dlsym(RTLD_NEXT, "syscall");
    }
    return system_call(SYS_futex, word, operation | FUTEX_PRIVATE_FLAG, value, most, NULL, 0);
}

static void set_word(_Atomic uint32_t *word)
{
    atomic_store(word, 1);
    futex(word, FUTEX_WAKE, INT_MAX, NULL);
}

static void await_word(_Atomic uint32_t *word)
{
    while (atomic_load(word) == 0) {
        futex(word, FUTEX_WAIT, 0, NULL);
    }
}

static void take_turn(struct seat *self)
{
    await_word(&self->has_turn);
    atomic_store(&self->has_turn, 0);
}

static bool can_run(const struct seat *of)
{
    return !of->has_ended && of->waits_for == NULL && !of->relaxes && of->quota > 0;
}

// Ends the run at once, and says where each thread is.
static _Noreturn void end_early(enum ending ending)
{
    for (unsigned number = 0; number < run.threads; number++) {
        const struct seat *of = &run.seat[number];
        tape->places[number] = (struct place){of->from, of->waits_for != NULL ? of->waits : NULL, of->has_ended};
    }
    tape->ending = ending;
    run.is_on = false;
    if (run.is_child) {
        _exit(0);
    }
    report_early();
}
