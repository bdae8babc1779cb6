// Points and turns: one thread runs, and gives the turn to another. A part of schedule.c.

// Gives the turn to the one that was picked.
static void go_on(struct seat *self, struct seat *next, bool is_forced)
{
    if (is_forced || next != self) {
        note_decision((struct decision){self->count, tape->events, self->from, self->number, next->number, 0,
                                        (uint16_t)self->access, is_forced});
    }
    if (next != self) {
        set_word(&next->has_turn);
        take_turn(self);
    }
}

// Another thread has written: who waits for that may look again.
static void wrote(struct seat *self)
{
    self->idle = 0;
    if (run.restless > (self->relaxes || self->spins)) {
        clear_restless();
    }
}

static void rest_at(struct seat *self, bool spins)
{
    run.restless += !self->relaxes && !self->spins;
    self->spins = self->spins || spins;
    self->relaxes = self->relaxes || !spins;
}

static void count_point(struct seat *self, enum access access, uintptr_t from)
{
    self->from = from;
    self->access = access;
    self->count++;
    self->steps++;
    self->idle++;
    run.steps++;
    tape->points = run.steps;
    tape->places[self->number].from = from;
    if (run.steps - run.progress > run.patience) {
        end_early(LIVELOCK);
    }
}

// A point before an access.
static void step(struct seat *self, enum access access, uintptr_t from)
{
    count_point(self, access, from);
    let_stores_out(self, false);
    bool is_spinning = self->idle % IDLE_POINTS == IDLE_POINTS - 1, is_long = self->steps % LONG_OPERATION == 0;
    self->is_long = self->is_long || is_long;
    if (is_spinning) {
        let_stores_out(self, true);
        rest_at(self, true);
    }
    go_on(self, pick(self, is_spinning || is_long), is_spinning || is_long);
    if (access == WRITES || access == STORES) {
        wrote(self);
    }
}

// Nothing to do until another thread has written.
static void relax(struct seat *self, uintptr_t from)
{
    count_point(self, RESTS, from);
    let_stores_out(self, true);
    rest_at(self, false);
    go_on(self, pick(self, true), true);
}

// Sleeps until some operations of others have ended, or nobody else can go on.
static void sleep_here(struct seat *self, uintptr_t from)
{
    count_point(self, RESTS, from);
    let_stores_out(self, true);
    self->wakes_at = run.ended + 1 + choice(8);
    go_on(self, pick(self, true), true);
}

// Gives way until the object is released. Returns whether the wait has timed out instead.
static bool block(struct seat *self, const void *object, const char *what, bool may_time_out, uintptr_t from)
{
    count_point(self, WAITS, from);
    let_stores_out(self, true);
    self->waits_for = object;
    self->waits = what;
    self->waits_since = run.steps;
    self->may_time_out = may_time_out;
    self->has_timed_out = false;
    go_on(self, pick(self, true), true);
    return self->has_timed_out;
}

// Those that wait for the object may go on.
static void release(const void *object)
{
    for (unsigned number = 0; number < run.threads; number++) {
        struct seat *of = &run.seat[number];
        of->waits_for = of->waits_for == object ? NULL : of->waits_for;
    }
}

static void set_strategy(void)
{
    static const unsigned rates[] = {3, 5, 10, 20, 40, 100, 300};
    const char *wanted = getenv("FIFOBENCH_STRATEGY");
    unsigned drawn = (unsigned)draw(8);
    run.strategy = drawn < 4 ? NAPS : drawn < 6 ? WALK : PCT;
    for (unsigned place = 0; wanted != NULL && place < STRATEGIES; place++) {
        run.strategy = strcmp(wanted, strategy_names[place]) == 0 ? (enum strategy)place : run.strategy;
    }
    run.rate = run.strategy == WALK ? rates[draw(7)] : 1 + (unsigned)draw(4);
    run.naps_before_writes = draw(3) == 0;
    run.naps_in_pairs = draw(2) == 0;
    run.nap_bits = 4 + 2 * (unsigned)draw(3);
    run.one_in = 40;
    run.depth = 2 + (unsigned)draw(MAX_DEPTH - 1);
    run.round = draw(4) == 0 ? 0 : 1 + (unsigned)draw(16);
    run.estimate = 20 * run.threads * (run.round == 0 ? run.settings.operations + 1 : (run.round + 1) / 2);
    tape->strategy = strategy_names[run.strategy];
    tape->rate = run.strategy == PCT ? run.depth : run.rate;
}

static void set_buffers(void)
{
    const char *wanted = getenv("FIFOBENCH_BUFFERS");
    run.has_buffers = draw(4) == 0;
    run.store_rate = 1U << draw(4);
    if (wanted != NULL && (strcmp(wanted, "0") == 0 || strcmp(wanted, "1") == 0)) {
        run.has_buffers = wanted[0] == '1';
    }
    tape->has_buffers = run.has_buffers;
}

static void set_patience(void)
{
    const char *wanted = getenv("FIFOBENCH_PATIENCE");
    uint64_t number = wanted != NULL ? strtoull(wanted, NULL, 10) : 0;
    run.patience = tape->patience = number > 0 ? number : 100000;
}

static void keep_on_one_core(void)
{
    cpu_set_t cores;
    int core = sched_getcpu();
    CPU_ZERO(&cores);
    if (core >= 0 && core < CPU_SETSIZE) {
        CPU_SET((unsigned)core, &cores);
        sched_setaffinity(0, sizeof cores, &cores);
    }
}

// Of the real sanitizer's library.
extern void __sanitizer_set_report_path(const char *path) __attribute__((weak));

static cpu_set_t cores_before;

const char *fifobench_schedule_begin(const struct fifobench_schedule *schedule)
{
    if (schedule->threads == 0 || schedule->threads > FIFOBENCH_MAX_THREADS) {
        return "schedules are chosen for 1 to 64 threads";
    }
    if (__sanitizer_set_report_path != NULL) {
        return "the sanitizer's library is linked as well as schedule.c: link without -fsanitize=thread";
    }
    size_t events = 4 * schedule->threads * (schedule->operations + 1) + 2 * MAX_INITIAL_VALUES;
    if (tape != NULL && tape->max_events < events) {
        free_tape(tape);
        tape = NULL;
    }
    tape = tape != NULL ? tape : new_tape(events);
    if (tape == NULL) {
        return "there is no memory for a chosen schedule";
    }
    bool is_child = run.is_child;
    atomic_store(&created_threads, is_child ? atomic_load(&created_threads) : 0);
    const struct decision *wanted = run.wanted;
    size_t wanted_count = run.wanted_count;
    memset(&run, 0, sizeof run);
    run.is_child = is_child;
    run.wanted = wanted;
    run.wanted_count = wanted_count;
    run.settings = *schedule;
    run.threads = schedule->threads;
    run.random = schedule->seed * UINT64_C(0x9E3779B97F4A7C15) ^ 0x5EED;
    tape->threads = schedule->threads;
    tape->ending = RUNNING;
    tape->events = tape->decisions = tape->initial = 0;
    set_patience();
    set_strategy();
    set_buffers();
    for (unsigned number = 0; number < run.threads; number++) {
        run.seat[number].number = number;
        run.seat[number].quota = 1;
    }
    if (run.strategy == PCT && run.wanted == NULL) {
        begin_round();
    }
    sched_getaffinity(0, sizeof cores_before, &cores_before);
    keep_on_one_core();
    return NULL;
}

void fifobench_schedule_started(unsigned thread)
{
    await_word(&run.seat[thread].has_arrived);
}

void fifobench_schedule_open(unsigned threads)
{
    run.threads = threads;
    run.is_on = true;
    uint32_t created = atomic_load(&created_threads);
    atomic_store(&run.own_threads, created > threads ? created - threads : 0);
    if (threads > 0) {
        struct seat *first = pick(NULL, true);
        note_decision((struct decision){0, 0, 0, FIRST_TURN, first->number, 0, RESTS, 1});
        set_word(&first->has_turn);
    }
}

// The bounds of the thread's own stack, so that no access of it is a point.
static void find_stack(struct seat *self)
{
    pthread_attr_t attributes;
    void *stack = NULL;
    size_t size = 0;
    if (pthread_getattr_np(pthread_self(), &attributes) == 0) {
        pthread_attr_getstack(&attributes, &stack, &size);
        pthread_attr_destroy(&attributes);
    }
    self->stack = (uintptr_t)stack;
    self->stack_size = size;
}

void fifobench_schedule_enter(unsigned thread)
{
    struct seat *self = &run.seat[thread];
    find_stack(self);
    set_word(&self->has_arrived);
    take_turn(self);
    seat = self;
}

void fifobench_schedule_called(unsigned what, uint64_t value)
{
    struct seat *self = seat;
    if (self == NULL) {
        is_disturbed = true;
        return;
    }
    note_event(self->number, what, value);
    self->steps = self->idle = 0;
    self->is_inside = true;
}

void fifobench_schedule_returns(void)
{
    is_disturbed = false;
    if (seat != NULL) {
        seat->is_inside = false;
        let_stores_out(seat, true);
    }
}

void fifobench_schedule_returned(unsigned what, uint64_t value)
{
    struct seat *self = seat;
    if (self == NULL) {
        return;
    }
    note_event(self->number, what, value);
    run.ended++;
    if (run.is_child && run.ended % 4096 == 0) {
        alarm(tape->seconds);
    }
    run.progress = run.steps;
    run.outside_waits = 0;
    run.one_in = run.rate * run.steps / run.ended / 2;
    run.one_in = run.one_in < 4 ? 4 : run.one_in;
    clear_restless();
    for (unsigned number = 0; number < run.threads; number++) {
        run.seat[number].is_long = false;
    }
    self->from = 0;
    self->access = ENDS;
    self->count++;
    if (run.strategy == PCT && run.wanted == NULL && run.round != 0) {
        self->quota--;
    }
    struct seat *next = self;
    if (run.wanted != NULL || run.strategy != NAPS) {
        next = pick(self, false);
    } else if (draw(2) == 0) {
        next = pick_awake(self, false);
    }
    go_on(self, next, false);
}

void fifobench_schedule_alone(void)
{
    struct seat *self = seat;
    bool all_ended = false;
    while (self != NULL && !all_ended) {
        all_ended = true;
        for (unsigned number = 0; number < run.threads; number++) {
            all_ended = all_ended && (run.seat[number].has_ended || number == self->number);
        }
        if (!all_ended) {
            self->rests = true;
            block(self, &run, "the end of all others", false, 0);
        }
    }
}

void fifobench_schedule_leave(void)
{
    struct seat *self = seat;
    if (self == NULL) {
        return;
    }
    seat = NULL;
    self->is_inside = false;
    let_stores_out(self, true);
    self->has_ended = tape->places[self->number].has_ended = true;
    self->access = ENDS;
    self->from = 0;
    self->count++;
    unsigned left = 0;
    for (unsigned number = 0; number < run.threads; number++) {
        left += !run.seat[number].has_ended;
    }
    clear_restless();
    if (left == 1) {
        release(&run);
    }
    struct seat *next = pick(self, true);
    if (next != NULL) {
        note_decision((struct decision){self->count, tape->events, 0, self->number, next->number, 0, ENDS, 1});
        set_word(&next->has_turn);
    } else {
        set_word(&run.is_over);
    }
    await_word(&run.is_over);
}

void fifobench_schedule_end(void)
{
    run.is_on = false;
    tape->ending = COMPLETE;
    tape->has_own_threads = atomic_load(&run.own_threads) > 0;
    sched_setaffinity(0, sizeof cores_before, &cores_before);
}

void fifobench_schedule_initial(uint64_t value)
{
    if (tape != NULL && tape->initial < MAX_INITIAL_VALUES) {
        tape->initial_values[tape->initial++] = value;
    }
}

void fifobench_schedule_fail(const char *sentence)
{
    if (tape != NULL && !tape->has_failed) {
        tape->has_failed = true;
        snprintf(tape->failure, sizeof tape->failure, "%s", sentence);
    }
}

int fifobench_schedule_is_chosen(void)
{
    const char *wanted = getenv("FIFOBENCH_SCHEDULES");
    return wanted == NULL || strcmp(wanted, "free") != 0;
}

void fifobench_schedule_disturb(void)
{
    atomic_store(&disturbs, true);
}
