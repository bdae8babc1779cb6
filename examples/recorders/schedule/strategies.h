// Who goes on: the threads that can, and the strategies that pick one of them. A part of schedule.c.

static int by_size(const void *a, const void *b)
{
    const uint64_t *first = a, *second = b;
    return (*first > *second) - (*first < *second);
}

// PCT: draws priorities and the points at which they change. Without rounds a run is one round.
static void begin_round(void)
{
    run.estimate = run.steps > run.round_began ? run.steps - run.round_began : run.estimate;
    run.round_began = run.steps;
    run.lowest = 0;
    for (unsigned number = 0; number < run.threads; number++) {
        run.seat[number].priority = 1000 + (int64_t)draw(1 << 30);
        run.seat[number].quota = run.round == 0 ? UINT_MAX : 1 + (unsigned)draw(run.round);
    }
    run.changed = 0;
    run.change_count = run.depth - 1;
    for (unsigned change = 0; change < run.change_count; change++) {
        run.changes[change] = 1 + draw(run.estimate);
    }
    qsort(run.changes, run.change_count, sizeof *run.changes, by_size);
}

static void clear_restless(void)
{
    for (unsigned number = 0; run.restless > 0 && number < run.threads; number++) {
        run.seat[number].relaxes = run.seat[number].spins = false;
    }
    run.restless = 0;
}

static void clear_waits(void)
{
    for (unsigned number = 0; number < run.threads; number++) {
        run.seat[number].waits_for = run.seat[number].rests ? run.seat[number].waits_for : NULL;
    }
}

// Ends the wait of one thread that waits with a limit of time. The clock has no part in it.
static bool time_out(void)
{
    struct seat *waiting[FIFOBENCH_MAX_THREADS];
    unsigned count = 0;
    for (unsigned number = 0; number < run.threads; number++) {
        struct seat *of = &run.seat[number];
        if (!of->has_ended && of->waits_for != NULL && of->may_time_out) {
            waiting[count++] = of;
        }
    }
    if (count == 0) {
        return false;
    }
    struct seat *first = waiting[choice(count)];
    first->waits_for = NULL;
    first->has_timed_out = true;
    return true;
}

// All threads wait. A thread of the queue's own may change that, but it runs by the clock: two seconds are enough.
static bool wait_outside(void)
{
    if (atomic_load(&run.own_threads) == 0 || ++run.outside_waits > 20000) {
        return false;
    }
    _Atomic uint32_t never = 0;
    futex(&never, FUTEX_WAIT, 0, &(struct timespec){0, 100000});
    clear_waits();
    return true;
}

// Lists the threads that can run, without one that leaves if there are others. Returns their number, 0 if all have
// ended. `self` is NULL at the first turn.
static unsigned list_ready(const struct seat *self, bool leaves)
{
    for (;;) {
        unsigned count = 0;
        bool all_ended = true, has_quota = true;
        if (atomic_exchange(&run.outside_changes, 0) != 0) {
            clear_waits();
        }
        for (unsigned number = 0; number < run.threads; number++) {
            struct seat *of = &run.seat[number];
            all_ended = all_ended && of->has_ended;
            has_quota = has_quota && (of->has_ended || of->quota > 0);
            if (can_run(of) && !(leaves && of == self)) {
                run.ready[count++] = of;
            }
        }
        if (count == 0 && self != NULL && can_run(self)) {
            run.ready[count++] = &run.seat[self->number];
        }
        if (count > 0 || all_ended) {
            return count;
        }
        if (run.restless > 0) {
            clear_restless();
        } else if (!has_quota) {
            begin_round();
        } else if (!time_out() && !wait_outside()) {
            end_early(DEADLOCK);
        }
    }
}

// Keeps the ready threads that don't sleep or spin, if there are some. If all sleep, keeps the one that wakes up
// first; if all spin, each may go on.
static unsigned list_awake(unsigned ready)
{
    unsigned awake = 0;
    struct seat *first = NULL;
    for (unsigned place = 0; place < ready; place++) {
        struct seat *of = run.ready[place];
        bool goes_last = of->spins || of->is_long;
        if (!goes_last && of->wakes_at <= run.ended) {
            run.ready[awake++] = of;
        } else if (!goes_last && (first == NULL || of->wakes_at < first->wakes_at)) {
            first = of;
        }
    }
    if (awake == 0 && first != NULL) {
        first->wakes_at = 0;
        run.ready[awake++] = first;
    }
    return awake > 0 ? awake : ready;
}

static struct seat *pick_awake(const struct seat *self, bool leaves)
{
    unsigned count = list_ready(self, leaves);
    if (count == 0) {
        return NULL;
    }
    count = list_awake(count);
    return run.ready[draw(count)];
}

// Naps: whether the thread falls asleep here, until some operations of others have ended.
static bool falls_asleep(struct seat *self)
{
    bool is_second = self->count == self->stops_at;
    bool is_place = !run.naps_before_writes || self->access == STORES || self->access == MODIFIES ||
                    self->access == WRITES;
    if (!is_second && (self->steps < 2 || !is_place || draw(run.one_in) != 0)) {
        return false;
    }
    self->wakes_at = run.ended + 1 + draw(UINT64_C(1) << draw(run.nap_bits));
    return true;
}

// A thread that goes on after another fell asleep may soon do so too: some faults need three threads.
static struct seat *pick_by_naps(struct seat *self, bool leaves)
{
    bool sleeps = !leaves && self != NULL && falls_asleep(self);
    if (!leaves && !sleeps) {
        return self;
    }
    struct seat *next = pick_awake(self, true);
    if (sleeps && run.naps_in_pairs && next != NULL && draw(2) == 0) {
        next->stops_at = next->count + 1 + draw(run.one_in + 1);
    }
    return next;
}

static struct seat *pick_by_walk(struct seat *self, bool leaves)
{
    return leaves || draw(run.rate) == 0 ? pick_awake(self, leaves) : self;
}

static struct seat *pick_by_priority(struct seat *self, bool leaves)
{
    while (!leaves && run.changed < run.change_count && run.steps - run.round_began >= run.changes[run.changed]) {
        self->priority = (int64_t)(run.change_count - run.changed++);
    }
    if (leaves && self != NULL) {
        self->priority = --run.lowest;
    }
    unsigned count = list_ready(self, leaves);
    struct seat *best = NULL;
    for (unsigned place = 0; place < count; place++) {
        struct seat *of = run.ready[place];
        bool is_later = best != NULL && (of->wakes_at > run.ended) > (best->wakes_at > run.ended);
        bool is_sooner = best == NULL || (of->wakes_at > run.ended) < (best->wakes_at > run.ended);
        best = is_sooner || (!is_later && of->priority > best->priority) ? of : best;
    }
    return best;
}

// The decision that is wanted at this count of a thread's points, or NULL.
static const struct decision *wanted_at(unsigned thread, uint64_t point, size_t *next, bool is_store)
{
    while (*next < run.wanted_count && (run.wanted[*next].thread < thread || (run.wanted[*next].thread == thread &&
                                                                               run.wanted[*next].point < point))) {
        ++*next;
    }
    for (size_t place = *next; place < run.wanted_count; place++) {
        const struct decision *wanted = &run.wanted[place];
        if (wanted->thread != thread || wanted->point != point) {
            return NULL;
        }
        if ((wanted->to == STORE_WAITS) == is_store) {
            return wanted;
        }
    }
    return NULL;
}

// Makes the switches that are wanted; a thread that can't go on is followed by the next by number.
static struct seat *pick_wanted(struct seat *self, bool leaves)
{
    size_t first = 0;
    const struct decision *wanted = self != NULL ? wanted_at(self->number, self->count, &self->next_wanted, false)
                                                 : wanted_at(FIRST_TURN, 0, &first, false);
    if (wanted != NULL && wanted->to < run.threads) {
        struct seat *to = &run.seat[wanted->to];
        if (!to->has_ended && to->waits_for == NULL) {
            to->relaxes = to->spins = false;
            return to;
        }
    }
    if (!leaves && self != NULL) {
        return self;
    }
    unsigned count = list_ready(self, leaves), best = 0;
    for (unsigned place = 0; self != NULL && place < count; place++) {
        unsigned distance = (run.ready[place]->number + run.threads - self->number - 1) % run.threads;
        unsigned least = (run.ready[best]->number + run.threads - self->number - 1) % run.threads;
        best = distance < least ? place : best;
    }
    return count == 0 ? NULL : run.ready[best];
}

// No operation has ended for long. A strategy that goes on in the same way may be what keeps threads from it, so any
// thread may go on, whether it sleeps or not: a run is called a livelock only if that doesn't help.
static struct seat *pick_fairly(struct seat *self, bool leaves)
{
    if (!leaves && draw(10) != 0) {
        return self;
    }
    unsigned count = list_ready(self, leaves);
    return count == 0 ? NULL : run.ready[draw(count)];
}

static struct seat *pick(struct seat *self, bool leaves)
{
    if (run.wanted != NULL) {
        return pick_wanted(self, leaves);
    }
    if (run.steps - run.progress > run.patience / 2) {
        return pick_fairly(self, leaves);
    }
    switch (run.strategy) {
    case NAPS: return pick_by_naps(self, leaves);
    case WALK: return pick_by_walk(self, leaves);
    case PCT:
    case STRATEGIES: break;
    }
    return pick_by_priority(self, leaves);
}
