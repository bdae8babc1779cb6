// Stores that wait. A part of schedule.c, whose head says which executions they show.

static void store_now(const struct store *store)
{
    switch (store->size) {
    case 1: __atomic_store_n((volatile uint8_t *)store->at, (uint8_t)store->value, __ATOMIC_SEQ_CST); break;
    case 2: __atomic_store_n((volatile uint16_t *)store->at, (uint16_t)store->value, __ATOMIC_SEQ_CST); break;
    case 4: __atomic_store_n((volatile uint32_t *)store->at, (uint32_t)store->value, __ATOMIC_SEQ_CST); break;
    default: __atomic_store_n((volatile uint64_t *)store->at, store->value, __ATOMIC_SEQ_CST); break;
    }
}

// Makes the thread's stores that have waited long enough, in order; or all.
static void let_stores_out(struct seat *self, bool all)
{
    unsigned out = 0;
    for (unsigned place = 0; place < self->stores; place++) {
        self->store[place].points -= self->store[place].points > 0;
    }
    while (out < self->stores && (all || self->store[out].points == 0)) {
        store_now(&self->store[out++]);
        wrote(self);
    }
    if (out > 0) {
        note_decision((struct decision){self->count, tape->events, 0, self->number, STORE_IS_SEEN, 0, STORES, 1});
        self->stores -= out;
        memmove(self->store, self->store + out, self->stores * sizeof *self->store);
    }
}

static bool is_own_stack(const struct seat *self, const volatile void *at)
{
    return (uintptr_t)at - self->stack < self->stack_size;
}

// For how many points of its thread a store waits: 0 if it is made at once.
static unsigned waiting_points(struct seat *self)
{
    if (run.wanted != NULL) {
        const struct decision *wanted = wanted_at(self->number, self->count, &self->next_wanted, true);
        return wanted != NULL ? wanted->points : 0;
    }
    return draw(run.store_rate) == 0 ? 1 + (unsigned)draw(UINT64_C(1) << draw(6)) : 0;
}

// Puts a store into the thread's list, behind those that wait already. Returns false if it has to be made now.
static bool keep_store(struct seat *self, volatile void *at, uint64_t value, unsigned size, int order, uintptr_t from)
{
    bool may_wait = run.has_buffers && order != __ATOMIC_SEQ_CST && !is_own_stack(self, at);
    unsigned points = may_wait ? waiting_points(self) : 0;
    if (!may_wait || self->stores == MAX_STORES) {
        let_stores_out(self, true);
    }
    if (points == 0 && self->stores == 0) {
        return false;
    }
    self->store[self->stores++] = (struct store){value, at, size, points};
    if (points > 0) {
        note_decision((struct decision){self->count, tape->events, from, self->number, STORE_WAITS, points, STORES, 0});
    }
    return true;
}

// Whether a store to these bytes waits in the thread's own list.
static bool overlaps(const struct seat *self, const volatile void *at, size_t size)
{
    for (unsigned place = 0; place < self->stores; place++) {
        uintptr_t first = (uintptr_t)self->store[place].at;
        if (first < (uintptr_t)at + size && (uintptr_t)at < first + self->store[place].size) {
            return true;
        }
    }
    return false;
}

// Gives the value that the thread itself stored last, if that store still waits. One that covers other bytes of the
// object is made first.
static bool load_own(struct seat *self, const volatile void *at, unsigned size, uint64_t *value)
{
    for (unsigned place = self->stores; place-- > 0;) {
        if (self->store[place].at == at && self->store[place].size == size) {
            *value = self->store[place].value;
            return true;
        }
        if (overlaps(self, at, size)) {
            let_stores_out(self, true);
            return false;
        }
    }
    return false;
}
