// The functions that code compiled with -fsanitize=thread calls. A part of schedule.c.

// Free runs: spins, yields or sleeps by chance, so that threads meet in more ways.
static void disturb(void)
{
    if (disturbance == 0) {
        disturbance = atomic_fetch_add(&disturbances, UINT64_C(0x9E3779B97F4A7C15)) + 1;
    }
    uint64_t random = next_random(&disturbance);
    if ((random & 15) == 0) {
        for (volatile uint64_t turns = random >> 8 & 255; turns > 0; turns = turns - 1) {
        }
    }
    if ((random >> 24 & 127) == 0) {
        sched_yield();
    }
    if ((random >> 40 & 511) == 0) {
        usleep(1 + (unsigned)((random >> 52) % 50));
    }
}

static inline struct seat *inside(void)
{
    struct seat *self = seat;
    return self != NULL && self->is_inside && !self->is_quiet ? self : NULL;
}

static void disturb_if_free(void)
{
    if (is_disturbed && atomic_load_explicit(&disturbs, memory_order_relaxed)) {
        is_disturbed = false;
        disturb();
        is_disturbed = true;
    }
}

// A point before a plain access. The thread's own stack isn't shared.
static void plain(const volatile void *at, size_t size, enum access access, uintptr_t from)
{
    struct seat *self = inside();
    if (self == NULL) {
        disturb_if_free();
        return;
    }
    if (self->stores > 0 && overlaps(self, at, size)) {
        let_stores_out(self, true);
    }
    if (!is_own_stack(self, at)) {
        tape->accesses++;
        step(self, access, from);
    }
}

// A point before an atomic access. Returns the thread if its schedule is chosen.
static struct seat *atomic_point(enum access access, uintptr_t from)
{
    struct seat *self = inside();
    if (self == NULL) {
        disturb_if_free();
        return NULL;
    }
    tape->accesses++;
    tape->atomics++;
    step(self, access, from);
    return self;
}

static struct seat *modify_point(uintptr_t from)
{
    struct seat *self = atomic_point(MODIFIES, from);
    if (self != NULL) {
        let_stores_out(self, true);
    }
    return self;
}

static void modified(struct seat *self, bool is_changed)
{
    if (self != NULL && is_changed) {
        wrote(self);
    }
}

static void fence(int order, uintptr_t from)
{
    struct seat *self = atomic_point(FENCES, from);
    if (self != NULL && order == __ATOMIC_SEQ_CST) {
        let_stores_out(self, true);
    }
    __atomic_thread_fence(__ATOMIC_SEQ_CST);
}

void fifobench_point(int writes)
{
    atomic_point(writes ? MODIFIES : LOADS, FROM);
}

void fifobench_relax(void)
{
    struct seat *self = inside();
    if (self != NULL) {
        relax(self, FROM);
    } else {
        sched_yield();
    }
}

// What the compilers call. Declared here, since no header has them.
#define PLAIN(NAME, SIZE, ACCESS)   \
    void __tsan_##NAME(void *at);   \
    void __tsan_##NAME(void *at) { plain(at, SIZE, ACCESS, FROM); }
#define PLAIN_SIZE(N)                         \
    PLAIN(read##N, N, READS)                  \
    PLAIN(write##N, N, WRITES)                \
    PLAIN(read_write##N, N, WRITES)           \
    PLAIN(volatile_read##N, N, READS)         \
    PLAIN(volatile_write##N, N, WRITES)
#define UNALIGNED_SIZE(N)                     \
    PLAIN(unaligned_read##N, N, READS)        \
    PLAIN(unaligned_write##N, N, WRITES)      \
    PLAIN(unaligned_read_write##N, N, WRITES) \
    PLAIN(unaligned_volatile_read##N, N, READS) \
    PLAIN(unaligned_volatile_write##N, N, WRITES)

PLAIN_SIZE(1)
PLAIN_SIZE(2)
PLAIN_SIZE(4)
PLAIN_SIZE(8)
PLAIN_SIZE(16)
UNALIGNED_SIZE(2)
UNALIGNED_SIZE(4)
UNALIGNED_SIZE(8)
UNALIGNED_SIZE(16)
PLAIN(vptr_read, sizeof(void *), READS)

#define RANGE(NAME, ACCESS)                    \
    void __tsan_##NAME(void *at, size_t size); \
    void __tsan_##NAME(void *at, size_t size) { plain(at, size, ACCESS, FROM); }

RANGE(read_range, READS)
RANGE(write_range, WRITES)

void __tsan_vptr_update(void **at, void *value);
void __tsan_vptr_update(void **at, void *value)
{
    (void)value;
    plain(at, sizeof *at, WRITES, FROM);
}

void *__tsan_memcpy(void *to, const void *from, size_t size);
void *__tsan_memcpy(void *to, const void *from, size_t size)
{
    plain(from, size, READS, FROM);
    plain(to, size, WRITES, FROM);
    return memcpy(to, from, size);
}

void *__tsan_memmove(void *to, const void *from, size_t size);
void *__tsan_memmove(void *to, const void *from, size_t size)
{
    plain(from, size, READS, FROM);
    plain(to, size, WRITES, FROM);
    return memmove(to, from, size);
}

void *__tsan_memset(void *to, int byte, size_t size);
void *__tsan_memset(void *to, int byte, size_t size)
{
    plain(to, size, WRITES, FROM);
    return memset(to, byte, size);
}

// Nothing to do.
#define IDLE(NAME, ...)              \
    void __tsan_##NAME(__VA_ARGS__); \
    void __tsan_##NAME(__VA_ARGS__) {}

IDLE(init, void)
IDLE(func_exit, void)
IDLE(ignore_thread_begin, void)
IDLE(ignore_thread_end, void)

void __tsan_func_entry(void *caller);
void __tsan_func_entry(void *caller) { (void)caller; }
void __tsan_acquire(void *at);
void __tsan_acquire(void *at) { (void)at; }
void __tsan_release(void *at);
void __tsan_release(void *at) { (void)at; }
void __tsan_atomic_signal_fence(int order);
void __tsan_atomic_signal_fence(int order) { (void)order; }
void __tsan_atomic_thread_fence(int order);
void __tsan_atomic_thread_fence(int order) { fence(order, FROM); }

#define ORDER __ATOMIC_SEQ_CST

// An operation that changes a value: the order is always the strongest, since the processor makes one step at a time.
#define FETCH(N, T, NAME)                                                     \
    T __tsan_atomic##N##_##NAME(volatile T *at, T value, int order);          \
    T __tsan_atomic##N##_##NAME(volatile T *at, T value, int order)           \
    {                                                                         \
        (void)order;                                                          \
        struct seat *self = modify_point(FROM);                               \
        T old = __atomic_##NAME(at, value, ORDER);                            \
        modified(self, self != NULL && __atomic_load_n(at, ORDER) != old);    \
        return old;                                                           \
    }

#define COMPARE(N, T, NAME)                                                                                  \
    int __tsan_atomic##N##_##NAME(volatile T *at, T *expected, T value, int success, int failure);           \
    int __tsan_atomic##N##_##NAME(volatile T *at, T *expected, T value, int success, int failure)            \
    {                                                                                                        \
        (void)success, (void)failure;                                                                        \
        struct seat *self = modify_point(FROM);                                                              \
        bool is_same = *expected == value;                                                                   \
        bool is_done = __atomic_compare_exchange_n(at, expected, value, false, ORDER, ORDER);                \
        modified(self, is_done && !is_same);                                                                 \
        return is_done;                                                                                      \
    }

#define ATOMIC(N, T)                                                                                         \
    T __tsan_atomic##N##_load(const volatile T *at, int order);                                              \
    T __tsan_atomic##N##_load(const volatile T *at, int order)                                               \
    {                                                                                                        \
        (void)order;                                                                                         \
        uint64_t own = 0;                                                                                    \
        struct seat *self = atomic_point(LOADS, FROM);                                                       \
        if (self != NULL && self->stores > 0 && load_own(self, at, sizeof *at, &own)) {                      \
            return (T)own;                                                                                   \
        }                                                                                                    \
        return __atomic_load_n(at, ORDER);                                                                   \
    }                                                                                                        \
    void __tsan_atomic##N##_store(volatile T *at, T value, int order);                                       \
    void __tsan_atomic##N##_store(volatile T *at, T value, int order)                                        \
    {                                                                                                        \
        struct seat *self = atomic_point(STORES, FROM);                                                      \
        if (self == NULL || !keep_store(self, at, value, sizeof *at, order, FROM)) {                         \
            __atomic_store_n(at, value, ORDER);                                                              \
        }                                                                                                    \
    }                                                                                                        \
    T __tsan_atomic##N##_compare_exchange_val(volatile T *at, T expected, T value, int success, int failure); \
    T __tsan_atomic##N##_compare_exchange_val(volatile T *at, T expected, T value, int success, int failure) \
    {                                                                                                        \
        (void)success, (void)failure;                                                                        \
        struct seat *self = modify_point(FROM);                                                              \
        bool is_same = expected == value;                                                                    \
        bool is_done = __atomic_compare_exchange_n(at, &expected, value, false, ORDER, ORDER);               \
        modified(self, is_done && !is_same);                                                                 \
        return expected;                                                                                     \
    }                                                                                                        \
    T __tsan_atomic##N##_exchange(volatile T *at, T value, int order);                                       \
    T __tsan_atomic##N##_exchange(volatile T *at, T value, int order)                                        \
    {                                                                                                        \
        (void)order;                                                                                         \
        struct seat *self = modify_point(FROM);                                                              \
        T old = __atomic_exchange_n(at, value, ORDER);                                                       \
        modified(self, old != value);                                                                        \
        return old;                                                                                          \
    }                                                                                                        \
    COMPARE(N, T, compare_exchange_strong)                                                                   \
    COMPARE(N, T, compare_exchange_weak)                                                                     \
    FETCH(N, T, fetch_add)                                                                                   \
    FETCH(N, T, fetch_sub)                                                                                   \
    FETCH(N, T, fetch_and)                                                                                   \
    FETCH(N, T, fetch_or)                                                                                    \
    FETCH(N, T, fetch_xor)                                                                                   \
    FETCH(N, T, fetch_nand)

ATOMIC(8, uint8_t)
ATOMIC(16, uint16_t)
ATOMIC(32, uint32_t)
ATOMIC(64, uint64_t)

// Annotations that the sanitizer's library has. Queues call them where they see __SANITIZE_THREAD__, as libcds does, to
// name what that library can't see. Here they do nothing. A program may have its own in their place.
#define ANNOTATES(NAME)                                                  \
    void Annotate##NAME(const char *file, int line);                     \
    __attribute__((weak)) void Annotate##NAME(const char *file, int line) \
    {                                                                    \
        (void)file, (void)line;                                          \
    }
#define ANNOTATES_OBJECT(NAME)                                                                          \
    void Annotate##NAME(const char *file, int line, const volatile void *object);                       \
    __attribute__((weak)) void Annotate##NAME(const char *file, int line, const volatile void *object) \
    {                                                                                                   \
        (void)file, (void)line, (void)object;                                                           \
    }
#define ANNOTATES_SIZED(NAME)                                                                                        \
    void Annotate##NAME(const char *file, int line, const volatile void *object, size_t size);                       \
    __attribute__((weak)) void Annotate##NAME(const char *file, int line, const volatile void *object, size_t size) \
    {                                                                                                                \
        (void)file, (void)line, (void)object, (void)size;                                                            \
    }

ANNOTATES(IgnoreReadsBegin)
ANNOTATES(IgnoreReadsEnd)
ANNOTATES(IgnoreWritesBegin)
ANNOTATES(IgnoreWritesEnd)
ANNOTATES(IgnoreSyncBegin)
ANNOTATES(IgnoreSyncEnd)
ANNOTATES_OBJECT(HappensBefore)
ANNOTATES_OBJECT(HappensAfter)
ANNOTATES_OBJECT(RWLockCreate)
ANNOTATES_OBJECT(RWLockDestroy)
ANNOTATES_SIZED(RWLockAcquired)
ANNOTATES_SIZED(RWLockReleased)
ANNOTATES_SIZED(NewMemory)
ANNOTATES_SIZED(PublishMemoryRange)
ANNOTATES_SIZED(UnpublishMemoryRange)
