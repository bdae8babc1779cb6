// Objects of 16 bytes, and those for which the compilers call functions of libatomic. A part of schedule.c. A store of
// them never waits.

__extension__ typedef unsigned __int128 wide;

static atomic_flag wide_lock = ATOMIC_FLAG_INIT;

static void take_wide_lock(void)
{
    while (atomic_flag_test_and_set(&wide_lock)) {
    }
}

#if defined __x86_64__
static wide compare_wide(volatile wide *at, wide expected, wide value)
{
    uint64_t low = (uint64_t)expected, high = (uint64_t)(expected >> 64);
    __asm__ __volatile__("lock cmpxchg16b %0"
                         : "+m"(*at), "+a"(low), "+d"(high)
                         : "b"((uint64_t)value), "c"((uint64_t)(value >> 64))
                         : "cc", "memory");
    return (wide)high << 64 | low;
}
#else
static wide compare_wide(volatile wide *at, wide expected, wide value)
{
    take_wide_lock();
    wide old = *at;
    *at = old == expected ? value : old;
    atomic_flag_clear(&wide_lock);
    return old;
}
#endif

static wide load_wide(const volatile wide *at)
{
    return compare_wide((volatile wide *)(uintptr_t)at, 0, 0);
}

enum operation { EXCHANGE, ADD, SUBTRACT, AND, OR, XOR, NAND };

static wide result_of(enum operation operation, wide old, wide value)
{
    switch (operation) {
    case EXCHANGE: break;
    case ADD: return old + value;
    case SUBTRACT: return old - value;
    case AND: return old & value;
    case OR: return old | value;
    case XOR: return old ^ value;
    case NAND: return ~(old & value);
    }
    return value;
}

static wide change_wide(volatile wide *at, enum operation operation, wide value, uintptr_t from)
{
    struct seat *self = modify_point(from);
    wide seen = load_wide(at), old;
    do {
        old = seen;
        seen = compare_wide(at, old, result_of(operation, old, value));
    } while (seen != old);
    modified(self, result_of(operation, old, value) != old);
    return old;
}

static wide exchange_if_wide(volatile wide *at, wide expected, wide value, uintptr_t from)
{
    struct seat *self = modify_point(from);
    wide old = compare_wide(at, expected, value);
    modified(self, old == expected && expected != value);
    return old;
}

#define WIDE(NAME, OPERATION)                                                 \
    wide __tsan_atomic128_##NAME(volatile wide *at, wide value, int order);   \
    wide __tsan_atomic128_##NAME(volatile wide *at, wide value, int order)    \
    {                                                                         \
        (void)order;                                                          \
        return change_wide(at, OPERATION, value, FROM);                       \
    }
#define WIDE_COMPARE(NAME)                                                                                      \
    int __tsan_atomic128_##NAME(volatile wide *at, wide *expected, wide value, int success, int failure);       \
    int __tsan_atomic128_##NAME(volatile wide *at, wide *expected, wide value, int success, int failure)        \
    {                                                                                                           \
        (void)success, (void)failure;                                                                           \
        wide wanted = *expected;                                                                                \
        *expected = exchange_if_wide(at, wanted, value, FROM);                                                  \
        return *expected == wanted;                                                                             \
    }

WIDE(exchange, EXCHANGE)
WIDE(fetch_add, ADD)
WIDE(fetch_sub, SUBTRACT)
WIDE(fetch_and, AND)
WIDE(fetch_or, OR)
WIDE(fetch_xor, XOR)
WIDE(fetch_nand, NAND)
WIDE_COMPARE(compare_exchange_strong)
WIDE_COMPARE(compare_exchange_weak)

wide __tsan_atomic128_compare_exchange_val(volatile wide *at, wide expected, wide value, int success, int failure);
wide __tsan_atomic128_compare_exchange_val(volatile wide *at, wide expected, wide value, int success, int failure)
{
    (void)success, (void)failure;
    return exchange_if_wide(at, expected, value, FROM);
}

wide __tsan_atomic128_load(const volatile wide *at, int order);
wide __tsan_atomic128_load(const volatile wide *at, int order)
{
    (void)order;
    struct seat *self = atomic_point(LOADS, FROM);
    if (self != NULL && overlaps(self, at, sizeof *at)) {
        let_stores_out(self, true);
    }
    return load_wide(at);
}

void __tsan_atomic128_store(volatile wide *at, wide value, int order);
void __tsan_atomic128_store(volatile wide *at, wide value, int order)
{
    (void)order;
    change_wide(at, EXCHANGE, value, FROM);
}

// The functions of libatomic by their own names, since the compilers know these names as built in. Objects of other
// sizes are under one lock.
wide library_load_16(const volatile wide *at, int order) __asm__("__atomic_load_16");
wide library_load_16(const volatile wide *at, int order)
{
    return __tsan_atomic128_load(at, order);
}

void library_store_16(volatile wide *at, wide value, int order) __asm__("__atomic_store_16");
void library_store_16(volatile wide *at, wide value, int order)
{
    (void)order;
    change_wide(at, EXCHANGE, value, FROM);
}

wide library_exchange_16(volatile wide *at, wide value, int order) __asm__("__atomic_exchange_16");
wide library_exchange_16(volatile wide *at, wide value, int order)
{
    (void)order;
    return change_wide(at, EXCHANGE, value, FROM);
}

bool library_compare_16(volatile wide *at, wide *expected, wide value, int success, int failure)
    __asm__("__atomic_compare_exchange_16");
bool library_compare_16(volatile wide *at, wide *expected, wide value, int success, int failure)
{
    (void)success, (void)failure;
    wide wanted = *expected;
    *expected = exchange_if_wide(at, wanted, value, FROM);
    return *expected == wanted;
}

void library_load(size_t size, const void *at, void *to, int order) __asm__("__atomic_load");
void library_load(size_t size, const void *at, void *to, int order)
{
    (void)order;
    atomic_point(LOADS, FROM);
    take_wide_lock();
    memcpy(to, at, size);
    atomic_flag_clear(&wide_lock);
}

void library_exchange(size_t size, void *at, const void *from, void *to, int order) __asm__("__atomic_exchange");
void library_exchange(size_t size, void *at, const void *from, void *to, int order)
{
    (void)order;
    struct seat *self = modify_point(FROM);
    take_wide_lock();
    bool is_changed = memcmp(at, from, size) != 0;
    if (to != NULL) {
        memcpy(to, at, size);
    }
    memcpy(at, from, size);
    atomic_flag_clear(&wide_lock);
    modified(self, is_changed);
}

void library_store(size_t size, void *at, const void *from, int order) __asm__("__atomic_store");
void library_store(size_t size, void *at, const void *from, int order)
{
    library_exchange(size, at, from, NULL, order);
}

bool library_compare(size_t size, void *at, void *expected, const void *value, int success, int failure)
    __asm__("__atomic_compare_exchange");
bool library_compare(size_t size, void *at, void *expected, const void *value, int success, int failure)
{
    (void)success, (void)failure;
    struct seat *self = modify_point(FROM);
    take_wide_lock();
    bool is_done = memcmp(at, expected, size) == 0, is_changed = is_done && memcmp(at, value, size) != 0;
    memcpy(is_done ? at : expected, is_done ? value : at, size);
    atomic_flag_clear(&wide_lock);
    modified(self, is_changed);
    return is_done;
}
