// Whatever blocks gives way. A part of schedule.c. These functions stand in front of those of the C library; called by
// a thread of a run within a call of the queue, they try, and let another thread go on as long as they would wait. A
// limit of time has passed when no thread can go on otherwise.

// Finds the C library's function of this name. The conditions of glibc have an older version, which isn't meant.
static void find_real(const char *name, void *function)
{
    void *found = strncmp(name, "pthread_cond", 12) == 0 ? dlvsym(RTLD_NEXT, name, "GLIBC_2.3.2") : NULL;
    found = found != NULL ? found : dlsym(RTLD_NEXT, name);
    if (found == NULL) {
        fprintf(stderr, "fifobench: the C library has no %s\n", name);
        abort();
    }
    memcpy(function, &found, sizeof found);
}

#define HAS_REAL(NAME) static __typeof__(NAME) *real_##NAME
#define REAL(NAME) (real_##NAME == NULL ? find_real(#NAME, &real_##NAME) : (void)0, *real_##NAME)

static struct seat *blocking(void)
{
    return seat != NULL && seat->is_inside ? seat : NULL;
}

// A point before an operation on a lock or the like. Stores that wait are made.
static struct seat *lock_point(uintptr_t from)
{
    struct seat *self = blocking();
    if (self != NULL) {
        tape->locks++;
        if (!self->is_quiet) {
            step(self, MODIFIES, from);
        }
        let_stores_out(self, true);
    }
    return self;
}

// Lets those look again that wait for the object. A thread that isn't the run's may have changed it.
static void changed(const void *object)
{
    if (seat != NULL) {
        wrote(seat);
        release(object);
    } else if (run.is_on && atomic_load(&run.own_threads) > 0) {
        atomic_store(&run.outside_changes, 1);
    }
}

HAS_REAL(pthread_mutex_lock);
HAS_REAL(pthread_mutex_trylock);
HAS_REAL(pthread_mutex_timedlock);
HAS_REAL(pthread_mutex_unlock);

// Returns as pthread_mutex_timedlock does.
static int lock_mutex(struct seat *self, pthread_mutex_t *mutex, bool may_time_out, uintptr_t from)
{
    static const struct timespec past = {0, 0};
    for (;;) {
        int status = REAL(pthread_mutex_trylock)(mutex);
        // A second try, since only this one says that the mutex is the thread's own.
        status = status == EBUSY ? REAL(pthread_mutex_timedlock)(mutex, &past) : status;
        if (status != ETIMEDOUT) {
            return status;
        }
        if (block(self, mutex, "a mutex", may_time_out, from)) {
            return ETIMEDOUT;
        }
    }
}

int pthread_mutex_lock(pthread_mutex_t *mutex)
{
    struct seat *self = lock_point(FROM);
    return self != NULL ? lock_mutex(self, mutex, false, FROM) : REAL(pthread_mutex_lock)(mutex);
}

int pthread_mutex_trylock(pthread_mutex_t *mutex)
{
    lock_point(FROM);
    return REAL(pthread_mutex_trylock)(mutex);
}

int pthread_mutex_timedlock(pthread_mutex_t *mutex, const struct timespec *until)
{
    struct seat *self = lock_point(FROM);
    return self != NULL ? lock_mutex(self, mutex, true, FROM) : REAL(pthread_mutex_timedlock)(mutex, until);
}

HAS_REAL(pthread_mutex_clocklock);
int pthread_mutex_clocklock(pthread_mutex_t *mutex, clockid_t clock, const struct timespec *until)
{
    struct seat *self = lock_point(FROM);
    return self != NULL ? lock_mutex(self, mutex, true, FROM) : REAL(pthread_mutex_clocklock)(mutex, clock, until);
}

int pthread_mutex_unlock(pthread_mutex_t *mutex)
{
    if (blocking() != NULL) {
        let_stores_out(seat, true);
    }
    int status = REAL(pthread_mutex_unlock)(mutex);
    changed(mutex);
    return status;
}

HAS_REAL(pthread_spin_lock);
HAS_REAL(pthread_spin_trylock);
HAS_REAL(pthread_spin_unlock);

int pthread_spin_lock(pthread_spinlock_t *lock)
{
    struct seat *self = lock_point(FROM);
    if (self == NULL) {
        return REAL(pthread_spin_lock)(lock);
    }
    while (REAL(pthread_spin_trylock)(lock) != 0) {
        block(self, (const void *)lock, "a spin lock", false, FROM);
    }
    return 0;
}

int pthread_spin_unlock(pthread_spinlock_t *lock)
{
    if (blocking() != NULL) {
        let_stores_out(seat, true);
    }
    int status = REAL(pthread_spin_unlock)(lock);
    changed((const void *)lock);
    return status;
}

HAS_REAL(pthread_rwlock_rdlock);
HAS_REAL(pthread_rwlock_wrlock);
HAS_REAL(pthread_rwlock_tryrdlock);
HAS_REAL(pthread_rwlock_trywrlock);
HAS_REAL(pthread_rwlock_timedrdlock);
HAS_REAL(pthread_rwlock_timedwrlock);
HAS_REAL(pthread_rwlock_unlock);

static int lock_shared(struct seat *self, pthread_rwlock_t *lock, bool writes, bool may_time_out, uintptr_t from)
{
    for (;;) {
        int status = writes ? REAL(pthread_rwlock_trywrlock)(lock) : REAL(pthread_rwlock_tryrdlock)(lock);
        if (status != EBUSY) {
            return status;
        }
        if (block(self, lock, "a read-write lock", may_time_out, from)) {
            return ETIMEDOUT;
        }
    }
}

int pthread_rwlock_rdlock(pthread_rwlock_t *lock)
{
    struct seat *self = lock_point(FROM);
    return self != NULL ? lock_shared(self, lock, false, false, FROM) : REAL(pthread_rwlock_rdlock)(lock);
}

int pthread_rwlock_wrlock(pthread_rwlock_t *lock)
{
    struct seat *self = lock_point(FROM);
    return self != NULL ? lock_shared(self, lock, true, false, FROM) : REAL(pthread_rwlock_wrlock)(lock);
}

int pthread_rwlock_tryrdlock(pthread_rwlock_t *lock)
{
    lock_point(FROM);
    return REAL(pthread_rwlock_tryrdlock)(lock);
}

int pthread_rwlock_trywrlock(pthread_rwlock_t *lock)
{
    lock_point(FROM);
    return REAL(pthread_rwlock_trywrlock)(lock);
}

int pthread_rwlock_timedrdlock(pthread_rwlock_t *lock, const struct timespec *until)
{
    struct seat *self = lock_point(FROM);
    return self != NULL ? lock_shared(self, lock, false, true, FROM) : REAL(pthread_rwlock_timedrdlock)(lock, until);
}

int pthread_rwlock_timedwrlock(pthread_rwlock_t *lock, const struct timespec *until)
{
    struct seat *self = lock_point(FROM);
    return self != NULL ? lock_shared(self, lock, true, true, FROM) : REAL(pthread_rwlock_timedwrlock)(lock, until);
}

int pthread_rwlock_unlock(pthread_rwlock_t *lock)
{
    if (blocking() != NULL) {
        let_stores_out(seat, true);
    }
    int status = REAL(pthread_rwlock_unlock)(lock);
    changed(lock);
    return status;
}

HAS_REAL(pthread_cond_wait);
HAS_REAL(pthread_cond_timedwait);
HAS_REAL(pthread_cond_clockwait);
HAS_REAL(pthread_cond_signal);
HAS_REAL(pthread_cond_broadcast);

static int wait_condition(pthread_cond_t *condition, pthread_mutex_t *mutex, bool may_time_out, uintptr_t from)
{
    struct seat *self = lock_point(from);
    REAL(pthread_mutex_unlock)(mutex);
    release(mutex);
    bool has_timed_out = block(self, condition, "a condition", may_time_out, from);
    int status = lock_mutex(self, mutex, false, from);
    return status == 0 && has_timed_out ? ETIMEDOUT : status;
}

int pthread_cond_wait(pthread_cond_t *condition, pthread_mutex_t *mutex)
{
    return blocking() != NULL ? wait_condition(condition, mutex, false, FROM)
                              : REAL(pthread_cond_wait)(condition, mutex);
}

int pthread_cond_timedwait(pthread_cond_t *condition, pthread_mutex_t *mutex, const struct timespec *until)
{
    return blocking() != NULL ? wait_condition(condition, mutex, true, FROM)
                              : REAL(pthread_cond_timedwait)(condition, mutex, until);
}

int pthread_cond_clockwait(pthread_cond_t *condition, pthread_mutex_t *mutex, clockid_t clock,
                           const struct timespec *until)
{
    return blocking() != NULL ? wait_condition(condition, mutex, true, FROM)
                              : REAL(pthread_cond_clockwait)(condition, mutex, clock, until);
}

// Lets some of those go on that wait for the object; the seed says which. Returns how many there were.
static unsigned wake_some(const void *object, uint64_t most)
{
    struct seat *waiting[FIFOBENCH_MAX_THREADS];
    unsigned count = 0, woken = 0;
    for (unsigned number = 0; number < run.threads; number++) {
        if (run.seat[number].waits_for == object) {
            waiting[count++] = &run.seat[number];
        }
    }
    while (count > 0 && woken < most) {
        uint64_t place = choice(count);
        waiting[place]->waits_for = NULL;
        waiting[place] = waiting[--count];
        woken++;
    }
    return woken;
}

int pthread_cond_signal(pthread_cond_t *condition)
{
    struct seat *self = lock_point(FROM);
    if (self != NULL) {
        wrote(self);
        wake_some(condition, 1);
    } else {
        changed(condition);
    }
    return REAL(pthread_cond_signal)(condition);
}

int pthread_cond_broadcast(pthread_cond_t *condition)
{
    lock_point(FROM);
    changed(condition);
    return REAL(pthread_cond_broadcast)(condition);
}

HAS_REAL(sem_wait);
HAS_REAL(sem_trywait);
HAS_REAL(sem_timedwait);
HAS_REAL(sem_clockwait);
HAS_REAL(sem_post);

static int wait_semaphore(struct seat *self, sem_t *semaphore, bool may_time_out, uintptr_t from)
{
    while (REAL(sem_trywait)(semaphore) != 0) {
        if (errno != EAGAIN) {
            return -1;
        }
        if (block(self, semaphore, "a semaphore", may_time_out, from)) {
            errno = ETIMEDOUT;
            return -1;
        }
    }
    return 0;
}

int sem_wait(sem_t *semaphore)
{
    struct seat *self = lock_point(FROM);
    return self != NULL ? wait_semaphore(self, semaphore, false, FROM) : REAL(sem_wait)(semaphore);
}

int sem_trywait(sem_t *semaphore)
{
    lock_point(FROM);
    return REAL(sem_trywait)(semaphore);
}

int sem_timedwait(sem_t *semaphore, const struct timespec *until)
{
    struct seat *self = lock_point(FROM);
    return self != NULL ? wait_semaphore(self, semaphore, true, FROM) : REAL(sem_timedwait)(semaphore, until);
}

int sem_clockwait(sem_t *semaphore, clockid_t clock, const struct timespec *until)
{
    struct seat *self = lock_point(FROM);
    return self != NULL ? wait_semaphore(self, semaphore, true, FROM) : REAL(sem_clockwait)(semaphore, clock, until);
}

int sem_post(sem_t *semaphore)
{
    lock_point(FROM);
    int status = REAL(sem_post)(semaphore);
    changed(semaphore);
    return status;
}

// Barriers, whose counts are noted as they are made, since a barrier can't be tried.
enum { MAX_BARRIERS = 256 };
static struct {
    pthread_barrier_t *at;
    unsigned count, arrived, round;
} barriers[MAX_BARRIERS];

HAS_REAL(pthread_barrier_init);
HAS_REAL(pthread_barrier_wait);
HAS_REAL(pthread_barrier_destroy);

static unsigned barrier_place(const pthread_barrier_t *barrier)
{
    unsigned place = 0;
    while (place < MAX_BARRIERS && barriers[place].at != barrier) {
        place++;
    }
    return place;
}

int pthread_barrier_init(pthread_barrier_t *barrier, const pthread_barrierattr_t *attributes, unsigned count)
{
    unsigned place = barrier_place(barrier);
    place = place == MAX_BARRIERS ? barrier_place(NULL) : place;
    if (place < MAX_BARRIERS) {
        barriers[place].at = barrier;
        barriers[place].count = count;
        barriers[place].arrived = barriers[place].round = 0;
    }
    return REAL(pthread_barrier_init)(barrier, attributes, count);
}

int pthread_barrier_destroy(pthread_barrier_t *barrier)
{
    unsigned place = barrier_place(barrier);
    if (place < MAX_BARRIERS) {
        barriers[place].at = NULL;
    }
    return REAL(pthread_barrier_destroy)(barrier);
}

int pthread_barrier_wait(pthread_barrier_t *barrier)
{
    unsigned place = barrier_place(barrier);
    struct seat *self = place < MAX_BARRIERS ? lock_point(FROM) : NULL;
    if (self == NULL) {
        return REAL(pthread_barrier_wait)(barrier);
    }
    if (++barriers[place].arrived == barriers[place].count) {
        barriers[place].arrived = 0;
        barriers[place].round++;
        changed(barrier);
        return PTHREAD_BARRIER_SERIAL_THREAD;
    }
    for (unsigned round = barriers[place].round; round == barriers[place].round;) {
        block(self, barrier, "a barrier", false, FROM);
    }
    return 0;
}

// Threads that the queue creates aren't the run's, and run free.
HAS_REAL(pthread_create);
int pthread_create(pthread_t *thread, const pthread_attr_t *attributes, void *(*start)(void *), void *argument)
{
    if (lock_point(FROM) != NULL) {
        atomic_fetch_add(&run.own_threads, 1);
    } else {
        atomic_fetch_add(&created_threads, 1);
    }
    return REAL(pthread_create)(thread, attributes, start, argument);
}

HAS_REAL(pthread_join);
int pthread_join(pthread_t thread, void **result)
{
    struct seat *self = lock_point(FROM);
    int status = EBUSY;
    while (self != NULL && (status = pthread_tryjoin_np(thread, result)) == EBUSY) {
        block(self, &run.own_threads, "the end of a thread", false, FROM);
    }
    return self != NULL ? status : REAL(pthread_join)(thread, result);
}

// The routine of pthread_once is one step, unless it waits.
HAS_REAL(pthread_once);
int pthread_once(pthread_once_t *control, void (*routine)(void))
{
    static pthread_once_t *busy;
    struct seat *self = lock_point(FROM);
    if (self == NULL || self->is_quiet) {
        return REAL(pthread_once)(control, routine);
    }
    while (busy == control) {
        block(self, control, "pthread_once", false, FROM);
    }
    pthread_once_t *before = busy;
    busy = control;
    self->is_quiet = true;
    int status = REAL(pthread_once)(control, routine);
    self->is_quiet = false;
    busy = before;
    changed(control);
    return status;
}

// Futexes, for std::atomic::wait, Rust's locks and parking, which call them by syscall().
HAS_REAL(syscall);
static long call_futex(struct seat *self, const long words[6], uintptr_t from)
{
    _Atomic uint32_t *word = (_Atomic uint32_t *)words[0];
    lock_point(from);
    switch (words[1] & FUTEX_CMD_MASK) {
    case FUTEX_WAIT:
    case FUTEX_WAIT_BITSET:
        if (atomic_load(word) != (uint32_t)words[2]) {
            errno = EAGAIN;
            return -1;
        }
        if (block(self, word, "a futex", words[3] != 0, from)) {
            errno = ETIMEDOUT;
            return -1;
        }
        return 0;
    case FUTEX_WAKE:
    case FUTEX_WAKE_BITSET: {
        long woken = wake_some(word, (uint64_t)words[2]);
        wrote(self);
        if (atomic_load(&run.own_threads) == 0) {
            return woken;
        }
        return woken + REAL(syscall)(SYS_futex, word, words[1], words[2] - woken, words[3], words[4], words[5]);
    }
    default: break;
    }
    changed(word);
    return REAL(syscall)(SYS_futex, word, words[1], words[2], words[3], words[4], words[5]);
}

long syscall(long number, ...)
{
    long words[6];
    va_list list;
    va_start(list, number);
    for (unsigned place = 0; place < 6; place++) {
        words[place] = va_arg(list, long);
    }
    va_end(list);
    if (number == SYS_futex && blocking() != NULL) {
        return call_futex(seat, words, FROM);
    }
    if (number == SYS_futex && (words[1] & FUTEX_CMD_MASK) != FUTEX_WAIT) {
        changed((const void *)words[0]);
    }
    return REAL(syscall)(number, words[0], words[1], words[2], words[3], words[4], words[5]);
}

HAS_REAL(sched_yield);
int sched_yield(void)
{
    struct seat *self = inside();
    if (self == NULL) {
        return REAL(sched_yield)();
    }
    relax(self, FROM);
    return 0;
}

static uint64_t nanoseconds_of(const struct timespec *time)
{
    return (uint64_t)time->tv_sec * UINT64_C(1000000000) + (uint64_t)time->tv_nsec;
}

HAS_REAL(nanosleep);
int nanosleep(const struct timespec *time, struct timespec *left)
{
    struct seat *self = inside();
    if (self == NULL) {
        return REAL(nanosleep)(time, left);
    }
    run.slept += nanoseconds_of(time);
    sleep_here(self, FROM);
    return 0;
}

HAS_REAL(clock_nanosleep);
int clock_nanosleep(clockid_t clock, int flags, const struct timespec *time, struct timespec *left)
{
    struct seat *self = inside();
    if (self == NULL) {
        return REAL(clock_nanosleep)(clock, flags, time, left);
    }
    struct timespec now = {0, 0};
    if (flags & TIMER_ABSTIME) {
        clock_gettime(clock, &now);
    }
    uint64_t until = nanoseconds_of(time), since = nanoseconds_of(&now);
    run.slept += until > since ? until - since : 0;
    sleep_here(self, FROM);
    return 0;
}

HAS_REAL(usleep);
int usleep(useconds_t time)
{
    struct seat *self = inside();
    if (self == NULL) {
        return REAL(usleep)(time);
    }
    run.slept += time * UINT64_C(1000);
    sleep_here(self, FROM);
    return 0;
}

HAS_REAL(sleep);
unsigned sleep(unsigned seconds)
{
    struct seat *self = inside();
    if (self == NULL) {
        return REAL(sleep)(seconds);
    }
    run.slept += seconds * UINT64_C(1000000000);
    sleep_here(self, FROM);
    return 0;
}

// Within a call of the queue a clock goes on by a microsecond a point, and by what is slept.
HAS_REAL(clock_gettime);
int clock_gettime(clockid_t clock, struct timespec *time)
{
    struct seat *self = inside();
    if (self == NULL || clock < 0 || clock >= CLOCKS) {
        return REAL(clock_gettime)(clock, time);
    }
    if (run.clock[clock] == 0) {
        struct timespec now = {0, 0};
        REAL(clock_gettime)(clock, &now);
        run.clock[clock] = nanoseconds_of(&now) - run.steps * 1000 - run.slept;
    }
    uint64_t reading = run.clock[clock] + run.steps * 1000 + run.slept;
    time->tv_sec = (time_t)(reading / UINT64_C(1000000000));
    time->tv_nsec = (long)(reading % UINT64_C(1000000000));
    return 0;
}

// Memory that is freed may be another's soon: stores to it are made first.
HAS_REAL(free);
void free(void *memory)
{
    static _Thread_local bool is_looking;
    if (blocking() != NULL && seat->stores > 0) {
        let_stores_out(seat, true);
    }
    if (real_free == NULL && is_looking) {
        return;
    }
    is_looking = true;
    REAL(free)(memory);
    is_looking = false;
}

// The locks of C11, which glibc makes of those above.
int mtx_lock(mtx_t *mutex)
{
    return pthread_mutex_lock((pthread_mutex_t *)mutex) == 0 ? thrd_success : thrd_error;
}

int mtx_trylock(mtx_t *mutex)
{
    int status = pthread_mutex_trylock((pthread_mutex_t *)mutex);
    return status == 0 ? thrd_success : status == EBUSY ? thrd_busy : thrd_error;
}

int mtx_timedlock(mtx_t *restrict mutex, const struct timespec *restrict until)
{
    int status = pthread_mutex_timedlock((pthread_mutex_t *)mutex, until);
    return status == 0 ? thrd_success : status == ETIMEDOUT ? thrd_timedout : thrd_error;
}

int mtx_unlock(mtx_t *mutex)
{
    return pthread_mutex_unlock((pthread_mutex_t *)mutex) == 0 ? thrd_success : thrd_error;
}

int cnd_wait(cnd_t *condition, mtx_t *mutex)
{
    int status = pthread_cond_wait((pthread_cond_t *)condition, (pthread_mutex_t *)mutex);
    return status == 0 ? thrd_success : thrd_error;
}

int cnd_timedwait(cnd_t *restrict condition, mtx_t *restrict mutex, const struct timespec *restrict until)
{
    int status = pthread_cond_timedwait((pthread_cond_t *)condition, (pthread_mutex_t *)mutex, until);
    return status == 0 ? thrd_success : status == ETIMEDOUT ? thrd_timedout : thrd_error;
}

int cnd_signal(cnd_t *condition)
{
    return pthread_cond_signal((pthread_cond_t *)condition) == 0 ? thrd_success : thrd_error;
}

int cnd_broadcast(cnd_t *condition)
{
    return pthread_cond_broadcast((pthread_cond_t *)condition) == 0 ? thrd_success : thrd_error;
}

void thrd_yield(void)
{
    sched_yield();
}

int thrd_sleep(const struct timespec *time, struct timespec *left)
{
    return nanosleep(time, left) == 0 ? 0 : -1;
}

void call_once(once_flag *flag, void (*routine)(void))
{
    pthread_once((pthread_once_t *)flag, routine);
}

void fifobench_wait(const void *object)
{
    struct seat *self = blocking();
    if (self != NULL) {
        block(self, object, "a lock", false, FROM);
    } else {
        REAL(sched_yield)();
    }
}

void fifobench_release(const void *object)
{
    changed(object);
}
