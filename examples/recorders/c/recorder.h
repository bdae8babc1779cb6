// Records what threads do with a FIFO queue, and has `fifobench check` judge it. C11 with atomics and POSIX threads,
// this file and recorder_judge.h; link with -pthread.
//
//     static void *make(void *unused) { (void)unused; return my_queue_new(); }
//     static bool enqueue(void *queue, uint64_t value) { return my_queue_push(queue, value); }     // false: full
//     static bool dequeue(void *queue, uint64_t *value) { return my_queue_pop(queue, value); }     // false: empty
//
//     int main(void)
//     {
//         struct recorder_queue mine = {.make = make, .enqueue = enqueue, .dequeue = dequeue, .destroy = destroy};
//         struct recorder_settings settings = recorder_defaults();
//         return recorder_search(&settings, &mine);
//     }
//
// `recorder_search` makes 100 short runs of four threads, each over a fresh queue, and has each judged. It returns 0
// if no run shows a violation; 1 if one does, whose files are in the folder fifobench-runs; 2 if something is wrong.
// The program is that of the settings, else the environment's FIFOBENCH, else `fifobench` on the PATH. With
// recorder_crash.h beside this file a run that crashes or is killed leaves a text too.
//
// In a loop of your own, which recorder_run starts in each thread and recorder_write writes:
//
//     uint64_t value = recorder_call_enqueue(thread);
//     recorder_return_enqueue(thread, queue_push(queue, value));
//     recorder_call_dequeue(thread);
//     bool found = queue_pop(queue, &value);
//     recorder_return_dequeue(thread, found, value);
//
// docs/RECORDING.md has the rules that this file keeps, kinds.c how queues of other kinds are called.
#ifndef FIFOBENCH_RECORDER_H
#define FIFOBENCH_RECORDER_H
#if defined __STRICT_ANSI__ && !defined _XOPEN_SOURCE
#define _XOPEN_SOURCE 700 // for recorder_crash.h
#endif

#include <inttypes.h>
#include <pthread.h>
#include <stdatomic.h>
#include <stdbool.h>
#include <stdio.h>
#include <stdlib.h>
#include <string.h>
#include <sys/select.h>
#include <sys/stat.h>
#include <sys/wait.h>
#include <time.h>
#ifdef __linux__
#include <sys/syscall.h>
long syscall(long number, ...); // as in unistd.h, which has it unless strict C is asked for
#endif

enum { RECORDER_MAX_THREADS = 64, RECORDER_MAX_EVENTS = 2000000, RECORDER_MAX_INITIAL = 100000 };
enum { RECORDER_MAX_BLOCKS = 20 };
enum { RECORDER_PATH_BYTES = 4096, RECORDER_LINE_BYTES = 80, RECORDER_MAX_DRAWN = 400 };

// Which operations a thread makes. Alternate: enqueue, dequeue, and so on. Mix: a percentage of enqueues, by the
// seed. Bursts: 1 to 32 enqueues, by the seed, and then as many dequeues. Roles: threads of even number enqueue, the
// others dequeue; one thread alone alternates. By the seed: seed 1 alternates, seed 2 mixes, and so on.
enum recorder_pattern { RECORDER_ALTERNATE, RECORDER_MIX, RECORDER_BURSTS, RECORDER_ROLES, RECORDER_BY_SEED };

static const char *const recorder_pattern_names[] = {"alternate", "mix", "bursts", "roles"};

// What a history has to meet. Local: the values of each producer alone are in order. Weak empty: an empty dequeue
// promises nothing. docs/RECORDING.md says which queues promise no more.
enum recorder_condition { RECORDER_LINEARIZABLE, RECORDER_LOCAL, RECORDER_WEAK_EMPTY, RECORDER_BOTH };

static const char *const recorder_condition_names[] = {"linearizable", "local", "weak-empty", "both"};

struct recorder_settings {
    unsigned threads;
    size_t operations; // of each thread; 0: by the seed, 500, 100 or 2,500
    enum recorder_pattern pattern;
    unsigned producers;   // threads 0 to producers - 1 enqueue, the others dequeue; 0: the pattern says who does what
    unsigned percent;     // of enqueues in a mix
    uint64_t seed;        // of a run; the first of a search
    unsigned runs;        // of a search; 0: 100, or 300 with chosen schedules
    unsigned timeout;     // in seconds: a run without an event for so long hangs
    uint64_t first;       // is added to each value: for queues that take 0 as `nothing`
    size_t initial;       // values that the queue is given before the run; before a loop of your own by you
    bool drain;           // at the end the queue is dequeued until it says that it is empty
    bool choose;          // schedules, if schedule.c is linked; else its points disturb the threads
    bool journal;         // with recorder_crash.h: events reach a file while the run goes on
    bool keep;            // a search keeps the histories without a violation too
    enum recorder_condition condition;
    uint64_t overtaken_at_most; // more values that one dequeue overtakes are a violation; UINT64_MAX: by the condition
    const char *program, *folder; // that judges, or NULL; of the files
    // The value of the n-th operation of a thread, and that of initial value n with the thread 64. All have to
    // differ. If it is NULL, values are thread * 2^32 + first + n, and the initial ones 2^38 + n.
    uint64_t (*value)(unsigned thread, uint64_t n);
};

static inline struct recorder_settings recorder_defaults(void)
{
    return (struct recorder_settings){
        .threads = 4, .pattern = RECORDER_BY_SEED, .percent = 50, .seed = 1,
        .timeout = 30, .drain = true, .choose = true, .overtaken_at_most = UINT64_MAX, .folder = "fifobench-runs"};
}

// The calls of a queue. The first three are needed, the others may be NULL.
struct recorder_queue {
    void *(*make)(void *context); // a fresh queue, or NULL
    bool (*enqueue)(void *queue, uint64_t value);
    bool (*dequeue)(void *queue, uint64_t *value);
    void (*destroy)(void *queue);
    bool (*preload)(void *queue, uint64_t value);  // puts a value in before the run; else `enqueue` does
    void (*enter)(void *queue, unsigned thread);   // in each thread before its first call
    void (*leave)(void *queue, unsigned thread);   // in each thread after its last call
    void *context;
};

enum recorder_what {
    RECORDER_CALL_ENQ, RECORDER_RET_ENQ, RECORDER_RET_NOT, RECORDER_CALL_DEQ, RECORDER_RET_DEQ, RECORDER_RET_EMPTY
};

struct recorder_event {
    uint64_t ticket;
    uint64_t value; // of a call of enqueue and of a value dequeued
    unsigned thread;
    enum recorder_what what;
};

// What one thread records. Only that thread may use it; what is counted others may read at any time.
struct recorder_thread {
    struct recorder *recorder;
    unsigned number; // from 0
    uint64_t asked;
    int64_t stay; // values that the queue took, less those that it gave
    atomic_size_t count;
    size_t room; // of the first block; each is twice as large as the one before
    struct recorder_event *blocks[RECORDER_MAX_BLOCKS], *next, *end; // of the last block the next place, and its end
    unsigned taken; // blocks
    char apart[64];
};

typedef void recorder_work(struct recorder_thread *thread, void *argument);

struct recorder {
    atomic_uint_fast64_t tickets;
    char apart[64];
    atomic_uint last; // the thread that looked last for others, before the start
    char apart_too[64];
    atomic_uint arrived;
    atomic_bool open, refused; // the start; nothing is run
    unsigned threads;
    struct recorder_settings settings;
    recorder_work *work;
    void *argument;
    const struct recorder_queue *calls; // NULL of a loop of one's own
    void *queue;
    atomic_uint worked, ended; // how many threads have made their operations, and how many have ended
    const char *drained; // what went wrong in the drain, or NULL
    bool is_chosen; // the schedule
    struct recorder_crash *crash;
    struct recorder_thread of_thread[RECORDER_MAX_THREADS];
};

#if __has_include("schedule/for_recorder.h")
#include "schedule/for_recorder.h"
#elif __has_include("../schedule/for_recorder.h")
#include "../schedule/for_recorder.h"
#endif
#ifndef RECORDER_IF_CHOSEN // the folder schedule isn't there: threads run as the system lets them
#define RECORDER_IF_CHOSEN(call) ((void)0)
#define recorder_points_begin(recorder) (recorder)
#define recorder_points_notes(what) ((void)0)
#define recorder_points_noted(what, value) ((void)0)
#define recorder_points_search(settings, calls, answer) false
#endif

static inline uint64_t recorder_value(const struct recorder_settings *settings, unsigned thread, uint64_t n)
{
    uint64_t first = thread < RECORDER_MAX_THREADS ? settings->first : 0;
    return settings->value != NULL ? settings->value(thread, n) : ((uint64_t)thread << 32) + first + n;
}

// The value of an initial place, from 0. Before a loop of your own you put these in, in their order.
static inline uint64_t recorder_initial_value(const struct recorder_settings *settings, size_t place)
{
    return recorder_value(settings, RECORDER_MAX_THREADS, place);
}

// Seeds 1 to 4 have 500, 5 to 8 have 100, 9 to 12 have 500, and 13 to 16 have 2,500, which let a ring of 1,024 places
// go round; and so on.
static inline size_t recorder_operations_of(const struct recorder_settings *settings)
{
    static const size_t sizes[] = {2500, 500, 100, 500};
    return settings->operations != 0 ? settings->operations : sizes[(settings->seed + 3) / 4 % 4];
}

// Returns where a thread's event of this place is, whose block is there.
static inline struct recorder_event *recorder_at(const struct recorder_thread *thread, size_t place)
{
    size_t room = thread->room;
    unsigned block = 0;
    for (; place >= room; room *= 2) {
        place -= room;
        block++;
    }
    return &thread->blocks[block][place];
}

// Takes the next block. Returns whether there was memory.
static inline bool recorder_make_room(struct recorder_thread *thread)
{
    size_t room = thread->room << thread->taken;
    struct recorder_event *block = thread->taken < RECORDER_MAX_BLOCKS ? malloc(room * sizeof *block) : NULL;
    if (block == NULL) {
        return false;
    }
    memset(block, 0, room * sizeof *block); // the pages are there
    thread->blocks[thread->taken++] = block;
    thread->next = block;
    thread->end = block + room;
    return true;
}

// The ticket is drawn first: of a call before the queue is asked, of a return after it has answered. What came before
// a return is seen by every call of a greater ticket, since the order is sequentially consistent. An event that can't
// be noted ends the process: a history without it would be another one.
static inline void recorder_note(struct recorder_thread *thread, enum recorder_what what, uint64_t value)
{
    recorder_points_notes(what);
    uint64_t ticket = atomic_fetch_add(&thread->recorder->tickets, 1);
    size_t count = atomic_load_explicit(&thread->count, memory_order_relaxed);
    if (ticket >= RECORDER_MAX_EVENTS || (thread->next == thread->end && !recorder_make_room(thread))) {
        fputs(ticket >= RECORDER_MAX_EVENTS ? "fifobench: a history has at most 2000000 events\n"
                                            : "fifobench: there is no memory for the events\n", stderr);
        fflush(NULL);
        _Exit(2);
    }
    *thread->next++ = (struct recorder_event){ticket, value, thread->number, what};
    atomic_store_explicit(&thread->count, count + 1, memory_order_release);
    recorder_points_noted(what, value);
}

// Just before the queue's enqueue. Gives its value, which no other call has.
static inline uint64_t recorder_call_enqueue(struct recorder_thread *thread)
{
    uint64_t value = recorder_value(&thread->recorder->settings, thread->number, thread->asked++);
    recorder_note(thread, RECORDER_CALL_ENQ, value);
    return value;
}

// Just after it has returned. Not taken: the queue was full or had no memory.
static inline void recorder_return_enqueue(struct recorder_thread *thread, bool taken)
{
    recorder_note(thread, taken ? RECORDER_RET_ENQ : RECORDER_RET_NOT, 0);
    thread->stay += taken;
}

// Just before the queue's dequeue.
static inline void recorder_call_dequeue(struct recorder_thread *thread)
{
    thread->asked++;
    recorder_note(thread, RECORDER_CALL_DEQ, 0);
}

// Just after it has returned. Not found: the queue said that it is empty, and the value doesn't count.
static inline void recorder_return_dequeue(struct recorder_thread *thread, bool found, uint64_t value)
{
    recorder_note(thread, found ? RECORDER_RET_DEQ : RECORDER_RET_EMPTY, found ? value : 0);
    thread->stay -= found;
}

static inline void recorder_free(struct recorder *recorder)
{
    for (unsigned number = 0; number < recorder->threads; number++) {
        while (recorder->of_thread[number].taken > 0) {
            free(recorder->of_thread[number].blocks[--recorder->of_thread[number].taken]);
        }
    }
    free(recorder);
}

// The events by ticket, one after another. A thread may read those of others while they run.
struct recorder_merge {
    const struct recorder *recorder;
    uint64_t ticket;                 // of the next event
    size_t at[RECORDER_MAX_THREADS]; // the next event of each thread
};

// Returns the next event, or NULL if it isn't published. Tickets have no gap, so some thread has it next.
static inline const struct recorder_event *recorder_next(struct recorder_merge *merge)
{
    for (unsigned number = 0; number < merge->recorder->threads; number++) {
        const struct recorder_thread *thread = &merge->recorder->of_thread[number];
        bool is_published = merge->at[number] < atomic_load_explicit(&thread->count, memory_order_acquire);
        const struct recorder_event *event = is_published ? recorder_at(thread, merge->at[number]) : NULL;
        if (event != NULL && event->ticket == merge->ticket) {
            merge->ticket++;
            merge->at[number]++;
            return event;
        }
    }
    return NULL;
}

// The sums over the events of a run.
struct recorder_sums {
    size_t events, calls, pending, overlapping; // operations that have returned and overlap another
    const struct recorder_event *open[RECORDER_MAX_THREADS]; // of each thread the call without a return, or NULL
};

static inline struct recorder_sums recorder_sum_up(const struct recorder *recorder)
{
    struct recorder_sums sums = {0};
    size_t calls_at[RECORDER_MAX_THREADS] = {0}, pending_at[RECORDER_MAX_THREADS] = {0};
    struct recorder_merge merge = {.recorder = recorder};
    for (const struct recorder_event *event; (event = recorder_next(&merge)) != NULL; sums.events++) {
        unsigned thread = event->thread;
        bool is_call = event->what == RECORDER_CALL_ENQ || event->what == RECORDER_CALL_DEQ;
        sums.open[thread] = is_call ? event : NULL;
        if (is_call) {
            calls_at[thread] = sums.calls++;
            pending_at[thread] = sums.pending++;
        } else {
            sums.pending--;
            sums.overlapping += pending_at[thread] > 0 || sums.calls - calls_at[thread] > 1;
        }
    }
    return sums;
}

static inline double recorder_seconds(void)
{
    struct timespec now;
    timespec_get(&now, TIME_UTC);
    return (double)now.tv_sec + (double)now.tv_nsec / 1e9;
}

// Each leaves its number at each look. Who finds another's there 64 times isn't alone.
static inline bool recorder_has_met(struct recorder *recorder, unsigned number)
{
    unsigned met = 0;
    for (unsigned look = 0; look < 1000 && met < 64 && !atomic_load(&recorder->open); look++) {
        met += atomic_exchange(&recorder->last, number) != number;
    }
    return met == 64;
}

// The cores that a thread may run on, as bits; none where there is no such call.
struct recorder_cores { unsigned char bits[128]; };

static inline bool recorder_has_core(const struct recorder_cores *cores, unsigned core)
{
    return (cores->bits[core / 8] >> core % 8 & 1) != 0;
}

// Keeps the calling thread on one core, on Linux: thread 0 on the first core that it may run on, and so on. Returns
// whether it does, and the cores that it may run on.
static inline bool recorder_pin(unsigned number, struct recorder_cores *before)
{
    struct recorder_cores one = {{0}};
    unsigned cores = 0, left;
    *before = one;
#ifdef __linux__
    if (syscall(SYS_sched_getaffinity, 0, sizeof *before, before) <= 0) {
        return false;
    }
    for (unsigned core = 0; core < 8 * sizeof one; core++) {
        cores += recorder_has_core(before, core);
    }
    left = number % (cores + !cores);
    for (unsigned core = 0; core < 8 * sizeof one; core++) {
        if (recorder_has_core(before, core) && left-- == 0) {
            one.bits[core / 8] = (unsigned char)(1 << core % 8);
        }
    }
    return cores > 1 && syscall(SYS_sched_setaffinity, 0, sizeof one, &one) == 0;
#else
    (void)number, (void)cores, (void)left;
    return false;
#endif
}

static inline void recorder_let_go(const struct recorder_cores *before)
{
#ifdef __linux__
    syscall(SYS_sched_setaffinity, 0, sizeof *before, before);
#else
    (void)before;
#endif
}

// The start of a run. A system may let the threads of a young process take turns on one core. So each waits on a core
// of its own, and all go on looking until two have been seen to run at once. Then all begin, on any core. On one core
// that can't be, and all begin after a tenth of a second.
static inline void recorder_meet(struct recorder *recorder, unsigned number)
{
    struct recorder_cores before;
    bool is_pinned = !atomic_load(&recorder->open) && recorder_pin(number, &before);
    atomic_fetch_add(&recorder->arrived, 1);
    double until = recorder_seconds() + 1;
    while (atomic_load(&recorder->arrived) < recorder->threads && !atomic_load(&recorder->open) &&
           recorder_seconds() < until) {
        sched_yield();
    }
    until = recorder_seconds() + (recorder->threads > 1 ? 0.1 : 0);
    while (!atomic_load(&recorder->open) && recorder_seconds() < until && !recorder_has_met(recorder, number)) {
        sched_yield();
    }
    atomic_store(&recorder->open, true);
    if (is_pinned) {
        recorder_let_go(&before);
    }
}

// What a thread does before the start, thread 0 also for the queue. False: the queue doesn't take an initial value.
static inline bool recorder_prepare(struct recorder *recorder, unsigned number)
{
    const struct recorder_queue *calls = recorder->calls;
    if (calls != NULL && calls->enter != NULL) {
        calls->enter(recorder->queue, number);
    }
    for (size_t j = 0; calls != NULL && number == 0 && j < recorder->settings.initial; j++) {
        bool (*put)(void *, uint64_t) = calls->preload != NULL ? calls->preload : calls->enqueue;
        if (!put(recorder->queue, recorder_initial_value(&recorder->settings, j))) {
            return false;
        }
    }
    return true;
}

// Dequeues from the run's queue. Returns whether it gave a value.
static inline bool recorder_dequeue(struct recorder_thread *thread)
{
    uint64_t value = 0;
    recorder_call_dequeue(thread);
    bool found = thread->recorder->calls->dequeue(thread->recorder->queue, &value);
    recorder_return_dequeue(thread, found, value);
    return found;
}

// In the seat of thread 0 once all others have made their operations. No sound queue gives more values than went in. A
// dequeue has two events.
static inline void recorder_drain(struct recorder_thread *thread)
{
    struct recorder *recorder = thread->recorder;
    int64_t stay = (int64_t)recorder->settings.initial;
    bool found = true;
    RECORDER_IF_CHOSEN(alone());
    while (!recorder->is_chosen && atomic_load(&recorder->worked) < recorder->threads) {
        select(0, NULL, NULL, NULL, &(struct timeval){0, 100}); // naps
    }
    for (unsigned number = 0; number < recorder->threads; number++) {
        stay += recorder->of_thread[number].stay;
    }
    int64_t bound = stay > 0 ? stay + 1 : 1;
    for (; found && bound > 0 && atomic_load(&recorder->tickets) + 2 <= RECORDER_MAX_EVENTS; bound--) {
        found = recorder_dequeue(thread);
    }
    recorder->drained = !found       ? NULL
                        : bound == 0 ? "the queue gave more values than went in"
                                     : "a history has at most 2000000 events, and the drain stopped there";
}

static inline enum recorder_pattern recorder_pattern_of(const struct recorder_settings *settings)
{
    enum recorder_pattern in_turn = (enum recorder_pattern)((settings->seed + 3) % 4);
    enum recorder_pattern of_seed = settings->producers > 0 ? RECORDER_ROLES : in_turn;
    return settings->pattern != RECORDER_BY_SEED ? settings->pattern : of_seed;
}

#include "recorder_judge.h"

// The threads can't be ended, so the process is.
static inline _Noreturn void recorder_end_hung(const struct recorder *recorder)
{
    char how[RECORDER_LINE_BYTES];
    snprintf(how, sizeof how, "hang: no event for %u s%s", recorder->settings.timeout,
             atomic_load(&recorder->open) ? "" : "; not all threads have begun");
    int status = recorder_end_early(recorder, how, "If the queue promises to return, the hang itself is the fault.");
    fflush(NULL);
    _Exit(status);
}

#if __has_include("recorder_crash.h")
#include "recorder_crash.h"
#else // a run that crashes or is killed leaves nothing
#define RECORDER_CRASH(call) ((void)0)
#define RECORDER_HAS_JOURNAL false
#endif

static inline void *recorder_start(void *argument)
{
    struct recorder_thread *thread = argument;
    struct recorder *recorder = thread->recorder;
    RECORDER_CRASH(enter(thread));
    if (!recorder_prepare(recorder, thread->number)) {
        fputs("fifobench: the queue doesn't take an initial value\n", stderr);
        atomic_store(&recorder->refused, true);
    }
    RECORDER_IF_CHOSEN(enter(thread->number));
    recorder_meet(recorder, thread->number);
    if (!atomic_load(&recorder->refused)) {
        recorder->work(thread, recorder->argument);
        atomic_fetch_add(&recorder->worked, 1);
        if (thread->number == 0 && recorder->calls != NULL && recorder->settings.drain) {
            recorder_drain(thread);
        }
        if (recorder->calls != NULL && recorder->calls->leave != NULL) {
            recorder->calls->leave(recorder->queue, thread->number);
        }
    }
    RECORDER_IF_CHOSEN(leave());
    atomic_fetch_add(&recorder->ended, 1);
    return NULL;
}

// Waits until this many threads have ended. A run in which no ticket is drawn for the time of the settings hangs.
static inline void recorder_wait(struct recorder *recorder, unsigned threads)
{
    uint64_t seen = atomic_load(&recorder->tickets);
    double since = recorder_seconds();
    while (atomic_load(&recorder->ended) < threads) {
        select(0, NULL, NULL, NULL, &(struct timeval){0, 100}); // naps
        RECORDER_CRASH(look(recorder));
        uint64_t drawn = atomic_load(&recorder->tickets);
        since = drawn != seen ? recorder_seconds() : since;
        seen = drawn;
        if (recorder_seconds() - since >= recorder->settings.timeout) {
            recorder_end_hung(recorder);
        }
    }
}

// A sentence on what is out of range, or NULL.
static inline const char *recorder_fault(const struct recorder_settings *settings)
{
    const char *program = settings->program != NULL ? settings->program : "";
    bool has_roles = settings->producers == 0 || recorder_pattern_of(settings) == RECORDER_ROLES;
    return settings->threads == 0 || settings->threads > RECORDER_MAX_THREADS ? "1 to 64 threads"
           : recorder_operations_of(settings) > RECORDER_MAX_EVENTS / 2 / settings->threads
               ? "at most 1000000 operations of all threads"
           : settings->producers >= settings->threads || !has_roles
               ? "fewer producers than threads, with the pattern roles"
           : settings->journal && !RECORDER_HAS_JOURNAL ? "the setting journal needs recorder_crash.h beside recorder.h"
           : settings->percent > 100 ? "at most 100 percent are enqueues"
           : settings->initial > RECORDER_MAX_INITIAL ? "at most 100000 initial values"
           : strchr(settings->folder, '\'') != NULL || strchr(program, '\'') != NULL
               ? "no quote in the names of the folder and the program"
               : NULL;
}

// A recorder with room for the operations. NULL: the settings are out of range, or there is no memory.
static inline struct recorder *recorder_new(const struct recorder_settings *settings,
                                            const struct recorder_queue *calls, void *queue)
{
    struct recorder *recorder = recorder_fault(settings) == NULL ? calloc(1, sizeof *recorder) : NULL;
    if (recorder == NULL) {
        return NULL;
    }
    recorder->settings = *settings;
    recorder->settings.operations = recorder_operations_of(settings);
    recorder->threads = settings->threads;
    recorder->calls = calls;
    recorder->queue = queue;
    for (unsigned number = 0; number < settings->threads; number++) {
        struct recorder_thread *thread = &recorder->of_thread[number];
        *thread = (struct recorder_thread){.recorder = recorder, .number = number};
        thread->room = 2 * recorder->settings.operations + 64;
        if (!recorder_make_room(thread)) {
            recorder_free(recorder);
            return NULL;
        }
    }
    return recorder_points_begin(recorder);
}

// Runs the threads of a recorder, if there is one. NULL, and it is free, if one doesn't start or a value isn't taken.
static inline struct recorder *recorder_go(struct recorder *recorder, recorder_work *work, void *argument)
{
    pthread_t running[RECORDER_MAX_THREADS];
    unsigned started = 0;
    if (recorder == NULL) {
        return NULL;
    }
    recorder->work = work;
    recorder->argument = argument;
    RECORDER_CRASH(begin(recorder));
    while (started < recorder->threads &&
           pthread_create(&running[started], NULL, recorder_start, &recorder->of_thread[started]) == 0) {
        RECORDER_IF_CHOSEN(started(started));
        started++;
    }
    if (started < recorder->threads) {
        fputs("fifobench: a thread can't be started\n", stderr);
        atomic_store(&recorder->refused, true);
        atomic_store(&recorder->open, true);
    }
    RECORDER_IF_CHOSEN(open(started));
    recorder_wait(recorder, started);
    for (unsigned number = 0; number < started; number++) {
        pthread_join(running[number], NULL);
    }
    RECORDER_IF_CHOSEN(end());
    RECORDER_CRASH(end(recorder));
    if (atomic_load(&recorder->refused)) {
        recorder_free(recorder);
        return NULL;
    }
    return recorder;
}

// Runs `work(thread, argument)` in each of the threads, which begin together. Gives what they recorded, for
// recorder_write and recorder_free; or NULL if the settings are out of range, there is no memory, or a thread can't be
// started. Memory is taken ahead for the operations of the settings; more are recorded too. A run that hangs ends the
// process with 1 or 2.
static inline struct recorder *recorder_record(const struct recorder_settings *settings, recorder_work *work,
                                               void *argument)
{
    return recorder_go(recorder_new(settings, NULL, NULL), work, argument);
}

static inline struct recorder *recorder_run(unsigned threads, size_t operations, recorder_work *work, void *argument)
{
    struct recorder_settings settings = recorder_defaults();
    settings.threads = threads;
    settings.operations = operations;
    return recorder_record(&settings, work, argument);
}

// Vigna's splitmix64: a seed gives the same plan in each language's recorder.
static inline uint64_t recorder_random(uint64_t *state)
{
    uint64_t z = *state += UINT64_C(0x9E3779B97F4A7C15);
    z = (z ^ (z >> 30)) * UINT64_C(0xBF58476D1CE4E5B9);
    z = (z ^ (z >> 27)) * UINT64_C(0x94D049BB133111EB);
    return z ^ (z >> 31);
}

struct recorder_plan { uint64_t state, begin, length; }; // random numbers, and the burst's first operation and length

// Returns whether the n-th operation of a thread is an enqueue.
static inline bool recorder_enqueues(const struct recorder_thread *thread, struct recorder_plan *plan, uint64_t n)
{
    const struct recorder_settings *settings = &thread->recorder->settings;
    switch (recorder_pattern_of(settings)) {
    case RECORDER_MIX: return recorder_random(&plan->state) % 100 < settings->percent;
    case RECORDER_ROLES:
        return settings->producers > 0 ? thread->number < settings->producers
                                       : (settings->threads == 1 ? n : thread->number) % 2 == 0;
    case RECORDER_BURSTS: break;
    default: return n % 2 == 0;
    }
    if (n == plan->begin + 2 * plan->length) {
        plan->begin = n;
        plan->length = 1 + recorder_random(&plan->state) % 32;
    }
    return n < plan->begin + plan->length;
}

static inline void recorder_play_thread(struct recorder_thread *thread, void *unused)
{
    const struct recorder *recorder = thread->recorder;
    struct recorder_plan plan = {recorder->settings.seed * 64 + thread->number, 0, 0};
    (void)unused;
    for (size_t n = 0; n < recorder->settings.operations; n++) {
        if (recorder_enqueues(thread, &plan, n)) {
            uint64_t value = recorder_call_enqueue(thread);
            recorder_return_enqueue(thread, recorder->calls->enqueue(recorder->queue, value));
        } else {
            recorder_dequeue(thread);
        }
    }
}

// Runs the pattern of the settings over a queue; what is given is that of recorder_record.
static inline struct recorder *recorder_play(const struct recorder_settings *settings,
                                             const struct recorder_queue *calls, void *queue)
{
    return recorder_go(recorder_new(settings, calls, queue), recorder_play_thread, NULL);
}

// What the runs of a search have shown: of each seed the last one that was made.
struct recorder_search_sums {
    struct recorder_sums all;
    unsigned without_overlap, again; // runs
};

// One run of a search, over a fresh queue: 0, 1 or 2, and its sums.
static inline int recorder_search_one(const struct recorder_settings *one, const struct recorder_queue *calls,
                                      bool judges, struct recorder_sums *sums)
{
    char path[RECORDER_PATH_BYTES];
    void *queue = calls->make(calls->context);
    struct recorder *recorder = queue != NULL ? recorder_play(one, calls, queue) : NULL;
    int answer = 2;
    if (recorder == NULL) {
        recorder_erase_progress();
        fputs(queue == NULL ? "fifobench: there is no queue\n" : "fifobench: there is no run\n", stderr);
    } else {
        *sums = recorder_sum_up(recorder);
        if (recorder->drained != NULL) {
            recorder_erase_progress();
            fprintf(stderr, "fifobench: seed %" PRIu64 ": %s\n", one->seed, recorder->drained);
        }
        recorder_path(one, "history", path);
        answer = !recorder_write_file(recorder, path) ? 2 : judges ? recorder_judge_file(one, path, false) : 0;
        recorder_free(recorder);
    }
    if (queue != NULL && calls->destroy != NULL) {
        calls->destroy(queue);
    }
    return answer;
}

// The answer to the run of a seed. Threads that haven't met have shown little, so a run without overlap is made again:
// three times, and in a search no more often than it has runs.
static inline int recorder_search_seed(const struct recorder_settings *one, const struct recorder_queue *calls,
                                       bool judges, struct recorder_search_sums *of)
{
    struct recorder_sums sums = {0};
    unsigned left = one->threads > 1 ? 3 : 0;
    int answer = recorder_search_one(one, calls, judges, &sums);
    for (; answer == 0 && sums.overlapping == 0 && left > 0 && of->again < one->runs; left--, of->again++) {
        answer = recorder_search_one(one, calls, judges, &sums);
    }
    of->all.calls += sums.calls;
    of->all.overlapping += sums.overlapping;
    of->all.events += sums.events;
    of->without_overlap += sums.overlapping == 0;
    return answer;
}

// Makes runs by the pattern of the settings, each over a fresh queue, until one shows a violation: 0, 1 or 2.
static inline int recorder_search(const struct recorder_settings *settings, const struct recorder_queue *calls)
{
    struct recorder_settings one = *settings;
    struct recorder_search_sums of = {0};
    char first[RECORDER_LINE_BYTES];
    int answer = 0;
    unsigned made = 0;
    if (recorder_fault(settings) != NULL) {
        fprintf(stderr, "fifobench: %s\n", recorder_fault(settings));
        return 2;
    }
    if (recorder_points_search(settings, calls, &answer)) {
        return answer;
    }
    bool judges = recorder_ask(settings, "--version", "/dev/null", "/dev/null", first) == 0;
    if (!judges) {
        fprintf(stderr, "fifobench: no program '%s': nothing is judged; the histories are kept in %s\n",
                recorder_program(settings), one.folder);
    }
    one.runs = settings->runs != 0 ? settings->runs : 100;
    RECORDER_CRASH(watch(&one));
    double next = recorder_seconds() + 2;
    for (; made < one.runs && answer == 0; made++, one.seed++) {
        recorder_show_progress(made, one.runs - made, &next);
        answer = recorder_search_seed(&one, calls, judges, &of);
    }
    RECORDER_CRASH(unwatch());
    recorder_erase_progress();
    if (answer == 0) {
        remove(one.folder); // if it is empty
        recorder_told_condition(&one, first);
        printf("%s in %u runs (seeds %" PRIu64 " to %" PRIu64 ")%s; ", judges ? "no violation" : "nothing judged",
               one.runs, settings->seed, one.seed - 1, first);
        printf("%zu of 100 operations overlap another; runs without overlap: %u\n",
               100 * of.all.overlapping / (of.all.calls + !of.all.calls), of.without_overlap);
    }
    if (one.keep && judges && answer != 2) {
        printf("  kept:    %u judged runs with %zu events in %s\n", made, of.all.events, one.folder);
    }
    return answer == 0 && !judges ? 2 : answer;
}

#endif
