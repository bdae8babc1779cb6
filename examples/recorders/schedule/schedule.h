// Chosen schedules for recorders: one thread runs at a time, and a seed says which. C11 and C++; Linux.
//
// Code that is compiled with -fsanitize=thread calls a function before each access of memory that threads may share.
// schedule.c has these functions. Linked with it, and without the sanitizer's own library, each such call is a point
// at which another thread may go on:
//
//     gcc -O2 -c schedule/schedule.c
//     g++ -std=c++17 -O2 -g -fsanitize=thread -c mine.cpp && g++ mine.o schedule.o -pthread -o mine
//
// recorder.hpp and recorder.h use these functions if they are linked; a test has nothing to write. The declarations
// are weak outside of schedule.c, so that a program without it has null in their place.
//
// Settings by the environment:
//
//     FIFOBENCH_SCHEDULES   chosen (default) or free: threads run as the system lets them, disturbed at points
//     FIFOBENCH_STRATEGY    naps, walk or pct; by default the seed draws one
//     FIFOBENCH_BUFFERS     0: each store is seen at once; 1: stores wait in buffers; by default the seed draws
//     FIFOBENCH_SEED        the first seed of a search, as `--seed N` on its command line
//     FIFOBENCH_TRIALS      runs that may be spent on a trace (default 500); 0: no trace
//     FIFOBENCH_PATIENCE    points without an operation that ends, after which a run is a livelock (default 100000)
#ifndef FIFOBENCH_SCHEDULE_H
#define FIFOBENCH_SCHEDULE_H

#include <stddef.h>
#include <stdint.h>

#ifdef FIFOBENCH_SCHEDULE_SOURCE
#define FIFOBENCH_WEAK
#else
#define FIFOBENCH_WEAK __attribute__((weak))
#endif

#ifdef __cplusplus
extern "C" {
#endif

// Events, with the numbers that the recorders give them.
enum fifobench_schedule_what {
    FIFOBENCH_SCHEDULE_CALL_ENQ,
    FIFOBENCH_SCHEDULE_RET_ENQ,
    FIFOBENCH_SCHEDULE_RET_NOT,
    FIFOBENCH_SCHEDULE_CALL_DEQ,
    FIFOBENCH_SCHEDULE_RET_DEQ,
    FIFOBENCH_SCHEDULE_RET_EMPTY
};

enum { FIFOBENCH_MAX_THREADS = 64 };

// Whether the code that includes this was compiled with points.
#if defined __SANITIZE_THREAD__
#define FIFOBENCH_HAS_POINTS 1
#elif defined __has_feature
#if __has_feature(thread_sanitizer)
#define FIFOBENCH_HAS_POINTS 1
#endif
#endif
#ifndef FIFOBENCH_HAS_POINTS
#define FIFOBENCH_HAS_POINTS 0
#endif

// Of code with points that is linked with the sanitizer's library in place of schedule.c.
#define FIFOBENCH_LACKS_SCHEDULE \
    "fifobench: this is compiled with -fsanitize=thread, but schedule.o (made from schedule/schedule.c) isn't " \
    "linked: no schedule is chosen, and runs are free\n"

// One run.
struct fifobench_schedule {
    uint64_t seed;
    unsigned threads;      // 1 to 64
    size_t operations;     // of each thread
    const char *folder;    // where the pending text of a run that hangs is written
};

// Returns whether schedules are chosen; they aren't if the environment says `free`.
FIFOBENCH_WEAK int fifobench_schedule_is_chosen(void);

// Begins a run, before its threads are created. Returns NULL, or a sentence on what is wrong.
FIFOBENCH_WEAK const char *fifobench_schedule_begin(const struct fifobench_schedule *schedule);

// Waits until this thread, the last that was created, has called fifobench_schedule_enter. So threads start one after
// another, and take memory in the same order each time.
FIFOBENCH_WEAK void fifobench_schedule_started(unsigned thread);

// Gives the first turn. All threads have started; `threads` may be less than was planned if one couldn't be created.
FIFOBENCH_WEAK void fifobench_schedule_open(unsigned threads);

// In each of the run's threads, once it is prepared. Returns when it is its turn.
FIFOBENCH_WEAK void fifobench_schedule_enter(unsigned thread);

// Just after the ticket of a call was drawn. From here on points count.
FIFOBENCH_WEAK void fifobench_schedule_called(unsigned what, uint64_t value);

// Just before the ticket of a return is drawn. Points don't count any more, and stores that wait are made.
FIFOBENCH_WEAK void fifobench_schedule_returns(void);

// Just after the ticket of a return was drawn. Another thread may go on here.
FIFOBENCH_WEAK void fifobench_schedule_returned(unsigned what, uint64_t value);

// Returns once all other threads have left: for a drain by one thread.
FIFOBENCH_WEAK void fifobench_schedule_alone(void);

// The thread has made its last operation. Returns when all threads have, so that none frees memory beside another.
FIFOBENCH_WEAK void fifobench_schedule_leave(void);

// Ends a run, after its threads were joined.
FIFOBENCH_WEAK void fifobench_schedule_end(void);

// A value that the queue held at the start, in order; before the first call.
FIFOBENCH_WEAK void fifobench_schedule_initial(uint64_t value);

// The run has failed for another reason than the queue's answers, as by an exception; a search says why, and ends.
FIFOBENCH_WEAK void fifobench_schedule_fail(const char *sentence);

// Free runs: from now on points yield, spin and sleep by chance; between fifobench_schedule_called and
// fifobench_schedule_returns only.
FIFOBENCH_WEAK void fifobench_schedule_disturb(void);

// A point by hand, before an access; for code that isn't compiled with -fsanitize=thread.
FIFOBENCH_WEAK void fifobench_point(int writes);

// A point in a loop that waits for another thread.
FIFOBENCH_WEAK void fifobench_relax(void);

// Gives way until another thread calls fifobench_release with this object, or earlier: the caller looks again.
FIFOBENCH_WEAK void fifobench_wait(const void *object);
FIFOBENCH_WEAK void fifobench_release(const void *object);

// The runs of a search. Each is made in a child process of its own, so that it begins with the same memory, and a
// crash or a deadlock ends no more than the run.
struct fifobench_search {
    const char *program;    // that judges; NULL: the environment's FIFOBENCH, else `fifobench` on the PATH
    const char *folder;     // where files are kept
    uint64_t seed;          // the first
    unsigned runs;          // 0: 300
    unsigned threads;
    size_t operations;      // of each thread; 0: drawn from the seed, 100 or fewer
    unsigned seconds;       // after which a run that doesn't end is given up; 0: 30
    int keep;               // the histories without a violation are kept too
    // Makes one run, in the child: prepares a queue, calls fifobench_schedule_begin and so on. The events are those of
    // fifobench_schedule_called and _returned.
    void (*run)(void *context, uint64_t seed, size_t operations);
    // The name of the seed's pattern, for the verdict's line; or NULL.
    const char *(*pattern)(void *context, uint64_t seed);
    void *context;
    const char *flags;      // of `check`, `shrink` and `draw`, as " --local --weak-empty"; or NULL
    int is_bounded;         // a run in which one dequeue overtakes more values than these is a violation
    uint64_t overtaken_at_most;
};

// Makes runs until one shows a violation, prints what is found, and keeps SEED.history, SEED.report and SEED.trace.
// Returns 0 if none shows one, 1 if one does, 2 if something is wrong.
FIFOBENCH_WEAK int fifobench_search_runs(const struct fifobench_search *search);

#ifdef __cplusplus
}
#endif

#endif
