// What a run leaves if it dies: recorder.h includes this file if it lies beside it.
//
// A crash. While a search runs, a signal that the queue dies of (SIGSEGV, SIGBUS, SIGFPE, SIGILL, SIGABRT) lets the
// thread that waits for the run's end keep and judge what was recorded; then the process dies of the signal. Where the
// program has a handler, its own or a sanitizer's, that one stays. With -std=c11 recorder.h has to be the first header.
//
// A kill. With the setting `journal` the events reach FOLDER/SEED.pending a few milliseconds after they are noted. A
// complete run removes that file. What a killed run has left is judged by
//
//     fifobench complete --cut < fifobench-runs/7.pending | fifobench check
//
// and the next search says so, after it has renamed the file to SEED.killed.
#ifndef FIFOBENCH_RECORDER_CRASH_H
#define FIFOBENCH_RECORDER_CRASH_H

#include <signal.h>

// Calls a function of this file.
#define RECORDER_CRASH(call) recorder_crash_##call
#define RECORDER_HAS_JOURNAL true

enum { RECORDER_SIGNALS = 5, RECORDER_STACK_BYTES = 1 << 16 };

// What a run keeps for its death.
struct recorder_crash {
    atomic_int signal; // that one of its threads has died of, or 0
    pthread_t waits;   // the thread that waits for the run's end
    FILE *journal;
    struct recorder_merge written; // to the journal
    char stacks[RECORDER_MAX_THREADS][RECORDER_STACK_BYTES]; // on which signals are handled
};

// The run that is waited for.
static _Atomic(struct recorder_crash *) recorder_crash_now;

#ifdef SA_ONSTACK

// That of this thread.
static _Thread_local struct recorder_crash *recorder_crash_mine;

static const int recorder_signals[RECORDER_SIGNALS] = {SIGSEGV, SIGBUS, SIGFPE, SIGILL, SIGABRT};
static bool recorder_is_watched[RECORDER_SIGNALS];

// Lets the run be judged before a thread dies of a signal. Waits a minute at most: judging may need its lock.
static inline void recorder_crash_handle(int number)
{
    struct recorder_crash *crash = recorder_crash_mine != NULL ? recorder_crash_mine : atomic_load(&recorder_crash_now);
    int none = 0;
    bool is_first = crash != NULL && atomic_compare_exchange_strong(&crash->signal, &none, number);
    if (crash != NULL && !pthread_equal(pthread_self(), crash->waits)) {
        for (struct timeval left = {60, 0}; select(0, NULL, NULL, NULL, &left) != 0;) {
        }
    } else if (is_first) {
        return; // from outside, as by kill, to the thread that waits
    }
    signal(number, SIG_DFL);
    raise(number);
}

// Called in each thread of a run before its first call. A sanitizer may have given the thread a stack for signals.
static inline void recorder_crash_enter(struct recorder_thread *thread)
{
    stack_t before = {.ss_flags = 0};
    recorder_crash_mine = thread->recorder->crash;
    if (recorder_crash_mine != NULL && sigaltstack(NULL, &before) == 0 && (before.ss_flags & SS_DISABLE) != 0) {
        stack_t stack = {.ss_sp = recorder_crash_mine->stacks[thread->number], .ss_size = RECORDER_STACK_BYTES};
        sigaltstack(&stack, NULL);
    }
}

static inline void recorder_watch_signals(void)
{
    struct sigaction handles = {.sa_handler = recorder_crash_handle, .sa_flags = SA_ONSTACK};
    for (unsigned place = 0; place < RECORDER_SIGNALS; place++) {
        struct sigaction before;
        sigaction(recorder_signals[place], NULL, &before);
        recorder_is_watched[place] = (before.sa_flags & SA_SIGINFO) == 0 && before.sa_handler == SIG_DFL;
        if (recorder_is_watched[place]) {
            sigaction(recorder_signals[place], &handles, NULL);
        }
    }
}

// Called after a search.
static inline void recorder_crash_unwatch(void)
{
    for (unsigned place = 0; place < RECORDER_SIGNALS; place++) {
        if (recorder_is_watched[place]) {
            signal(recorder_signals[place], SIG_DFL);
        }
    }
}

static inline _Noreturn void recorder_crash_die(const struct recorder *recorder, int number)
{
    char how[RECORDER_LINE_BYTES];
    snprintf(how, sizeof how, "crash: %s", strsignal(number));
    recorder_end_early(recorder, how, "The crash itself is the fault.");
    fflush(NULL);
    signal(number, SIG_DFL);
    raise(number);
    abort();
}

#else

static inline void recorder_crash_enter(struct recorder_thread *thread)
{
    (void)thread;
}

static inline void recorder_watch_signals(void)
{
}

static inline void recorder_crash_unwatch(void)
{
}

static inline _Noreturn void recorder_crash_die(const struct recorder *recorder, int number)
{
    (void)recorder;
    raise(number);
    abort();
}

#endif

// Returns whether a text lacks its last line, as a killed run leaves it.
static inline bool recorder_is_cut(const char *path)
{
    char tail[32] = "";
    FILE *file = fopen(path, "rb");
    if (file == NULL) {
        return false;
    }
    fseek(file, 0, SEEK_END);
    long length = ftell(file), from = length > 31 ? length - 31 : 0;
    fseek(file, from, SEEK_SET);
    tail[fread(tail, 1, 31, file)] = '\0';
    fclose(file);
    return strstr(tail, "\nend ") == NULL || tail[strlen(tail) - 1] != '\n';
}

// Called before the runs of a search. Names the texts that killed runs of an earlier search have left.
static inline void recorder_crash_watch(const struct recorder_settings *search)
{
    struct recorder_settings one = *search;
    char from[RECORDER_PATH_BYTES], to[RECORDER_PATH_BYTES];
    for (unsigned made = 0; made < search->runs; made++, one.seed++) {
        recorder_path(&one, "pending", from);
        recorder_path(&one, "killed", to);
        if (recorder_is_cut(from) && rename(from, to) == 0) {
            const char *program = recorder_program(search);
            fprintf(stderr, "fifobench: seed %" PRIu64 " was killed in an earlier search\n", one.seed);
            fprintf(stderr, "  judge:   %s complete --cut < %s | %s check\n", program, to, program);
        }
    }
    recorder_watch_signals();
}

// Called before the threads of a run begin.
static inline void recorder_crash_begin(struct recorder *recorder)
{
    char path[RECORDER_PATH_BYTES];
    struct recorder_crash *crash = recorder->is_chosen ? NULL : calloc(1, sizeof *crash);
    if (crash == NULL) {
        return;
    }
    recorder->crash = crash;
    crash->waits = pthread_self();
    crash->written.recorder = recorder;
    if (recorder->settings.journal) {
        recorder_make_folder(recorder->settings.folder);
        recorder_path(&recorder->settings, "pending", path);
        crash->journal = fopen(path, "wb");
        if (crash->journal == NULL) {
            fprintf(stderr, "fifobench: can't write %s\n", path);
        } else {
            recorder_write_head(recorder, true, crash->journal);
        }
    }
    atomic_store(&recorder_crash_now, crash);
}

// Appends the new events to the journal, and ends the process if a thread has died.
static inline void recorder_crash_look(const struct recorder *recorder)
{
    struct recorder_crash *crash = recorder->crash;
    int number = crash != NULL ? atomic_load(&crash->signal) : 0;
    if (number != 0) {
        recorder_crash_die(recorder, number);
    }
    if (crash != NULL && crash->journal != NULL) {
        for (const struct recorder_event *event; (event = recorder_next(&crash->written)) != NULL;) {
            recorder_write_event(event, crash->journal);
        }
        fflush(crash->journal);
    }
}

// Called after the threads of a run have ended. Removes its journal.
static inline void recorder_crash_end(struct recorder *recorder)
{
    char path[RECORDER_PATH_BYTES];
    if (recorder->crash == NULL) {
        return;
    }
    atomic_store(&recorder_crash_now, NULL);
    if (recorder->crash->journal != NULL) {
        recorder_path(&recorder->settings, "pending", path);
        fclose(recorder->crash->journal);
        remove(path);
    }
    free(recorder->crash);
    recorder->crash = NULL;
}

#endif
