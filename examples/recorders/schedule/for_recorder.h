// The points of schedule.c as recorder.h uses them: if they are linked, and nothing else if they aren't. Included by
// recorder.h, behind its types.
#ifndef FIFOBENCH_FOR_RECORDER_H
#define FIFOBENCH_FOR_RECORDER_H

#include "schedule.h"

// Where `recorder` is a run: calls this function of schedule.h, if the run's schedule is chosen.
#define RECORDER_IF_CHOSEN(call) (recorder->is_chosen ? fifobench_schedule_##call : (void)0)

static inline struct recorder *recorder_play(const struct recorder_settings *, const struct recorder_queue *, void *);
static inline enum recorder_pattern recorder_pattern_of(const struct recorder_settings *);
static inline uint64_t recorder_value(const struct recorder_settings *, unsigned, uint64_t);
static inline void recorder_free(struct recorder *);

static inline bool recorder_points_linked(void)
{
    return fifobench_schedule_begin != NULL;
}

static inline bool recorder_points_chosen(bool choose)
{
    return choose && recorder_points_linked() && fifobench_schedule_is_chosen();
}

// Before the ticket of an event is drawn.
static inline void recorder_points_notes(enum recorder_what what)
{
    bool is_call = what == RECORDER_CALL_ENQ || what == RECORDER_CALL_DEQ;
    if (recorder_points_linked() && !is_call) {
        fifobench_schedule_returns();
    }
}

// After it was drawn.
static inline void recorder_points_noted(enum recorder_what what, uint64_t value)
{
    bool is_call = what == RECORDER_CALL_ENQ || what == RECORDER_CALL_DEQ;
    if (recorder_points_linked()) {
        (is_call ? fifobench_schedule_called : fifobench_schedule_returned)(what, value);
    }
}

// Begins a run whose schedule is chosen; another one is left as it is. Returns the recorder; or NULL, and it is free,
// if the schedule can't be chosen, which is said.
static inline struct recorder *recorder_points_begin(struct recorder *recorder)
{
    const struct recorder_settings *settings = &recorder->settings;
    struct fifobench_schedule schedule = {settings->seed, settings->threads, settings->operations, settings->folder};
    recorder->is_chosen = recorder_points_chosen(settings->choose);
    const char *fault = recorder->is_chosen ? fifobench_schedule_begin(&schedule) : NULL;
    if (fault != NULL) {
        fprintf(stderr, "fifobench: %s\n", fault);
        recorder_free(recorder);
        return NULL;
    }
    atomic_store(&recorder->open, recorder->is_chosen); // the schedule says who begins
    for (size_t place = 0; recorder->is_chosen && place < settings->initial; place++) {
        fifobench_schedule_initial(recorder_value(settings, RECORDER_MAX_THREADS, place));
    }
    return recorder;
}

struct recorder_points_context {
    const struct recorder_settings *settings;
    const struct recorder_queue *calls;
};

// One run of a search, in its child process.
static inline void recorder_points_run(void *argument, uint64_t seed, size_t operations)
{
    const struct recorder_points_context *context = argument;
    struct recorder_settings one = *context->settings;
    void *queue = context->calls->make(context->calls->context);
    one.seed = seed;
    one.operations = operations;
    struct recorder *recorder = queue != NULL ? recorder_play(&one, context->calls, queue) : NULL;
    if (recorder == NULL) {
        fifobench_schedule_fail(queue == NULL ? "there is no queue" : "there is no run");
        return;
    }
    recorder_free(recorder);
    if (context->calls->destroy != NULL) {
        context->calls->destroy(queue);
    }
}

static inline const char *recorder_points_pattern(void *argument, uint64_t seed)
{
    const struct recorder_points_context *context = argument;
    struct recorder_settings one = *context->settings;
    one.seed = seed;
    return recorder_pattern_names[recorder_pattern_of(&one)];
}

// Before a search of free runs. Says once if schedule.o is missing, unless free runs are asked for.
static inline void recorder_points_free_runs(bool choose)
{
    static atomic_flag is_told = ATOMIC_FLAG_INIT;
    const char *wanted = getenv("FIFOBENCH_SCHEDULES");
    bool is_asked_for = !choose || (wanted != NULL && strcmp(wanted, "free") == 0);
    if (recorder_points_linked()) {
        fifobench_schedule_disturb();
    } else if (FIFOBENCH_HAS_POINTS && !is_asked_for && !atomic_flag_test_and_set(&is_told)) {
        fputs(FIFOBENCH_LACKS_SCHEDULE, stderr);
    }
}

// Makes the runs of a search whose schedules are chosen, and gives its answer. False if they aren't: the caller makes
// free runs, which points disturb.
static inline bool recorder_points_search(const struct recorder_settings *settings, const struct recorder_queue *calls,
                                          int *answer)
{
    if (!recorder_points_chosen(settings->choose)) {
        recorder_points_free_runs(settings->choose);
        return false;
    }
    static const char *const flags[] = {"", " --local", " --weak-empty", " --local --weak-empty"};
    struct recorder_points_context context = {settings, calls};
    struct fifobench_search chosen = {
        .program = settings->program, .folder = settings->folder, .seed = settings->seed, .runs = settings->runs,
        .threads = settings->threads, .seconds = settings->timeout, .keep = settings->keep, .run = recorder_points_run,
        .pattern = recorder_points_pattern, .context = &context,
        .operations = settings->operations, .flags = flags[settings->condition],
        .is_bounded = settings->overtaken_at_most != UINT64_MAX, .overtaken_at_most = settings->overtaken_at_most};
    *answer = fifobench_search_runs(&chosen);
    return true;
}

#endif
