// A good queue and some that are wrong on purpose, recorded and judged.
//
//     queue QUEUE [--runs R] [--threads T] [--producers N] [--ops N] [--pattern P] [--percent K] [--seed S]
//                 [--initial N] [--condition C] [--overtaken-at-most N] [--folder F] [--keep 0|1]
//                 [--timeout SECONDS]
//     queue QUEUE THREADS OPERATIONS [PATTERN [SEED [INITIAL]]] > history
//
// The first makes runs until one shows a violation: status 0 none does, 1 one does, 2 something is wrong. The second
// makes one run, and writes its history; without a pattern, or with `loop`, it is a loop of one's own. A queue is good:
// a ring under a lock; wrong: every 4th value that is found is left in place; stack: the last value comes out first;
// shards: values of two producers overtake each other; early: it says empty too early; hang: a dequeue never returns.
#include "recorder.h"

enum { CAPACITY = 1024 };

enum kind { GOOD, WRONG, STACK, SHARDS, EARLY, HANG, KINDS };

static const char *const kind_names[] = {"good", "wrong", "stack", "shards", "early", "hang"};

struct queue {
    enum kind kind;
    pthread_mutex_t lock;
    uint64_t values[CAPACITY];
    size_t first;
    size_t count;
    uint64_t found;
    atomic_ulong calls;
    atomic_long size; // of EARLY: counted beside the list, after it was changed and outside of the lock
};

static void *make(void *context)
{
    struct queue *queue = calloc(1, sizeof *queue);
    if (queue != NULL) {
        queue->kind = *(const enum kind *)context;
        pthread_mutex_init(&queue->lock, NULL);
    }
    return queue;
}

static void destroy(void *argument)
{
    struct queue *queue = argument;
    pthread_mutex_destroy(&queue->lock);
    free(queue);
}

static bool enqueue(void *argument, uint64_t value)
{
    struct queue *queue = argument;
    pthread_mutex_lock(&queue->lock);
    bool taken = queue->count < CAPACITY;
    if (taken) {
        queue->values[(queue->first + queue->count) % CAPACITY] = value;
        queue->count++;
    }
    pthread_mutex_unlock(&queue->lock);
    if (queue->kind == EARLY && taken) {
        sched_yield();
        atomic_fetch_add(&queue->size, 1);
    }
    return taken;
}

// Of SHARDS: brings the first value of the last one's producer to the front. So each producer's order is kept.
static void bring(struct queue *queue)
{
    uint64_t *values = queue->values, producer = values[(queue->first + queue->count - 1) % CAPACITY] >> 32;
    size_t place = queue->first;
    while (values[place % CAPACITY] >> 32 != producer) {
        place++;
    }
    for (; place > queue->first; place--) {
        uint64_t value = values[place % CAPACITY];
        values[place % CAPACITY] = values[(place - 1) % CAPACITY];
        values[(place - 1) % CAPACITY] = value;
    }
}

static bool dequeue(void *argument, uint64_t *value)
{
    struct queue *queue = argument;
    if (queue->kind == EARLY && atomic_load(&queue->size) <= 0) {
        return false;
    }
    while (queue->kind == HANG && atomic_fetch_add(&queue->calls, 1) == 100) {
        for (;;) {
            sched_yield();
        }
    }
    pthread_mutex_lock(&queue->lock);
    bool found = queue->count > 0;
    if (found && queue->kind == SHARDS) {
        bring(queue);
    }
    if (found) {
        size_t place = queue->kind == STACK ? queue->count - 1 : 0;
        *value = queue->values[(queue->first + place) % CAPACITY];
        queue->found++;
        // The fault: every 4th value that is found is left in place.
        if (queue->kind != WRONG || queue->found % 4 != 0) {
            queue->first = queue->kind == STACK ? queue->first : (queue->first + 1) % CAPACITY;
            queue->count--;
        }
    }
    pthread_mutex_unlock(&queue->lock);
    if (queue->kind == EARLY && found) {
        atomic_fetch_sub(&queue->size, 1);
    }
    return found;
}

static const struct recorder_queue calls = {.make = make, .enqueue = enqueue, .dequeue = dequeue, .destroy = destroy};

// A loop of one's own. Which operations are enqueues, from the thread's number on and over and over:
static const char plan[] = "EEDDDEED";

static void work(struct recorder_thread *thread, void *queue)
{
    for (size_t n = 0; n < thread->recorder->settings.operations; n++) {
        if (plan[(n + thread->number) % 8] == 'E') {
            uint64_t value = recorder_call_enqueue(thread);
            bool taken = enqueue(queue, value);
            recorder_return_enqueue(thread, taken);
        } else {
            uint64_t value = 0;
            recorder_call_dequeue(thread);
            bool found = dequeue(queue, &value);
            recorder_return_dequeue(thread, found, value);
        }
    }
}

static bool number(const char *word, uint64_t least, uint64_t most, uint64_t *to)
{
    bool is_number = word != NULL && *word != '\0' && strlen(word) < 19 && strspn(word, "0123456789") == strlen(word);
    *to = is_number ? strtoull(word, NULL, 10) : 0;
    if (!is_number || *to < least || *to > most) {
        fprintf(stderr, "queue: '%s' is no number from %" PRIu64 " to %" PRIu64 "\n", word != NULL ? word : "", least,
                most);
        return false;
    }
    return true;
}

static bool pattern(const char *word, enum recorder_pattern *to)
{
    for (*to = RECORDER_ALTERNATE; word != NULL && *to < RECORDER_BY_SEED; ++*to) {
        if (strcmp(word, recorder_pattern_names[*to]) == 0) {
            return true;
        }
    }
    fprintf(stderr, "queue: no pattern '%s': alternate, mix, bursts or roles\n", word != NULL ? word : "");
    return false;
}

static bool condition(const char *word, enum recorder_condition *to)
{
    for (*to = RECORDER_LINEARIZABLE; word != NULL && *to <= RECORDER_BOTH; ++*to) {
        if (strcmp(word, recorder_condition_names[*to]) == 0) {
            return true;
        }
    }
    fprintf(stderr, "queue: no condition '%s': linearizable, local, weak-empty or both\n", word != NULL ? word : "");
    return false;
}

// The place of a word among some, or their number.
static size_t place_of(const char *word, const char *const *words, size_t count)
{
    size_t place = 0;
    while (place < count && strcmp(word, words[place]) != 0) {
        place++;
    }
    return place;
}

// False, and said: the option or its word is none.
static bool set(struct recorder_settings *settings, const char *option, const char *word)
{
    static const char *const options[] = {"--runs", "--threads", "--ops",       "--percent",
                                          "--seed", "--timeout", "--producers", "--keep", "--initial",
                                          "--overtaken-at-most"};
    static const uint64_t least[] = {1, 1, 1, 0, 0, 1, 0, 0, 0, 0};
    static const uint64_t most[] = {1000000, 64, 1000000, 100, UINT32_MAX, 86400, 63, 1, RECORDER_MAX_INITIAL, 1000000};
    uint64_t value = 0;
    if (strcmp(option, "--pattern") == 0) {
        return pattern(word, &settings->pattern);
    }
    if (strcmp(option, "--condition") == 0) {
        return condition(word, &settings->condition);
    }
    if (strcmp(option, "--folder") == 0 && word != NULL) {
        settings->folder = word;
        return true;
    }
    size_t place = place_of(option, options, 10);
    if (place == 10) {
        fprintf(stderr, "queue: no option '%s'\n", option);
        return false;
    }
    if (!number(word, least[place], most[place], &value)) {
        return false;
    }
    switch (place) {
    case 0: settings->runs = (unsigned)value; break;
    case 1: settings->threads = (unsigned)value; break;
    case 2: settings->operations = value; break;
    case 3: settings->percent = (unsigned)value; break;
    case 4: settings->seed = value; break;
    case 5: settings->timeout = (unsigned)value; break;
    case 6: settings->producers = (unsigned)value; break;
    case 7: settings->keep = value == 1; break;
    case 8: settings->initial = value; break;
    default: settings->overtaken_at_most = value; break;
    }
    return true;
}

static int run_once(struct recorder_settings *settings, enum kind kind, bool has_pattern)
{
    const char *fault = recorder_fault(settings);
    void *queue = fault == NULL ? make(&kind) : NULL;
    struct recorder *recorder = NULL;
    settings->drain = false;
    for (size_t place = 0; queue != NULL && !has_pattern && place < settings->initial; place++) {
        enqueue(queue, recorder_initial_value(settings, place));
    }
    if (queue != NULL) {
        recorder = has_pattern ? recorder_play(settings, &calls, queue) : recorder_record(settings, work, queue);
    }
    if (recorder == NULL) {
        fprintf(stderr, "queue: %s\n", fault != NULL ? fault : "there is no memory");
        return fault != NULL ? 2 : 3;
    }
    bool written = recorder_write(recorder, stdout);
    recorder_free(recorder);
    destroy(queue);
    return written ? 0 : 3;
}

int main(int count, char **words)
{
    static const char *const place_options[] = {"--threads", "--ops", "--pattern", "--seed", "--initial"};
    struct recorder_settings settings = recorder_defaults();
    size_t place = count > 1 ? place_of(words[1], kind_names, KINDS) : KINDS;
    bool is_one = count >= 4 && count <= 7 && strncmp(words[2], "--", 2) != 0;
    bool has_pattern = is_one && count > 4 && strcmp(words[4], "loop") != 0;
    enum kind kind = (enum kind)place;
    if (place == KINDS) {
        fprintf(stderr, "queue: no queue '%s': good, wrong, stack, shards, early or hang\n", count > 1 ? words[1] : "");
        return 2;
    }
    for (int at = 2; at < count; at += is_one ? 1 : 2) {
        const char *option = is_one ? place_options[at - 2] : words[at];
        bool is_loop = is_one && at == 4 && !has_pattern;
        if (!is_loop && !set(&settings, option, is_one ? words[at] : words[at + 1])) {
            return 2;
        }
    }
    if (is_one) {
        return run_once(&settings, kind, has_pattern);
    }
    struct recorder_queue mine = calls;
    mine.context = &kind;
    return recorder_search(&settings, &mine);
}
