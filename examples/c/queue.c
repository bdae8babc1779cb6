/* A ring of values under a lock, and the same made wrong on purpose: recorded, and judged in this process.
 *
 *     queue good|wrong THREADS OPERATIONS
 *
 * The status is the verdict's, 0 `YES` or 1 `NO`. For a `NO` the few operations that show the violation are printed. C11 with
 * atomics. */
#include "../recorders/c/recorder.h"
#include "fifobench.h"

#include <errno.h>
#include <string.h>

enum { CAPACITY = 1024 };

struct queue {
    pthread_mutex_t lock;
    uint64_t values[CAPACITY];
    size_t first;
    size_t count;
    uint64_t found;
    bool wrong;
};

static bool queue_push(struct queue *queue, uint64_t value)
{
    pthread_mutex_lock(&queue->lock);
    bool taken = queue->count < CAPACITY;
    if (taken) {
        queue->values[(queue->first + queue->count) % CAPACITY] = value;
        queue->count++;
    }
    pthread_mutex_unlock(&queue->lock);
    return taken;
}

static bool queue_pop(struct queue *queue, uint64_t *value)
{
    pthread_mutex_lock(&queue->lock);
    bool found = queue->count > 0;
    if (found) {
        *value = queue->values[queue->first];
        queue->found++;
        /* The fault: every 4th value that is found is left in place. */
        if (!queue->wrong || queue->found % 4 != 0) {
            queue->first = (queue->first + 1) % CAPACITY;
            queue->count--;
        }
    }
    pthread_mutex_unlock(&queue->lock);
    return found;
}

/* Which operations are enqueues, from the thread's number on and over and over. */
static const char plan[] = "EEDDDEED";

struct test {
    struct queue *queue;
    size_t operations;
};

static void work(struct recorder_thread *thread, void *argument)
{
    const struct test *test = argument;
    for (size_t n = 0; n < test->operations; n++) {
        if (plan[(n + thread->number) % 8] == 'E') {
            uint64_t value = recorder_call_enqueue(thread);
            bool taken = queue_push(test->queue, value);
            recorder_return_enqueue(thread, taken);
        } else {
            uint64_t value = 0;
            recorder_call_dequeue(thread);
            bool found = queue_pop(test->queue, &value);
            recorder_return_dequeue(thread, found, value);
        }
    }
}

/* What was recorded, by ticket, as the library takes it; for free. NULL where there is no memory. */
static struct fifobench_event *events_of(struct recorder *recorder, size_t *count)
{
    static const uint32_t kinds[] = {FIFOBENCH_CALL_ENQ, FIFOBENCH_RET_ENQ, FIFOBENCH_RET_NOT,
                                     FIFOBENCH_CALL_DEQ, FIFOBENCH_RET_DEQ, FIFOBENCH_RET_EMPTY};
    *count = recorder_sum_up(recorder).events;
    struct fifobench_event *events = calloc(*count + 1, sizeof *events);
    struct recorder_merge merge = {.recorder = recorder};
    for (size_t place = 0; events != NULL && place < *count; place++) {
        const struct recorder_event *from = recorder_next(&merge);
        events[place] = (struct fifobench_event){from->ticket, from->value, from->thread, kinds[from->what]};
    }
    return events;
}

/* The text of what was recorded, for free, and its length. NULL where there is no memory. */
static char *text_of(struct recorder *recorder, size_t *length)
{
    FILE *file = tmpfile();
    char *text = NULL;
    if (file != NULL && recorder_write(recorder, file)) {
        *length = (size_t)ftell(file);
        text = malloc(*length + 1);
        rewind(file);
        if (text != NULL && fread(text, 1, *length, file) != *length) {
            free(text);
            text = NULL;
        }
    }
    if (file != NULL) {
        fclose(file);
    }
    return text;
}

/* Prints the operations that show a violation: the first call says how much room the answer needs, the second fills it. */
static int print_shrunk(struct recorder *recorder)
{
    size_t length = 0;
    size_t needed = 0;
    char *text = text_of(recorder, &length);
    if (text == NULL) {
        return 3;
    }
    fifobench_shrink((const uint8_t *)text, length, NULL, 0, &needed);
    size_t room = needed;
    uint8_t *answer = malloc(room);
    int status = 3;
    if (answer != NULL) {
        status = fifobench_shrink((const uint8_t *)text, length, answer, room, &needed);
        if (needed <= room) {
            fwrite(answer, 1, needed, stdout);
        }
    }
    free(answer);
    free(text);
    return status;
}

static int judge(struct recorder *recorder)
{
    size_t count = 0;
    size_t needed = 0;
    struct fifobench_event *events = events_of(recorder, &count);
    if (events == NULL) {
        return 3;
    }
    int status = fifobench_check_events(events, count, NULL, 0, &needed);
    free(events);
    if (status == 0) {
        puts("YES");
    } else if (status == 1) {
        return print_shrunk(recorder);
    }
    return status;
}

/* Whether the word is a number in digits, which is left in `number`; else a message says that this isn't one. */
static bool is_number(const char *name, const char *word, size_t *number)
{
    char *end = NULL;
    errno = 0;
    *number = strtoul(word, &end, 10);
    if (*word >= '0' && *word <= '9' && *end == '\0' && errno == 0) {
        return true;
    }
    fprintf(stderr, "queue: %s has to be a number, and is '%s'\n", name, word);
    return false;
}

int main(int count, char **words)
{
    if (count != 4 || (strcmp(words[1], "good") != 0 && strcmp(words[1], "wrong") != 0)) {
        fputs("usage: queue good|wrong THREADS OPERATIONS\n", stderr);
        return 2;
    }
    size_t threads = 0;
    size_t operations = 0;
    if (!is_number("THREADS", words[2], &threads) || !is_number("OPERATIONS", words[3], &operations)) {
        return 2;
    }
    static struct queue queue;
    if (pthread_mutex_init(&queue.lock, NULL) != 0) {
        return 3;
    }
    queue.wrong = strcmp(words[1], "wrong") == 0;
    struct test test = {&queue, operations};
    struct recorder *recorder = recorder_run(threads <= 64 ? (unsigned)threads : 65, operations, work, &test);
    if (recorder == NULL) {
        fputs("queue: 1 to 64 threads, and at most 1000000 operations together\n", stderr);
        return 2;
    }
    int status = judge(recorder);
    recorder_free(recorder);
    pthread_mutex_destroy(&queue.lock);
    return status;
}
