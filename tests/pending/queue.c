// A queue that ends a run early: see run, which says what a search of it has to say.
//
//     queue ORDER END FOLDER
//
// ORDER is fifo or lifo. END is what the second dequeue does: lock, wait, abort, null, overflow, kill, or fine;
// or, with late, what the 250th does: it waits.
#include "../../examples/recorders/c/recorder.h"

#include <stdio.h>

enum { CAPACITY = 64 };

static const char *order, *end, *folder;
static bool is_late;

struct queue {
    uint64_t values[CAPACITY];
    size_t count;
    unsigned dequeues;
    pthread_mutex_t lock;
    pthread_cond_t never;
};

static void *make(void *unused)
{
    struct queue *queue = calloc(1, sizeof *queue);
    (void)unused;
    pthread_mutex_init(&queue->lock, NULL);
    pthread_cond_init(&queue->never, NULL);
    return queue;
}

static bool enqueue(void *argument, uint64_t value)
{
    struct queue *queue = argument;
    queue->values[queue->count++] = value;
    return true;
}

// The stack overflows, so the signal needs one of its own.
static unsigned deep(const volatile unsigned *above)
{
    volatile unsigned here[1024] = {*above};
    return here[0] == 0 ? 0 : deep(here) + here[5];
}

// Returns whether the journal has the call that is pending.
static bool has_last_call(void)
{
    char path[4096], text[4096];
    snprintf(path, sizeof path, "%s/3.pending", folder);
    FILE *file = fopen(path, "r");
    size_t length = file != NULL ? fread(text, 1, sizeof text - 1, file) : 0;
    text[length] = '\0';
    if (file != NULL) {
        fclose(file);
    }
    return strstr(text, "\n52 0 call-deq\n") != NULL;
}

static void end_early(struct queue *queue)
{
    if (strcmp(end, "lock") == 0) {
        pthread_mutex_lock(&queue->lock);
        pthread_mutex_lock(&queue->lock);
    } else if (strcmp(end, "wait") == 0 || is_late) {
        pthread_mutex_lock(&queue->lock);
        for (;;) {
            pthread_cond_wait(&queue->never, &queue->lock);
        }
    } else if (strcmp(end, "abort") == 0) {
        abort();
    } else if (strcmp(end, "null") == 0) {
        *(volatile int *)NULL = 1;
    } else if (strcmp(end, "overflow") == 0) {
        volatile unsigned first = 1;
        exit((int)deep(&first));
    } else if (strcmp(end, "kill") == 0) {
        while (!has_last_call()) {
            select(0, NULL, NULL, NULL, &(struct timeval){0, 1000});
        }
        raise(9);
    }
}

static bool dequeue(void *argument, uint64_t *value)
{
    struct queue *queue = argument;
    if (++queue->dequeues == (is_late ? 250 : 2)) {
        end_early(queue);
    }
    if (queue->count == 0) {
        return false;
    }
    queue->count--;
    *value = queue->values[strcmp(order, "lifo") == 0 ? queue->count : 0];
    if (strcmp(order, "fifo") == 0) {
        memmove(queue->values, queue->values + 1, queue->count * sizeof *value);
    }
    return true;
}

int main(int count, char **words)
{
    struct recorder_queue mine = {.make = make, .enqueue = enqueue, .dequeue = dequeue, .destroy = free};
    struct recorder_settings settings = recorder_defaults();
    if (count != 4) {
        return 3;
    }
    order = words[1];
    end = words[2];
    is_late = strcmp(end, "late") == 0;
    settings.folder = folder = words[3];
    settings.threads = 1;
    settings.operations = is_late ? 600 : 60;
    settings.seed = is_late ? 1 : 3; // alternate; bursts, the first of 25
    settings.runs = 1;
    settings.timeout = strcmp(end, "lock") == 0 || strcmp(end, "wait") == 0 || is_late ? 1 : 30;
    settings.journal = strcmp(end, "kill") == 0;
    return recorder_search(&settings, &mine);
}
