// The bounded queue of APR-util. It holds pointers, and these are the values.
#include "field.h"

#include <apr_general.h>
#include <apr_queue.h>

struct queue {
    apr_pool_t *pool;
    apr_queue_t *queue;
};

static void *make(void *unused)
{
    (void)unused;
    struct queue *made = calloc(1, sizeof *made);
    if (made != NULL) {
        apr_pool_create(&made->pool, NULL);
        apr_queue_create(&made->queue, (unsigned)field_size, made->pool);
    }
    return made;
}

static void destroy(void *queue)
{
    apr_pool_destroy(((struct queue *)queue)->pool);
    free(queue);
}

// APR_EAGAIN: full.
static bool enqueue(void *queue, uint64_t value)
{
    return apr_queue_trypush(((struct queue *)queue)->queue, (void *)(uintptr_t)value) == APR_SUCCESS;
}

// APR_EAGAIN: empty.
static bool dequeue(void *queue, uint64_t *value)
{
    void *found = NULL;
    apr_status_t status = apr_queue_trypop(((struct queue *)queue)->queue, &found);
    *value = (uint64_t)(uintptr_t)found;
    return status == APR_SUCCESS;
}

// These are woken without a cause too (APR_EINTR), and then tried again.
static bool enqueue_waits(void *queue, uint64_t value)
{
    while (apr_queue_push(((struct queue *)queue)->queue, (void *)(uintptr_t)value) == APR_EINTR) {
    }
    return true;
}

static bool dequeue_waits(void *queue, uint64_t *value)
{
    void *found = NULL;
    while (apr_queue_pop(((struct queue *)queue)->queue, &found) == APR_EINTR) {
    }
    *value = (uint64_t)(uintptr_t)found;
    return true;
}

int main(int count, char **words)
{
    static const struct field_queue queues[] = {
        {"apr", {.make = make, .enqueue = enqueue, .dequeue = dequeue, .destroy = destroy}},
        {"apr-waits", {.make = make, .enqueue = enqueue_waits, .dequeue = dequeue_waits, .destroy = destroy}},
    };
    apr_initialize();
    return field_run(count, words, queues, sizeof queues / sizeof queues[0]);
}
