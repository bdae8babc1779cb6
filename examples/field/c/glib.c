// GLib's queue of threads. It holds pointers, and these are the values.
#include "field.h"

#include <glib.h>

static void *make(void *unused)
{
    (void)unused;
    return g_async_queue_new();
}

static void destroy(void *queue)
{
    g_async_queue_unref(queue);
}

static bool enqueue(void *queue, uint64_t value)
{
    g_async_queue_push(queue, GSIZE_TO_POINTER(value));
    return true;
}

static bool dequeue(void *queue, uint64_t *value)
{
    *value = GPOINTER_TO_SIZE(g_async_queue_try_pop(queue));
    return *value != 0;
}

static bool dequeue_waits(void *queue, uint64_t *value)
{
    *value = GPOINTER_TO_SIZE(g_async_queue_pop(queue));
    return true;
}

int main(int count, char **words)
{
    static const struct field_queue queues[] = {
        {"glib-async", {.make = make, .enqueue = enqueue, .dequeue = dequeue, .destroy = destroy}},
        {"glib-async-waits", {.make = make, .enqueue = enqueue, .dequeue = dequeue_waits, .destroy = destroy}},
    };
    return field_run(count, words, queues, sizeof queues / sizeof queues[0]);
}
