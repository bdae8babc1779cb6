// A ring of Concurrency Kit, whose atomic operations are inline assembler: no compiler's flag makes points of them. A thread
// that waits in such a loop gives no turn away, so the search ends with a hang, and says what it didn't see.
#include "../../examples/recorders/c/recorder.h"

#include <ck_ring.h>

enum { SLOTS = 16 };

struct queue {
    ck_ring_t ring;
    ck_ring_buffer_t slots[SLOTS];
};

static void *make(void *unused)
{
    (void)unused;
    struct queue *queue = calloc(1, sizeof *queue);
    if (queue != NULL) {
        ck_ring_init(&queue->ring, SLOTS);
    }
    return queue;
}

// The ring takes pointers, and these are values plus 1.
static bool enqueue(void *argument, uint64_t value)
{
    struct queue *queue = argument;
    return ck_ring_enqueue_mpmc(&queue->ring, queue->slots, (void *)(uintptr_t)(value + 1));
}

static bool dequeue(void *argument, uint64_t *value)
{
    struct queue *queue = argument;
    void *found = NULL;
    bool is_found = ck_ring_dequeue_mpmc(&queue->ring, queue->slots, &found);
    *value = (uint64_t)(uintptr_t)found - 1;
    return is_found;
}

int main(void)
{
    struct recorder_queue mine = {.make = make, .enqueue = enqueue, .dequeue = dequeue, .destroy = free};
    struct recorder_settings settings = recorder_defaults();
    settings.timeout = 2;
    return recorder_search(&settings, &mine);
}
