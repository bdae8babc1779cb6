// Queues of Concurrency Kit. The rings hold pointers, and these are the values.
#include "field.h"

#include <ck_fifo.h>
#include <ck_ring.h>

struct ring {
    ck_ring_t ring;
    ck_ring_buffer_t slots[];
};

static void *make_ring(void *unused)
{
    (void)unused;
    struct ring *made = calloc(1, sizeof *made + field_size * sizeof made->slots[0]);
    if (made != NULL) {
        ck_ring_init(&made->ring, (unsigned)field_size);
    }
    return made;
}

// The two calls of a kind of ring.
#define RING(kind)                                                                                       \
    static bool enqueue_##kind(void *queue, uint64_t value)                                              \
    {                                                                                                    \
        struct ring *ring = queue;                                                                       \
        return ck_ring_enqueue_##kind(&ring->ring, ring->slots, (void *)(uintptr_t)value);               \
    }                                                                                                    \
    static bool dequeue_##kind(void *queue, uint64_t *value)                                             \
    {                                                                                                    \
        struct ring *ring = queue;                                                                       \
        void *found = NULL;                                                                              \
        bool is_found = ck_ring_dequeue_##kind(&ring->ring, ring->slots, &found);                        \
        *value = (uint64_t)(uintptr_t)found;                                                             \
        return is_found;                                                                                 \
    }

RING(spsc)
RING(mpsc)
RING(spmc)
RING(mpmc)

// Fails if the ring is empty, and also if another dequeue takes the value first.
static bool try_dequeue(void *queue, uint64_t *value)
{
    struct ring *ring = queue;
    void *found = NULL;
    bool is_found = ck_ring_trydequeue_mpmc(&ring->ring, ring->slots, &found);
    *value = (uint64_t)(uintptr_t)found;
    return is_found;
}

// The entries of a list are those of an arena, and each is used once: nothing has to be reclaimed while threads run.
enum { ENTRIES = 1 << 17 };

struct list {
    ck_fifo_spsc_t spsc;
    ck_fifo_mpmc_t mpmc;
    atomic_size_t used;
    ck_fifo_spsc_entry_t spsc_entries[ENTRIES];
    ck_fifo_mpmc_entry_t mpmc_entries[ENTRIES];
};

static size_t next_entry(struct list *list)
{
    size_t entry = atomic_fetch_add(&list->used, 1);
    if (entry >= ENTRIES) {
        fputs("ck: more enqueues than entries\n", stderr);
        abort();
    }
    return entry;
}

static void *make_list(void *unused)
{
    (void)unused;
    void *memory = NULL;
    if (posix_memalign(&memory, 64, sizeof(struct list)) != 0) {
        return NULL;
    }
    struct list *made = memory;
    atomic_init(&made->used, 0);
    ck_fifo_spsc_init(&made->spsc, &made->spsc_entries[next_entry(made)]);
    ck_fifo_mpmc_init(&made->mpmc, &made->mpmc_entries[next_entry(made)]);
    return made;
}

static bool enqueue_fifo_spsc(void *queue, uint64_t value)
{
    struct list *list = queue;
    ck_fifo_spsc_enqueue(&list->spsc, &list->spsc_entries[next_entry(list)], (void *)(uintptr_t)value);
    return true;
}

static bool dequeue_fifo_spsc(void *queue, uint64_t *value)
{
    void *found = NULL;
    bool is_found = ck_fifo_spsc_dequeue(&((struct list *)queue)->spsc, &found);
    *value = (uint64_t)(uintptr_t)found;
    return is_found;
}

static bool enqueue_fifo_mpmc(void *queue, uint64_t value)
{
    struct list *list = queue;
    ck_fifo_mpmc_enqueue(&list->mpmc, &list->mpmc_entries[next_entry(list)], (void *)(uintptr_t)value);
    return true;
}

static bool dequeue_fifo_mpmc(void *queue, uint64_t *value)
{
    void *found = NULL;
    ck_fifo_mpmc_entry_t *garbage = NULL;
    bool is_found = ck_fifo_mpmc_dequeue(&((struct list *)queue)->mpmc, &found, &garbage);
    *value = (uint64_t)(uintptr_t)found;
    return is_found;
}

#define CALLS(maker, enqueues, dequeues) {.make = maker, .enqueue = enqueues, .dequeue = dequeues, .destroy = free}

int main(int count, char **words)
{
    static const struct field_queue queues[] = {
        {"ck-ring-spsc", CALLS(make_ring, enqueue_spsc, dequeue_spsc)},
        {"ck-ring-mpsc", CALLS(make_ring, enqueue_mpsc, dequeue_mpsc)},
        {"ck-ring-spmc", CALLS(make_ring, enqueue_spmc, dequeue_spmc)},
        {"ck-ring-mpmc", CALLS(make_ring, enqueue_mpmc, dequeue_mpmc)},
        {"ck-ring-mpmc-try", CALLS(make_ring, enqueue_mpmc, try_dequeue)},
        {"ck-fifo-spsc", CALLS(make_list, enqueue_fifo_spsc, dequeue_fifo_spsc)},
        {"ck-fifo-mpmc", CALLS(make_list, enqueue_fifo_mpmc, dequeue_fifo_mpmc)},
    };
    return field_run(count, words, queues, sizeof queues / sizeof queues[0]);
}
