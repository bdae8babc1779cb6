// The ring of DPDK, in memory that DPDK doesn't manage, so no huge pages are needed. It holds pointers, and these are
// the values.
#include "field.h"

#include <rte_ring.h>

static void *make(unsigned flags)
{
    void *memory = NULL;
    unsigned size = (unsigned)field_size;
    if (posix_memalign(&memory, RTE_CACHE_LINE_SIZE, (size_t)rte_ring_get_memsize(size)) != 0) {
        return NULL;
    }
    rte_ring_init(memory, "field", size, flags);
    return memory;
}

static void *make_mpmc(void *unused)
{
    (void)unused;
    return make(0);
}

static void *make_spsc(void *unused)
{
    (void)unused;
    return make(RING_F_SP_ENQ | RING_F_SC_DEQ);
}

static void *make_rts(void *unused)
{
    (void)unused;
    return make(RING_F_MP_RTS_ENQ | RING_F_MC_RTS_DEQ);
}

static void *make_hts(void *unused)
{
    (void)unused;
    return make(RING_F_MP_HTS_ENQ | RING_F_MC_HTS_DEQ);
}

// -ENOBUFS: full.
static bool enqueue(void *queue, uint64_t value)
{
    return rte_ring_enqueue(queue, (void *)(uintptr_t)value) == 0;
}

// -ENOENT: empty.
static bool dequeue(void *queue, uint64_t *value)
{
    void *found = NULL;
    int status = rte_ring_dequeue(queue, &found);
    *value = (uint64_t)(uintptr_t)found;
    return status == 0;
}

#define CALLS(maker) {.make = maker, .enqueue = enqueue, .dequeue = dequeue, .destroy = free}

int main(int count, char **words)
{
    static const struct field_queue queues[] = {
        {"dpdk-ring", CALLS(make_mpmc)},
        {"dpdk-ring-spsc", CALLS(make_spsc)},
        {"dpdk-ring-rts", CALLS(make_rts)},
        {"dpdk-ring-hts", CALLS(make_hts)},
    };
    return field_run(count, words, queues, sizeof queues / sizeof queues[0]);
}
