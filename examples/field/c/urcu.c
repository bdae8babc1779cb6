// Queues of liburcu (userspace RCU).
#include "field.h"

#include <urcu.h>
#include <urcu/rculfqueue.h>
#include <urcu/wfcqueue.h>

struct wait_free_node {
    struct cds_wfcq_node node;
    uint64_t value;
};

struct wait_free {
    struct cds_wfcq_head head;
    struct cds_wfcq_tail tail;
};

static void *make_wait_free(void *unused)
{
    (void)unused;
    struct wait_free *made = calloc(1, sizeof *made);
    if (made != NULL) {
        cds_wfcq_init(&made->head, &made->tail);
    }
    return made;
}

static bool enqueue_wait_free(void *argument, uint64_t value)
{
    struct wait_free *queue = argument;
    struct wait_free_node *node = malloc(sizeof *node);
    if (node == NULL) {
        return false;
    }
    cds_wfcq_node_init(&node->node);
    node->value = value;
    cds_wfcq_enqueue(&queue->head, &queue->tail, &node->node);
    return true;
}

// Consumers take a lock; producers don't.
static bool dequeue_wait_free(void *argument, uint64_t *value)
{
    struct wait_free *queue = argument;
    struct cds_wfcq_node *found = cds_wfcq_dequeue_blocking(&queue->head, &queue->tail);
    if (found == NULL) {
        return false;
    }
    struct wait_free_node *node = caa_container_of(found, struct wait_free_node, node);
    *value = node->value;
    free(node);
    return true;
}

static void destroy_wait_free(void *argument)
{
    struct wait_free *queue = argument;
    cds_wfcq_destroy(&queue->head, &queue->tail);
    free(queue);
}

struct rcu_node {
    struct cds_lfq_node_rcu node;
    struct rcu_head rcu;
    uint64_t value;
};

static void free_node(struct rcu_head *head)
{
    free(caa_container_of(head, struct rcu_node, rcu));
}

static void *make_lock_free(void *unused)
{
    (void)unused;
    struct cds_lfq_queue_rcu *made = calloc(1, sizeof *made);
    if (made != NULL) {
        cds_lfq_init_rcu(made, call_rcu);
    }
    return made;
}

static bool enqueue_lock_free(void *queue, uint64_t value)
{
    struct rcu_node *node = malloc(sizeof *node);
    if (node == NULL) {
        return false;
    }
    cds_lfq_node_init_rcu(&node->node);
    node->value = value;
    rcu_read_lock();
    cds_lfq_enqueue_rcu(queue, &node->node);
    rcu_read_unlock();
    return true;
}

static bool dequeue_lock_free(void *queue, uint64_t *value)
{
    rcu_read_lock();
    struct cds_lfq_node_rcu *found = cds_lfq_dequeue_rcu(queue);
    rcu_read_unlock();
    if (found == NULL) {
        return false;
    }
    struct rcu_node *node = caa_container_of(found, struct rcu_node, node);
    *value = node->value;
    call_rcu(&node->rcu, free_node);
    return true;
}

static void destroy_lock_free(void *queue)
{
    cds_lfq_destroy_rcu(queue);
    free(queue);
}

static void enter(void *queue, unsigned thread)
{
    (void)queue;
    (void)thread;
    rcu_register_thread();
}

static void leave(void *queue, unsigned thread)
{
    (void)queue;
    (void)thread;
    rcu_unregister_thread();
}

int main(int count, char **words)
{
    static const struct field_queue queues[] = {
        {"urcu-wfcqueue", {.make = make_wait_free, .enqueue = enqueue_wait_free, .dequeue = dequeue_wait_free,
                           .destroy = destroy_wait_free}},
        {"urcu-rculfqueue", {.make = make_lock_free, .enqueue = enqueue_lock_free, .dequeue = dequeue_lock_free,
                             .destroy = destroy_lock_free, .enter = enter, .leave = leave}},
    };
    return field_run(count, words, queues, sizeof queues / sizeof queues[0]);
}
