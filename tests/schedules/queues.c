// The same set in C, or some of it: wrong queues, each with one fault that real queues had, and right ones.
//
//     queues                                                        lists them
//     queues QUEUE [--runs R] [--threads T] [--ops N] [--seed S] [--folder F] [--timeout SECONDS]
#include "../../examples/recorders/c/recorder.h"

#include <semaphore.h>

enum { SLOTS = 8, NODES = 4096, MOST_THREADS = 8 };

static const uint32_t NO_NODE = UINT32_MAX;

enum fault {
    NONE,
    SEQUENCE_FIRST,
    FREED_EARLY,
    PLAIN_CLAIM,
    EARLY_EMPTY,
    PLAIN_LINK,
    HEAD_STORE,
    NO_TAGS,
    VALUE_LATE,
    SOME_WAKE_UPS,
    NO_FENCE,
    CROSSED
};

// A ring of slots with sequences (Vyukov 2010).
struct slot {
    atomic_size_t sequence;
    uint64_t value;
};

struct ring {
    enum fault fault;
    atomic_size_t head, tail;
    struct slot slots[SLOTS];
};

static void *make_ring(enum fault fault)
{
    struct ring *ring = calloc(1, sizeof *ring);
    for (size_t place = 0; ring != NULL && place < SLOTS; place++) {
        ring->fault = fault;
        atomic_store(&ring->slots[place].sequence, place);
    }
    return ring;
}

static bool claim(enum fault fault, atomic_size_t *counter, size_t position)
{
    if (fault != PLAIN_CLAIM) {
        return atomic_compare_exchange_strong(counter, &position, position + 1);
    }
    bool is_same = atomic_load(counter) == position;
    if (is_same) {
        atomic_store(counter, position + 1);
    }
    return is_same;
}

static bool ring_enqueue(void *argument, uint64_t value)
{
    struct ring *ring = argument;
    for (;;) {
        size_t position = atomic_load(&ring->tail);
        struct slot *slot = &ring->slots[position % SLOTS];
        size_t sequence = atomic_load_explicit(&slot->sequence, memory_order_acquire);
        if (sequence == position && claim(ring->fault, &ring->tail, position)) {
            if (ring->fault == SEQUENCE_FIRST) {
                atomic_store_explicit(&slot->sequence, position + 1, memory_order_release);
                slot->value = value;
            } else {
                slot->value = value;
                atomic_store_explicit(&slot->sequence, position + 1, memory_order_release);
            }
            return true;
        }
        if (sequence < position) {
            return false;
        }
    }
}

static bool ring_dequeue(void *argument, uint64_t *value)
{
    struct ring *ring = argument;
    for (;;) {
        size_t position = atomic_load(&ring->head);
        struct slot *slot = &ring->slots[position % SLOTS];
        size_t sequence = atomic_load_explicit(&slot->sequence, memory_order_acquire);
        if (sequence == position + 1 && claim(ring->fault, &ring->head, position)) {
            if (ring->fault == FREED_EARLY) {
                atomic_store_explicit(&slot->sequence, position + SLOTS, memory_order_release);
            }
            *value = slot->value;
            atomic_store_explicit(&slot->sequence, position + SLOTS, memory_order_release);
            return true;
        }
        if (sequence <= position) {
            if (ring->fault == EARLY_EMPTY || atomic_load(&ring->tail) == position) {
                return false;
            }
            sched_yield();
        }
    }
}

// The list of Michael and Scott (1996) over nodes that are used again. A link is a node and, above it, a tag.
struct node {
    atomic_uint_fast64_t value;
    atomic_uint_fast64_t next;
    atomic_uint below; // in the stack of free nodes
};

struct list {
    enum fault fault;
    atomic_uint_fast64_t head, tail, top;
    struct node nodes[NODES];
};

static uint32_t node_of(uint64_t link)
{
    return (uint32_t)link;
}

static uint64_t changed(enum fault fault, uint64_t old, uint32_t node)
{
    return (fault == NO_TAGS ? 0 : ((old >> 32) + 1) << 32) | node;
}

static uint32_t take_node(struct list *list)
{
    uint64_t top = atomic_load(&list->top);
    while (node_of(top) != NO_NODE &&
           !atomic_compare_exchange_strong(
               &list->top, &top, changed(NONE, top, atomic_load(&list->nodes[node_of(top)].below)))) {
    }
    return node_of(top);
}

static void give_node(struct list *list, uint32_t node)
{
    uint64_t top = atomic_load(&list->top);
    do {
        atomic_store(&list->nodes[node].below, node_of(top));
    } while (!atomic_compare_exchange_strong(&list->top, &top, changed(NONE, top, node)));
}

static void *make_list(enum fault fault)
{
    struct list *list = calloc(1, sizeof *list);
    if (list == NULL) {
        return NULL;
    }
    list->fault = fault;
    atomic_store(&list->top, NO_NODE);
    for (uint32_t node = 0; node < NODES; node++) {
        atomic_store(&list->nodes[node].next, NO_NODE);
        give_node(list, node);
    }
    uint32_t first = take_node(list);
    atomic_store(&list->head, first);
    atomic_store(&list->tail, first);
    return list;
}

static bool link_node(struct list *list, uint32_t last, uint64_t next, uint32_t node)
{
    uint64_t fresh = changed(list->fault, next, node);
    if (list->fault != PLAIN_LINK) {
        return atomic_compare_exchange_strong(&list->nodes[last].next, &next, fresh);
    }
    atomic_store(&list->nodes[last].next, fresh);
    return true;
}

static bool move_head(struct list *list, uint64_t head, uint32_t node)
{
    uint64_t fresh = changed(list->fault, head, node);
    if (list->fault != HEAD_STORE) {
        return atomic_compare_exchange_strong(&list->head, &head, fresh);
    }
    bool is_same = atomic_load(&list->head) == head;
    if (is_same) {
        atomic_store(&list->head, fresh);
    }
    return is_same;
}

static bool list_enqueue(void *argument, uint64_t value)
{
    struct list *list = argument;
    uint32_t node = take_node(list);
    if (node == NO_NODE) {
        return false;
    }
    atomic_store_explicit(&list->nodes[node].value, value, memory_order_relaxed);
    atomic_store(&list->nodes[node].next, changed(list->fault, atomic_load(&list->nodes[node].next), NO_NODE));
    for (;;) {
        uint64_t tail = atomic_load(&list->tail);
        uint64_t next = atomic_load(&list->nodes[node_of(tail)].next);
        if (tail != atomic_load(&list->tail)) {
            continue;
        }
        if (node_of(next) != NO_NODE) {
            atomic_compare_exchange_strong(&list->tail, &tail, changed(list->fault, tail, node_of(next)));
        } else if (link_node(list, node_of(tail), next, node)) {
            atomic_compare_exchange_strong(&list->tail, &tail, changed(list->fault, tail, node));
            return true;
        }
    }
}

static bool list_dequeue(void *argument, uint64_t *value)
{
    struct list *list = argument;
    for (;;) {
        uint64_t head = atomic_load(&list->head);
        uint64_t tail = atomic_load(&list->tail);
        uint64_t next = atomic_load(&list->nodes[node_of(head)].next);
        if (head != atomic_load(&list->head)) {
            continue;
        }
        if (node_of(next) == NO_NODE) {
            return false;
        }
        if (node_of(head) == node_of(tail)) {
            atomic_compare_exchange_strong(&list->tail, &tail, changed(list->fault, tail, node_of(next)));
            continue;
        }
        struct node *first = &list->nodes[node_of(next)];
        *value = atomic_load_explicit(&first->value, memory_order_relaxed);
        if (move_head(list, head, node_of(next))) {
            give_node(list, node_of(head));
            if (list->fault == VALUE_LATE) {
                *value = atomic_load_explicit(&first->value, memory_order_relaxed);
            }
            return true;
        }
    }
}

// An array under locks: with a counter beside it; with a dequeue that waits, and is woken always or only where the array
// was empty; with a lock as that of Dekker, with or without a fence; with two locks, taken in one order or in two.
struct locked {
    enum fault fault;
    pthread_mutex_t lock, other;
    pthread_cond_t has_value;
    sem_t values_in;
    atomic_long size;
    atomic_int flags[MOST_THREADS];
    size_t first, count;
    uint64_t values[8192];
};

static void *make_locked(enum fault fault)
{
    struct locked *locked = calloc(1, sizeof *locked);
    if (locked != NULL) {
        locked->fault = fault;
        pthread_mutex_init(&locked->lock, NULL);
        pthread_mutex_init(&locked->other, NULL);
        pthread_cond_init(&locked->has_value, NULL);
        sem_init(&locked->values_in, 0, 0);
    }
    return locked;
}

static void put(struct locked *locked, uint64_t value)
{
    locked->values[(locked->first + locked->count++) % 8192] = value;
}

static bool take(struct locked *locked, uint64_t *value)
{
    if (locked->count == 0) {
        return false;
    }
    *value = locked->values[locked->first++ % 8192];
    locked->count--;
    return true;
}

static bool counted_enqueue(void *argument, uint64_t value)
{
    struct locked *locked = argument;
    pthread_mutex_lock(&locked->lock);
    put(locked, value);
    pthread_mutex_unlock(&locked->lock);
    atomic_fetch_add(&locked->size, 1);
    return true;
}

static bool counted_dequeue(void *argument, uint64_t *value)
{
    struct locked *locked = argument;
    if (atomic_load(&locked->size) <= 0) {
        return false;
    }
    pthread_mutex_lock(&locked->lock);
    bool is_found = take(locked, value);
    pthread_mutex_unlock(&locked->lock);
    atomic_fetch_sub(&locked->size, is_found);
    return is_found;
}

static bool blocking_enqueue(void *argument, uint64_t value)
{
    struct locked *locked = argument;
    pthread_mutex_lock(&locked->lock);
    put(locked, value);
    if (locked->fault != SOME_WAKE_UPS || locked->count == 1) {
        pthread_cond_signal(&locked->has_value);
    }
    pthread_mutex_unlock(&locked->lock);
    return true;
}

static bool blocking_dequeue(void *argument, uint64_t *value)
{
    struct locked *locked = argument;
    pthread_mutex_lock(&locked->lock);
    while (!take(locked, value)) {
        pthread_cond_wait(&locked->has_value, &locked->lock);
    }
    pthread_mutex_unlock(&locked->lock);
    return true;
}

// Counts its values by a semaphore; a dequeue waits for one.
static bool semaphore_enqueue(void *argument, uint64_t value)
{
    struct locked *locked = argument;
    pthread_mutex_lock(&locked->lock);
    put(locked, value);
    pthread_mutex_unlock(&locked->lock);
    return sem_post(&locked->values_in) == 0;
}

static bool semaphore_dequeue(void *argument, uint64_t *value)
{
    struct locked *locked = argument;
    while (sem_wait(&locked->values_in) != 0) {
    }
    pthread_mutex_lock(&locked->lock);
    bool is_found = take(locked, value);
    pthread_mutex_unlock(&locked->lock);
    return is_found;
}

static bool crossed_enqueue(void *argument, uint64_t value)
{
    struct locked *locked = argument;
    pthread_mutex_lock(&locked->lock);
    pthread_mutex_lock(&locked->other);
    put(locked, value);
    pthread_mutex_unlock(&locked->other);
    pthread_mutex_unlock(&locked->lock);
    return true;
}

static bool crossed_dequeue(void *argument, uint64_t *value)
{
    struct locked *locked = argument;
    pthread_mutex_t *first = locked->fault == CROSSED ? &locked->other : &locked->lock;
    pthread_mutex_t *second = locked->fault == CROSSED ? &locked->lock : &locked->other;
    pthread_mutex_lock(first);
    pthread_mutex_lock(second);
    bool is_found = take(locked, value);
    pthread_mutex_unlock(second);
    pthread_mutex_unlock(first);
    return is_found;
}

static _Thread_local unsigned own;

static void enter_flags(void *queue, unsigned thread)
{
    (void)queue;
    own = thread;
}

static bool is_alone(struct locked *locked)
{
    for (unsigned thread = 0; thread < MOST_THREADS; thread++) {
        if (thread != own && atomic_load_explicit(&locked->flags[thread], memory_order_acquire) != 0) {
            return false;
        }
    }
    return true;
}

static void raise_flag(struct locked *locked)
{
    for (;;) {
        if (locked->fault == NO_FENCE) {
            atomic_store_explicit(&locked->flags[own], 1, memory_order_release);
        } else {
            atomic_store(&locked->flags[own], 1);
        }
        if (is_alone(locked)) {
            return;
        }
        atomic_store_explicit(&locked->flags[own], 0, memory_order_release);
        sched_yield();
    }
}

static bool flags_enqueue(void *argument, uint64_t value)
{
    struct locked *locked = argument;
    raise_flag(locked);
    put(locked, value);
    atomic_store_explicit(&locked->flags[own], 0, memory_order_release);
    return true;
}

static bool flags_dequeue(void *argument, uint64_t *value)
{
    struct locked *locked = argument;
    raise_flag(locked);
    bool is_found = take(locked, value);
    atomic_store_explicit(&locked->flags[own], 0, memory_order_release);
    return is_found;
}

struct kind {
    const char *name;
    void *(*make)(enum fault fault);
    bool (*enqueue)(void *queue, uint64_t value);
    bool (*dequeue)(void *queue, uint64_t *value);
    enum fault fault;
    bool waits;
    const char *what; // its fault, or "right"
};

static const struct kind kinds[] = {
    {"ring", make_ring, ring_enqueue, ring_dequeue, NONE, false, "right"},
    {"ms", make_list, list_enqueue, list_dequeue, NONE, false, "right"},
    {"blocking", make_locked, blocking_enqueue, blocking_dequeue, NONE, true, "right"},
    {"semaphore", make_locked, semaphore_enqueue, semaphore_dequeue, NONE, true, "right"},
    {"two-locks", make_locked, crossed_enqueue, crossed_dequeue, NONE, false, "right"},
    {"flags", make_locked, flags_enqueue, flags_dequeue, NONE, false, "right"},
    {"ring-sequence-first", make_ring, ring_enqueue, ring_dequeue, SEQUENCE_FIRST, false,
     "sequence set before the value"},
    {"ring-freed-early", make_ring, ring_enqueue, ring_dequeue, FREED_EARLY, false,
     "slot freed before its value is read"},
    {"ring-plain-claim", make_ring, ring_enqueue, ring_dequeue, PLAIN_CLAIM, false, "claims that aren't atomic"},
    {"ring-early-empty", make_ring, ring_enqueue, ring_dequeue, EARLY_EMPTY, false,
     "empty while an enqueue is pending"},
    {"ms-plain-link", make_list, list_enqueue, list_dequeue, PLAIN_LINK, false, "next stored without compare-and-swap"},
    {"ms-head-store", make_list, list_enqueue, list_dequeue, HEAD_STORE, false, "head stored after a look"},
    {"ms-aba", make_list, list_enqueue, list_dequeue, NO_TAGS, false, "ABA over a list of free nodes"},
    {"ms-value-late", make_list, list_enqueue, list_dequeue, VALUE_LATE, false,
     "value read after its node may be free"},
    {"counted", make_locked, counted_enqueue, counted_dequeue, NONE, false, "a counter beside the list"},
    {"lost-wake-up", make_locked, blocking_enqueue, blocking_dequeue, SOME_WAKE_UPS, true,
     "a lost wake-up: a deadlock"},
    {"crossed-locks", make_locked, crossed_enqueue, crossed_dequeue, CROSSED, false,
     "two locks in two orders: a deadlock"},
    {"flags-no-fence", make_locked, flags_enqueue, flags_dequeue, NO_FENCE, false, "Dekker's lock without a fence"},
};

enum { KINDS = sizeof kinds / sizeof *kinds };

static void *make(void *kind)
{
    return ((const struct kind *)kind)->make(((const struct kind *)kind)->fault);
}

// False, and said: the option or its word is none.
static bool set(struct recorder_settings *settings, const char *option, const char *word)
{
    uint64_t number = word != NULL ? strtoull(word, NULL, 10) : 0;
    if (strcmp(option, "--folder") == 0 && word != NULL) {
        settings->folder = word;
    } else if (word == NULL || strspn(word, "0123456789") != strlen(word)) {
        fprintf(stderr, "queues: no number behind %s\n", option);
        return false;
    } else if (strcmp(option, "--runs") == 0) {
        settings->runs = (unsigned)number;
    } else if (strcmp(option, "--threads") == 0) {
        settings->threads = (unsigned)number;
    } else if (strcmp(option, "--ops") == 0) {
        settings->operations = number;
    } else if (strcmp(option, "--seed") == 0) {
        settings->seed = number;
    } else if (strcmp(option, "--timeout") == 0) {
        settings->timeout = (unsigned)number;
    } else {
        fprintf(stderr, "queues: no option '%s'\n", option);
        return false;
    }
    return true;
}

int main(int count, char **words)
{
    size_t place = 0;
    if (count < 2) {
        for (; place < KINDS; place++) {
            printf("%s: %s\n", kinds[place].name, kinds[place].what);
        }
        return 0;
    }
    while (place < KINDS && strcmp(words[1], kinds[place].name) != 0) {
        place++;
    }
    if (place == KINDS) {
        fprintf(stderr, "queues: no queue '%s': queues without an argument lists them\n", words[1]);
        return 2;
    }
    struct kind kind = kinds[place];
    struct recorder_settings settings = recorder_defaults();
    settings.pattern = kind.waits ? RECORDER_ROLES : RECORDER_BY_SEED;
    settings.drain = !kind.waits;
    for (int at = 2; at < count; at += 2) {
        if (!set(&settings, words[at], words[at + 1])) {
            return 2;
        }
    }
    struct recorder_queue mine = {.make = make, .enqueue = kind.enqueue, .dequeue = kind.dequeue, .destroy = free,
                                  .enter = enter_flags, .context = &kind};
    return recorder_search(&settings, &mine);
}
