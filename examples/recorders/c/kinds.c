// Queues of several kinds, as they are, and how the recorder calls each.
//
//     kinds [KIND [RUNS]]      searches all, or one of sentinel, spsc, blocking, bounded, registered, pointers
//
// The status is 0 if no queue shows a violation.
#include "recorder.h"

enum { ROOM = 4096 };

// A ring under a lock, which the kinds below call in their own way.
struct ring {
    pthread_mutex_t lock;
    pthread_cond_t has_value;
    void *values[ROOM];
    size_t room;
    size_t first;
    size_t count;
    atomic_int registered;
};

static bool put(struct ring *ring, void *value)
{
    pthread_mutex_lock(&ring->lock);
    bool taken = ring->count < ring->room;
    if (taken) {
        ring->values[(ring->first + ring->count++) % ROOM] = value;
        pthread_cond_signal(&ring->has_value);
    }
    pthread_mutex_unlock(&ring->lock);
    return taken;
}

static bool take(struct ring *ring, void **value, bool waits)
{
    pthread_mutex_lock(&ring->lock);
    while (waits && ring->count == 0) {
        pthread_cond_wait(&ring->has_value, &ring->lock);
    }
    bool found = ring->count > 0;
    if (found) {
        *value = ring->values[ring->first++ % ROOM];
        ring->count--;
    }
    pthread_mutex_unlock(&ring->lock);
    return found;
}

static void *ring_of(size_t room)
{
    struct ring *ring = calloc(1, sizeof *ring);
    if (ring != NULL) {
        pthread_mutex_init(&ring->lock, NULL);
        pthread_cond_init(&ring->has_value, NULL);
        ring->room = room;
    }
    return ring;
}

static void *make(void *unused)
{
    (void)unused;
    return ring_of(ROOM);
}

static void destroy(void *queue)
{
    struct ring *ring = queue;
    pthread_mutex_destroy(&ring->lock);
    pthread_cond_destroy(&ring->has_value);
    free(ring);
}

static bool enqueue(void *queue, uint64_t value)
{
    return put(queue, (void *)(uintptr_t)value);
}

static bool dequeue(void *queue, uint64_t *value)
{
    void *found = NULL;
    bool is_found = take(queue, &found, false);
    *value = (uintptr_t)found;
    return is_found;
}

// A queue of int whose dequeue answers -1 if it is empty: values that fit, and none is negative.
static int sentinel_pop(struct ring *ring)
{
    void *found = NULL;
    return take(ring, &found, false) ? (int)(intptr_t)found : -1;
}

static bool sentinel_dequeue(void *queue, uint64_t *value)
{
    int found = sentinel_pop(queue);
    *value = (uint64_t)found;
    return found != -1;
}

static uint64_t small_value(unsigned thread, uint64_t n)
{
    return 65 * n + thread; // the thread 64 is that of the initial values
}

static int sentinel(struct recorder_settings settings)
{
    settings.value = small_value;
    settings.initial = 3;
    return recorder_search(&settings, &(struct recorder_queue){
        .make = make, .enqueue = enqueue, .dequeue = sentinel_dequeue, .destroy = destroy});
}

// One producer and one consumer, without a lock, and room for 64 values.
struct spsc {
    uint64_t values[64];
    atomic_size_t first;
    atomic_size_t last;
};

static void *spsc_make(void *unused)
{
    (void)unused;
    return calloc(1, sizeof(struct spsc));
}

static bool spsc_enqueue(void *queue, uint64_t value)
{
    struct spsc *ring = queue;
    size_t last = atomic_load_explicit(&ring->last, memory_order_relaxed);
    if (last - atomic_load_explicit(&ring->first, memory_order_acquire) == 64) {
        return false;
    }
    ring->values[last % 64] = value;
    atomic_store_explicit(&ring->last, last + 1, memory_order_release);
    return true;
}

static bool spsc_dequeue(void *queue, uint64_t *value)
{
    struct spsc *ring = queue;
    size_t first = atomic_load_explicit(&ring->first, memory_order_relaxed);
    if (first == atomic_load_explicit(&ring->last, memory_order_acquire)) {
        return false;
    }
    *value = ring->values[first % 64];
    atomic_store_explicit(&ring->first, first + 1, memory_order_release);
    return true;
}

// Thread 0 produces and thread 1 consumes. Thread 0 drains once thread 1 has ended: one consumer at a time.
static int spsc(struct recorder_settings settings)
{
    settings.threads = 2;
    settings.producers = 1;
    return recorder_search(&settings, &(struct recorder_queue){
        .make = spsc_make, .enqueue = spsc_enqueue, .dequeue = spsc_dequeue, .destroy = free});
}

// A dequeue waits until there is a value.
static bool blocking_dequeue(void *queue, uint64_t *value)
{
    void *found = NULL;
    take(queue, &found, true);
    *value = (uintptr_t)found;
    return true;
}

// As many producers as consumers make as many operations, so each dequeue has its value; a drain would wait for ever.
static int blocking(struct recorder_settings settings)
{
    settings.pattern = RECORDER_ROLES;
    settings.drain = false;
    return recorder_search(&settings, &(struct recorder_queue){
        .make = make, .enqueue = enqueue, .dequeue = blocking_dequeue, .destroy = destroy});
}

// Room for two values: more are refused.
static void *bounded_make(void *unused)
{
    (void)unused;
    return ring_of(2);
}

static int bounded(struct recorder_settings settings)
{
    return recorder_search(&settings, &(struct recorder_queue){
        .make = bounded_make, .enqueue = enqueue, .dequeue = dequeue, .destroy = destroy});
}

// Each thread registers before its first call, and takes itself off after its last, as with hazard pointers.
static void enter(void *queue, unsigned thread)
{
    (void)thread;
    atomic_fetch_add(&((struct ring *)queue)->registered, 1);
}

static void leave(void *queue, unsigned thread)
{
    (void)thread;
    atomic_fetch_sub(&((struct ring *)queue)->registered, 1);
}

static void registered_destroy(void *queue)
{
    if (atomic_load(&((struct ring *)queue)->registered) != 0) {
        fputs("kinds: a thread hasn't taken itself off\n", stderr);
        abort();
    }
    destroy(queue);
}

static int registered(struct recorder_settings settings)
{
    settings.initial = 2;
    return recorder_search(&settings, &(struct recorder_queue){
        .make = make, .enqueue = enqueue, .dequeue = dequeue, .destroy = registered_destroy,
        .enter = enter, .leave = leave});
}

// The queue holds pointers, NULL means empty. The value of an object is its place in a table of one for each call.
static struct object {
    uint64_t value;
} objects[ROOM];

static uint64_t place_value(unsigned thread, uint64_t n)
{
    return 4 * n + thread; // of four threads
}

static bool pointers_enqueue(void *queue, uint64_t value)
{
    objects[value].value = value;
    return put(queue, &objects[value]);
}

static bool pointers_dequeue(void *queue, uint64_t *value)
{
    void *found = NULL;
    take(queue, &found, false);
    *value = found != NULL ? ((struct object *)found)->value : 0;
    return found != NULL;
}

static int pointers(struct recorder_settings settings)
{
    settings.value = place_value;
    return recorder_search(&settings, &(struct recorder_queue){
        .make = make, .enqueue = pointers_enqueue, .dequeue = pointers_dequeue, .destroy = destroy});
}

int main(int count, char **words)
{
    static const char *const names[] = {"sentinel", "spsc", "blocking", "bounded", "registered", "pointers"};
    static int (*const searches[])(struct recorder_settings) = {sentinel, spsc, blocking, bounded, registered, pointers};
    struct recorder_settings settings = recorder_defaults();
    int status = 0;
    bool is_known = false;
    if (count > 2) {
        settings.runs = (unsigned)strtoul(words[2], NULL, 10);
    }
    for (int place = 0; place < 6; place++) {
        if (count < 2 || strcmp(words[1], "all") == 0 || strcmp(words[1], names[place]) == 0) {
            printf("%s: ", names[place]);
            fflush(stdout);
            int answer = searches[place](settings);
            status = answer > status ? answer : status;
            is_known = true;
        }
    }
    return is_known ? status : 2;
}
