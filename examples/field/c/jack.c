// JACK's ring of bytes, for one writer and one reader. A value is 8 bytes, which are written and read at once. The
// writer drains the ring once the reader has ended.
#include "field.h"

#include <jack/ringbuffer.h>

static void *make(void *unused)
{
    (void)unused;
    return jack_ringbuffer_create(field_size * sizeof(uint64_t));
}

static void destroy(void *ring)
{
    jack_ringbuffer_free(ring);
}

static bool enqueue(void *ring, uint64_t value)
{
    return jack_ringbuffer_write_space(ring) >= sizeof value &&
           jack_ringbuffer_write(ring, (const char *)&value, sizeof value) == sizeof value;
}

static bool dequeue(void *ring, uint64_t *value)
{
    return jack_ringbuffer_read_space(ring) >= sizeof *value &&
           jack_ringbuffer_read(ring, (char *)value, sizeof *value) == sizeof *value;
}

int main(int count, char **words)
{
    static const struct field_queue queues[] = {
        {"jack-ringbuffer", {.make = make, .enqueue = enqueue, .dequeue = dequeue, .destroy = destroy}},
    };
    return field_run(count, words, queues, sizeof queues / sizeof queues[0]);
}
