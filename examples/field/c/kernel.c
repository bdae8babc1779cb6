// Queues of the Linux kernel: a pipe, a POSIX message queue, a pair of sockets. A value is a message of 8 bytes.
#include "field.h"

#include <fcntl.h>
#include <mqueue.h>
#include <sys/socket.h>
#include <unistd.h>

struct ends {
    int to;
    int from;
};

static void *make_pipe(void *unused)
{
    (void)unused;
    int ends[2];
    struct ends *made = calloc(1, sizeof *made);
    if (made == NULL || pipe(ends) != 0) {
        return NULL;
    }
    fcntl(ends[0], F_SETFL, O_NONBLOCK);
    fcntl(ends[1], F_SETFL, O_NONBLOCK);
    *made = (struct ends){.to = ends[1], .from = ends[0]};
    return made;
}

static void *make_sockets(void *unused)
{
    (void)unused;
    int ends[2];
    struct ends *made = calloc(1, sizeof *made);
    if (made == NULL || socketpair(AF_UNIX, SOCK_DGRAM | SOCK_NONBLOCK, 0, ends) != 0) {
        return NULL;
    }
    *made = (struct ends){.to = ends[0], .from = ends[1]};
    return made;
}

static void *make_messages(void *unused)
{
    (void)unused;
    char name[64];
    snprintf(name, sizeof name, "/fifobench-field-%ld", (long)getpid());
    struct mq_attr attributes = {.mq_maxmsg = (long)field_size, .mq_msgsize = sizeof(uint64_t)};
    struct ends *made = calloc(1, sizeof *made);
    if (made == NULL) {
        return NULL;
    }
    made->to = made->from = mq_open(name, O_CREAT | O_EXCL | O_RDWR | O_NONBLOCK, 0600, &attributes);
    mq_unlink(name);
    return made->to < 0 ? NULL : made;
}

static void destroy(void *queue)
{
    struct ends *ends = queue;
    close(ends->to);
    if (ends->from != ends->to) {
        close(ends->from);
    }
    free(ends);
}

// EAGAIN: full.
static bool enqueue(void *queue, uint64_t value)
{
    return write(((struct ends *)queue)->to, &value, sizeof value) == sizeof value;
}

// EAGAIN: empty.
static bool dequeue(void *queue, uint64_t *value)
{
    return read(((struct ends *)queue)->from, value, sizeof *value) == sizeof *value;
}

static bool enqueue_message(void *queue, uint64_t value)
{
    return mq_send(((struct ends *)queue)->to, (const char *)&value, sizeof value, 0) == 0;
}

static bool dequeue_message(void *queue, uint64_t *value)
{
    return mq_receive(((struct ends *)queue)->from, (char *)value, sizeof *value, NULL) == sizeof *value;
}

int main(int count, char **words)
{
    static const struct field_queue queues[] = {
        {"kernel-pipe", {.make = make_pipe, .enqueue = enqueue, .dequeue = dequeue, .destroy = destroy}},
        {"kernel-sockets", {.make = make_sockets, .enqueue = enqueue, .dequeue = dequeue, .destroy = destroy}},
        {"kernel-messages",
         {.make = make_messages, .enqueue = enqueue_message, .dequeue = dequeue_message, .destroy = destroy}},
    };
    return field_run(count, words, queues, sizeof queues / sizeof queues[0]);
}
