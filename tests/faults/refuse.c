// Makes one allocation, write, read or start of a thread fail that a program asks the C library for, or all from one on.
// A write to standard error is of a kind of its own, message.
//
// A program is run with this library in LD_PRELOAD and these variables in its environment:
//   REFUSE_KIND   growth, write, message, read or thread
//   REFUSE_AT     which call of that kind is refused first, from 1; 0 refuses none
//   REFUSE_REST   1: all later ones are refused too
//   REFUSE_AS     of a write or a read: full (ENOSPC), broken (EIO), interrupted (EINTR), or nothing (a write that takes nothing)
//   REFUSE_TOLD   a file in which the counts are left, as two numbers of 64 bits: calls of the kind, and writes after a refused one
// Only calls of the program's own code count, and not those of its libraries.
#define _GNU_SOURCE
#include <dlfcn.h>
#include <errno.h>
#include <fcntl.h>
#include <link.h>
#include <pthread.h>
#include <stdatomic.h>
#include <stdint.h>
#include <stdlib.h>
#include <string.h>
#include <sys/mman.h>
#include <sys/syscall.h>
#include <unistd.h>

extern void *__libc_malloc(size_t size);
extern void *__libc_realloc(void *block, size_t size);

enum kind { NONE, GROWTH, WRITE, MESSAGE, READ, THREAD };

struct counts {
    _Atomic uint64_t calls;
    _Atomic uint64_t writes_after;
};

static struct counts unseen;
static struct counts *counts = &unseen;
static enum kind refused_kind = NONE;
static uint64_t refused_from;
static int refuses_rest;
static int refused_as;
static atomic_int was_refused;
static uintptr_t program_start, program_end;

// The program comes first among the loaded objects.
static int note_program(struct dl_phdr_info *info, size_t size, void *data)
{
    (void)size;
    (void)data;
    for (int i = 0; i < info->dlpi_phnum; i++) {
        const ElfW(Phdr) *part = &info->dlpi_phdr[i];
        if (part->p_type != PT_LOAD)
            continue;
        uintptr_t start = info->dlpi_addr + part->p_vaddr;
        if (!program_start || start < program_start)
            program_start = start;
        if (start + part->p_memsz > program_end)
            program_end = start + part->p_memsz;
    }
    return 1;
}

static enum kind kind_named(const char *name)
{
    if (!name)
        return NONE;
    if (!strcmp(name, "growth"))
        return GROWTH;
    if (!strcmp(name, "write"))
        return WRITE;
    if (!strcmp(name, "message"))
        return MESSAGE;
    if (!strcmp(name, "read"))
        return READ;
    if (!strcmp(name, "thread"))
        return THREAD;
    return NONE;
}

static int error_named(const char *name)
{
    if (!name || !strcmp(name, "full"))
        return ENOSPC;
    if (!strcmp(name, "broken"))
        return EIO;
    if (!strcmp(name, "interrupted"))
        return EINTR;
    return 0;
}

__attribute__((constructor)) static void begin(void)
{
    const char *told = getenv("REFUSE_TOLD");
    const char *at = getenv("REFUSE_AT");
    const char *rest = getenv("REFUSE_REST");
    dl_iterate_phdr(note_program, NULL);
    if (told) {
        int file = open(told, O_RDWR | O_CREAT, 0600);
        if (file >= 0 && !ftruncate(file, sizeof *counts)) {
            void *page = mmap(NULL, sizeof *counts, PROT_READ | PROT_WRITE, MAP_SHARED, file, 0);
            if (page != MAP_FAILED)
                counts = page;
        }
        if (file >= 0)
            close(file);
    }
    refused_from = at ? strtoull(at, NULL, 10) : 0;
    refuses_rest = rest && !strcmp(rest, "1");
    refused_as = error_named(getenv("REFUSE_AS"));
    refused_kind = kind_named(getenv("REFUSE_KIND"));
}

static int is_refused(enum kind kind, void *caller)
{
    uintptr_t from = (uintptr_t)caller;
    if (kind != refused_kind || from < program_start || from >= program_end)
        return 0;
    uint64_t call = atomic_fetch_add(&counts->calls, 1) + 1;
    return refused_from && (call == refused_from || (refuses_rest && call > refused_from));
}

void *malloc(size_t size)
{
    if (is_refused(GROWTH, __builtin_return_address(0))) {
        errno = ENOMEM;
        return NULL;
    }
    return __libc_malloc(size);
}

void *realloc(void *block, size_t size)
{
    if (is_refused(GROWTH, __builtin_return_address(0))) {
        errno = ENOMEM;
        return NULL;
    }
    return __libc_realloc(block, size);
}

static ssize_t write_or_refuse(int file, const void *bytes, size_t count, void *caller)
{
    enum kind kind = file == STDERR_FILENO ? MESSAGE : WRITE;
    if (kind == refused_kind && atomic_load(&was_refused))
        atomic_fetch_add(&counts->writes_after, 1);
    if (is_refused(kind, caller)) {
        atomic_store(&was_refused, 1);
        errno = refused_as;
        return refused_as ? -1 : 0;
    }
    return syscall(SYS_write, file, bytes, count);
}

ssize_t write(int file, const void *bytes, size_t count)
{
    return write_or_refuse(file, bytes, count, __builtin_return_address(0));
}

ssize_t __write(int file, const void *bytes, size_t count)
{
    return write_or_refuse(file, bytes, count, __builtin_return_address(0));
}

ssize_t read(int file, void *bytes, size_t count)
{
    if (is_refused(READ, __builtin_return_address(0))) {
        errno = refused_as ? refused_as : EIO;
        return -1;
    }
    return syscall(SYS_read, file, bytes, count);
}

int pthread_create(pthread_t *thread, const pthread_attr_t *how, void *(*body)(void *), void *given)
{
    static int (*next)(pthread_t *, const pthread_attr_t *, void *(*)(void *), void *);
    if (!next)
        next = (int (*)(pthread_t *, const pthread_attr_t *, void *(*)(void *), void *))dlsym(RTLD_NEXT, "pthread_create");
    if (is_refused(THREAD, __builtin_return_address(0)))
        return EAGAIN;
    return next(thread, how, body, given);
}
