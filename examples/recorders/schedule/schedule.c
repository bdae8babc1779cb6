// The scheduler behind schedule.h, one C11 file to compile with its parts beside it:
//
//     tape.h       what a run leaves: its events and its switches
//     seats.h      the threads of a run and its state
//     strategies.h who goes on: naps, walk and PCT
//     turns.h      points and turns, and the functions that a recorder calls
//     buffers.h    stores that wait (store buffers)
//     points.h     the functions that code compiled with -fsanitize=thread calls
//     wide.h       the same for objects of 16 bytes, and functions of libatomic
//     blocking.h   locks, conditions, semaphores, futexes, sleeping: whatever blocks gives way
//     runs.h       runs in child processes, and what `check` says of them
//     trace.h      places in the source, and the sentences of a trace
//     shorten.h    leaves out the switches that a violation doesn't need
//     search.h     the runs of a search, and what it prints
//
// Compile it without -fsanitize=thread. The program must not be linked statically, since the functions of blocking.h
// stand in front of those of the C library.
//
// One thread runs at a time, and all are kept on one core, so that a switch wakes no other core. Which thread goes on
// is drawn from the seed by splitmix64. Nothing depends on the clock or on an address, but that accesses of a
// thread's own stack are no points. Since a queue may depend on addresses, the program begins once more with those that
// are the same in each process (personality), where the system allows it.
//
// Store buffers. In some of the runs an atomic store that isn't sequentially consistent may wait in its thread's
// list. The thread's own loads look there first. Stores leave the list in order: some points later, or before the
// thread's next read-modify-write, sequentially consistent fence or store, lock operation, or end of the operation.
// All stores of a run that are seen late are seen in one order by all threads. These are the executions of total
// store order, as x86 has it: each is allowed by C11 if the queue's plain accesses have no data race. Not covered:
// loads that are made late, stores of one thread that are seen in another order, stores that are seen by one thread
// before another, read-modify-writes that are delayed, and stores that wait beyond the end of their operation.
#define _GNU_SOURCE
#define FIFOBENCH_SCHEDULE_SOURCE
#include "schedule.h"

#if FIFOBENCH_HAS_POINTS
#error "schedule.c is compiled without -fsanitize=thread"
#endif

#include <dlfcn.h>
#include <errno.h>
#include <fcntl.h>
#include <inttypes.h>
#include <limits.h>
#include <link.h>
#include <linux/futex.h>
#include <pthread.h>
#include <sched.h>
#include <semaphore.h>
#include <signal.h>
#include <stdarg.h>
#include <stdatomic.h>
#include <stdbool.h>
#include <stdio.h>
#include <stdlib.h>
#include <string.h>
#include <sys/mman.h>
#include <sys/personality.h>
#include <sys/stat.h>
#include <sys/syscall.h>
#include <sys/wait.h>
#include <threads.h>
#include <time.h>
#include <unistd.h>

#define FROM ((uintptr_t)__builtin_return_address(0))

#include "tape.h"
#include "seats.h"
#include "strategies.h"
#include "turns.h"
#include "buffers.h"
#include "points.h"
#include "wide.h"
#include "blocking.h"
#include "runs.h"
#include "trace.h"
#include "shorten.h"
#include "search.h"
