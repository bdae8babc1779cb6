// What the C programs of this folder share: a search over one of their queues.
//
//     PROGRAM QUEUE SIZE THREADS PRODUCERS OPERATIONS RUNS INITIAL DRAIN FOLDER
//
// SIZE is the capacity of a bounded queue. The others are settings of the recorder; DRAIN is 0 or 1.
#ifndef FIFOBENCH_FIELD_H
#define FIFOBENCH_FIELD_H

#include "../../recorders/c/recorder.h"

struct field_queue {
    const char *name;
    struct recorder_queue calls;
};

// The capacity of a bounded queue.
static size_t field_size;

// The status of the search; 2 if the arguments are wrong. Values are 1 and more: for some queues 0 is "nothing".
static int field_run(int count, char **words, const struct field_queue *queues, size_t number)
{
    unsigned numbers[10] = {0};
    for (int place = 2; place < 9 && place < count; place++) {
        numbers[place] = (unsigned)strtoul(words[place], NULL, 10);
    }
    struct recorder_settings settings = recorder_defaults();
    field_size = numbers[2];
    settings.threads = numbers[3];
    settings.producers = numbers[4];
    settings.operations = numbers[5];
    settings.runs = numbers[6];
    settings.initial = numbers[7];
    settings.drain = numbers[8] == 1;
    settings.first = 1;
    settings.keep = true;
    for (size_t place = 0; count > 9 && place < number; place++) {
        if (strcmp(words[1], queues[place].name) == 0) {
            settings.folder = words[9];
            return recorder_search(&settings, &queues[place].calls);
        }
    }
    fprintf(stderr, "%s: no such queue, or fewer than nine arguments\n", words[0]);
    return 2;
}

#endif
