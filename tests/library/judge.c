/* Calls the library on files, for tests/library/compare. The words are
 *
 *     judge make SEED COUNT FOLDER       writes this many texts, and large.text
 *     judge answers COMMAND FILE ..      prints of each file its name, the status and the answer
 *     judge events FILE ..               judges each file that is a history as structs too: the answers are one
 *     judge threads COUNT FILE ..        this many threads judge all files at once: the answers are those of one thread
 *     judge memory COUNT FILE ..         this many calls, and what memory is held after each
 *     judge refuse FILE ..               each allocation of each call fails in turn: the answer is that one, or out of memory
 *
 * The status is 0 if all is so. It is linked with --wrap for malloc, realloc and free, which count here. */
#include "fifobench.h"

#include <inttypes.h>
#include <malloc.h>
#include <pthread.h>
#include <stdatomic.h>
#include <stdbool.h>
#include <stdio.h>
#include <stdlib.h>
#include <string.h>

/* ---- memory */

void *__real_malloc(size_t size);
void *__real_realloc(void *block, size_t size);
void __real_free(void *block);

static atomic_long held;                 /* blocks that were given and not taken back */
static atomic_long growths;              /* calls of malloc and realloc */
static _Thread_local long until_refused; /* 0: none is refused; else the growth that is, counted from 1 */

static bool is_refused(void)
{
    growths++;
    return until_refused > 0 && --until_refused == 0;
}

void *__wrap_malloc(size_t size)
{
    void *block = is_refused() ? NULL : __real_malloc(size);
    held += block != NULL;
    return block;
}

void *__wrap_realloc(void *block, size_t size)
{
    bool is_new = block == NULL;
    void *moved = is_refused() ? NULL : __real_realloc(block, size);
    held += is_new && moved != NULL;
    return moved;
}

void __wrap_free(void *block)
{
    held -= block != NULL;
    __real_free(block);
}

/* ---- files */

struct text {
    const char *name;
    uint8_t *bytes;
    size_t length;
};

static void fail(const char *what, const char *name)
{
    fprintf(stderr, "judge: %s: %s\n", name, what);
    exit(1);
}

static struct text read_text(const char *name)
{
    FILE *file = fopen(name, "rb");
    if (file == NULL) {
        fail("can't be read", name);
    }
    struct text text = {name, NULL, 0};
    size_t room = 0;
    for (;;) {
        if (text.length == room) {
            room = room == 0 ? 4096 : 2 * room;
            text.bytes = realloc(text.bytes, room);
        }
        size_t count = fread(text.bytes + text.length, 1, room - text.length, file);
        if (count == 0) {
            break;
        }
        text.length += count;
    }
    fclose(file);
    /* A block of just the length, so that a read past it is seen by those who look for such reads. */
    text.bytes = realloc(text.bytes, text.length == 0 ? 1 : text.length);
    return text;
}

static struct text *read_all(char **names, int count)
{
    struct text *texts = calloc((size_t)count, sizeof *texts);
    for (int n = 0; n < count; n++) {
        texts[n] = read_text(names[n]);
    }
    return texts;
}

/* ---- answers */

typedef uint8_t judge_text(const uint8_t *, size_t, uint8_t *, size_t, size_t *);

static judge_text *const judges[] = {fifobench_check, fifobench_shrink, fifobench_verify, fifobench_complete};
static const char *const commands[] = {"check", "shrink", "verify", "complete"};

struct answer {
    uint8_t *text;
    size_t length;
    uint8_t status;
};

/* The answer, in three calls: with no buffer, with one of just the length, and with one that is a byte too short. */
static struct answer answer_of(judge_text *judge, struct text text)
{
    struct answer answer = {NULL, 0, 0};
    answer.status = judge(text.bytes, text.length, NULL, 0, &answer.length);
    answer.text = malloc(answer.length + 1);
    memset(answer.text, '#', answer.length + 1);
    size_t needed = 0;
    if (judge(text.bytes, text.length, answer.text, answer.length - 1, &needed) != answer.status || needed != answer.length) {
        fail("another status or length in a short buffer", text.name);
    }
    for (size_t n = 0; n <= answer.length; n++) {
        if (answer.text[n] != '#') {
            fail("a short buffer was written to", text.name);
        }
    }
    needed = 0;
    if (judge(text.bytes, text.length, answer.text, answer.length, &needed) != answer.status || needed != answer.length) {
        fail("another status or length in a buffer that fits", text.name);
    }
    if (answer.text[answer.length] != '#') {
        fail("a byte behind the answer was written", text.name);
    }
    return answer;
}

static bool is_same(struct answer a, struct answer b)
{
    return a.status == b.status && a.length == b.length && memcmp(a.text, b.text, a.length) == 0;
}

static int print_answers(const char *command, char **names, int count)
{
    for (int which = 0; which < 3; which++) {
        if (strcmp(command, commands[which]) != 0) {
            continue;
        }
        for (int n = 0; n < count; n++) {
            struct text text = read_text(names[n]);
            struct answer answer = answer_of(judges[which], text);
            /* docs/LIBRARY.md names this room. */
            if (which == 0 && answer.length > text.length + 64) {
                fail("an answer of check has more than the length of the text and 64 bytes", names[n]);
            }
            printf("%s %s %u\n", command, names[n], answer.status);
            fwrite(answer.text, 1, answer.length, stdout);
            free(answer.text);
            free(text.bytes);
        }
    }
    return 0;
}

/* ---- events */

/* The events of a text, where it has the lines of a history; whatever their numbers are. */
static struct fifobench_event *parse(struct text text, size_t *count)
{
    static const struct {
        const char *word;
        uint32_t what;
        bool has_value;
    } words[] = {{"call-enq", FIFOBENCH_CALL_ENQ, true},  {"ret-enq", FIFOBENCH_RET_ENQ, false},
                 {"ret-not", FIFOBENCH_RET_NOT, false},   {"call-deq", FIFOBENCH_CALL_DEQ, false},
                 {"ret-deq", FIFOBENCH_RET_DEQ, true},    {"ret-empty", FIFOBENCH_RET_EMPTY, false}};
    char *copy = malloc(text.length + 1);
    memcpy(copy, text.bytes, text.length);
    copy[text.length] = '\0';
    struct fifobench_event *events = calloc(text.length + 1, sizeof *events);
    *count = 0;
    char *line = strtok(copy, "\n");
    bool is_right = line != NULL && strcmp(line, "fifo-history 1") == 0;
    bool is_over = false;
    while (is_right && (line = strtok(NULL, "\n")) != NULL) {
        struct fifobench_event *event = &events[*count];
        char word[16];
        if (is_over) {
            is_right = false;
        } else if (strncmp(line, "end ", 4) == 0) {
            is_over = true;
        } else {
            is_right = sscanf(line, "%" SCNu64 " %" SCNu32 " %15s %" SCNu64, &event->ticket, &event->thread, word, &event->value) >= 3;
            for (size_t n = 0; is_right && n < sizeof words / sizeof *words; n++) {
                if (strcmp(word, words[n].word) == 0) {
                    event->what = words[n].what;
                }
            }
            is_right = is_right && event->what != 0;
            *count += 1;
        }
    }
    free(copy);
    if (!is_right || !is_over) {
        free(events);
        return NULL;
    }
    return events;
}

static int compare_events(char **names, int count)
{
    int compared = 0;
    for (int n = 0; n < count; n++) {
        struct text text = read_text(names[n]);
        struct answer of_text = answer_of(fifobench_check, text);
        size_t length = 0;
        struct fifobench_event *events = parse(text, &length);
        /* A text that is refused as one, as "Line 3", has no events; faults of its events have one word more. */
        bool is_text_fault = strncmp((char *)of_text.text, "REFUSED Cut", 11) == 0 || strncmp((char *)of_text.text, "REFUSED Header", 14) == 0 ||
                             strncmp((char *)of_text.text, "REFUSED Line", 12) == 0 || strncmp((char *)of_text.text, "REFUSED Number", 14) == 0 ||
                             strncmp((char *)of_text.text, "REFUSED Limit", 13) == 0 || strncmp((char *)of_text.text, "REFUSED Count", 13) == 0 ||
                             strncmp((char *)of_text.text, "REFUSED Trailing", 16) == 0;
        if (events != NULL && !is_text_fault) {
            struct answer answer = {NULL, 0, 0};
            answer.status = fifobench_check_events(events, length, NULL, 0, &answer.length);
            answer.text = malloc(answer.length);
            fifobench_check_events(events, length, answer.text, answer.length, &answer.length);
            if (!is_same(answer, of_text)) {
                fail("events and text have different answers", text.name);
            }
            compared++;
            free(answer.text);
        }
        free(events);
        free(of_text.text);
        free(text.bytes);
    }
    printf("%d histories as structs, with the answers of their texts\n", compared);
    return 0;
}

/* ---- threads */

struct work {
    struct text *texts;
    struct answer *answers; /* of text n by function f: 3 * n + f */
    int count;
    int first;
    bool is_right;
};

static void *judge_all(void *argument)
{
    struct work *work = argument;
    for (int n = 0; n < work->count; n++) {
        int place = (work->first + n) % work->count;
        for (int which = 0; which < 3; which++) {
            struct answer wanted = work->answers[3 * place + which];
            struct answer answer = {malloc(wanted.length), 0, 0};
            answer.status = judges[which](work->texts[place].bytes, work->texts[place].length, answer.text, wanted.length, &answer.length);
            work->is_right = work->is_right && is_same(answer, wanted);
            free(answer.text);
        }
    }
    return NULL;
}

static int compare_threads(int threads, char **names, int count)
{
    struct text *texts = read_all(names, count);
    struct answer *answers = calloc(3 * (size_t)count, sizeof *answers);
    for (int n = 0; n < 3 * count; n++) {
        answers[n] = answer_of(judges[n % 3], texts[n / 3]);
    }
    pthread_t running[64];
    struct work works[64];
    pthread_attr_t attributes;
    pthread_attr_init(&attributes);
    pthread_attr_setstacksize(&attributes, 65536);
    for (int n = 0; n < threads; n++) {
        works[n] = (struct work){texts, answers, count, n * count / threads, true};
        if (pthread_create(&running[n], &attributes, judge_all, &works[n]) != 0) {
            fail("can't be started", "a thread");
        }
    }
    for (int n = 0; n < threads; n++) {
        pthread_join(running[n], NULL);
        if (!works[n].is_right) {
            fail("another answer than of one thread", "a thread");
        }
    }
    printf("%d threads with stacks of 64 KiB, each %d calls, with the answers of one thread\n", threads, 3 * count);
    return 0;
}

/* ---- memory held */

static long resident_pages(void)
{
    long size = 0, resident = 0;
    FILE *file = fopen("/proc/self/statm", "r");
    if (file != NULL && fscanf(file, "%ld %ld", &size, &resident) != 2) {
        resident = 0;
    }
    if (file != NULL) {
        fclose(file);
    }
    return resident;
}

static int measure(int calls, char **names, int count)
{
    struct text *texts = read_all(names, count);
    static uint8_t buffer[1 << 16];
    size_t half_used = 0;
    long half_pages = 0;
    for (int n = 0; n < calls; n++) {
        size_t needed = 0;
        struct text text = texts[n / 3 % count];
        long before = held;
        judges[n % 3](text.bytes, text.length, buffer, sizeof buffer, &needed);
        if (held != before) {
            fail("memory is held after a call", text.name);
        }
        if (n == calls / 2) {
            half_used = mallinfo2().uordblks;
            half_pages = resident_pages();
        }
    }
    size_t used = mallinfo2().uordblks;
    printf("%d calls, %ld growths: no block held after any; in use after half of them %zu bytes, after all %zu; resident %ld KiB, then %ld KiB\n", calls,
           (long)growths, half_used, used, half_pages * 4, resident_pages() * 4);
    return used <= half_used ? 0 : 1;
}

/* ---- out of memory */

static const char want[] = "FAULT Memory\n";

static int refuse(char **names, int count)
{
    long refused = 0;
    for (int n = 0; n < 3 * count; n++) {
        struct text text = read_text(names[n / 3]);
        struct answer wanted = answer_of(judges[n % 3], text);
        size_t room = wanted.length < sizeof want ? sizeof want : wanted.length;
        uint8_t *buffer = malloc(room);
        for (long growth = 1;; growth++) {
            struct answer answer = {buffer, 0, 0};
            long before = held;
            until_refused = growth;
            answer.status = judges[n % 3](text.bytes, text.length, buffer, room, &answer.length);
            bool was_refused = until_refused == 0;
            until_refused = 0;
            struct answer memory = {(uint8_t *)want, sizeof want - 1, 3};
            if (held != before) {
                fail("memory is held after a refused growth", text.name);
            }
            if (!is_same(answer, wanted) && !(was_refused && is_same(answer, memory))) {
                fail("another answer after a refused growth", text.name);
            }
            if (!was_refused) {
                break;
            }
            refused++;
        }
        free(buffer);
        free(wanted.text);
        free(text.bytes);
    }
    printf("%ld growths refused in turn, each answered as before or by want of memory, and no block held\n", refused);
    return 0;
}

/* ---- texts */

static uint64_t state;

static uint64_t draw(uint64_t below)
{
    state ^= state << 13;
    state ^= state >> 7;
    state ^= state << 17;
    return (state >> 11) % below;
}

struct writing {
    char *text;
    size_t length;
    size_t room;
};

static void put(struct writing *to, const char *what, uint64_t ticket, unsigned thread, bool has_value, uint64_t value)
{
    if (to->room - to->length < 128) {
        to->room = to->room == 0 ? 4096 : 2 * to->room;
        to->text = realloc(to->text, to->room);
    }
    char *at = to->text + to->length;
    int count = has_value ? sprintf(at, "%" PRIu64 " %u %s %" PRIu64 "\n", ticket, thread, what, value)
                          : sprintf(at, "%" PRIu64 " %u %s\n", ticket, thread, what);
    to->length += (size_t)count;
}

enum { VALUES = 1 << 20 };

/* The text of a history of threads over a list. Each operation has its effect at a moment between its call and its return; a
 * wrong list answers wrongly at times: an old value, none, an invented one, the second in place of the first, or it loses one. */
static struct writing history(unsigned threads, unsigned operations, unsigned wrong)
{
    static uint64_t values[VALUES];
    size_t first = 0, last = 0;
    struct {
        int phase; /* 0 at rest, 1 called, 2 done */
        bool is_enqueue, has_value;
        uint64_t value;
    } of[8] = {{0}};
    struct writing to = {NULL, 0, 0};
    uint64_t ticket = 0, named = 0;
    unsigned asked = 0, events = 0, busy = 0;
    to.room = 4096;
    to.text = malloc(to.room);
    to.length = (size_t)sprintf(to.text, "fifo-history 1\n");
    while (asked < operations || busy > 0) {
        unsigned thread = (unsigned)draw(threads);
        ticket += draw(8) == 0;
        if (of[thread].phase == 0 && asked < operations) {
            asked++;
            busy++;
            of[thread].phase = 1;
            of[thread].is_enqueue = draw(2) == 0;
            of[thread].value = (uint64_t)thread << 32 | named++;
            put(&to, of[thread].is_enqueue ? "call-enq" : "call-deq", ticket++, thread, of[thread].is_enqueue, of[thread].value);
            events++;
        } else if (of[thread].phase == 1) {
            of[thread].phase = 2;
            bool is_wrong = wrong != 0 && draw(wrong) == 0;
            if (of[thread].is_enqueue) {
                of[thread].has_value = draw(20) != 0;
                if (of[thread].has_value && last < VALUES && !is_wrong) {
                    values[last++] = of[thread].value;
                }
            } else {
                of[thread].has_value = first < last;
                if (is_wrong && draw(3) == 0) {
                    of[thread].has_value = first == last;
                    of[thread].value = 1000000 + named++;
                } else if (is_wrong && first > 0) {
                    of[thread].has_value = true;
                    of[thread].value = values[draw(first)];
                } else if (is_wrong && first + 1 < last) {
                    of[thread].value = values[first + 1];
                    values[first + 1] = values[first];
                    first++;
                } else if (first < last) {
                    of[thread].value = values[first++];
                }
            }
        } else if (of[thread].phase == 2) {
            of[thread].phase = 0;
            busy--;
            if (of[thread].is_enqueue) {
                put(&to, of[thread].has_value ? "ret-enq" : "ret-not", ticket++, thread, false, 0);
            } else {
                put(&to, of[thread].has_value ? "ret-deq" : "ret-empty", ticket++, thread, of[thread].has_value, of[thread].value);
            }
            events++;
        }
    }
    to.length += (size_t)sprintf(to.text + to.length, "end %u\n", events);
    return to;
}

static void save(const char *folder, const char *name, struct writing text)
{
    char path[4096];
    snprintf(path, sizeof path, "%s/%s.text", folder, name);
    FILE *file = fopen(path, "wb");
    if (file == NULL || fwrite(text.text, 1, text.length, file) != text.length || fclose(file) != 0) {
        fail("can't be written", path);
    }
    free(text.text);
}

static int make(uint64_t seed, int count, const char *folder)
{
    state = seed * 0x9E3779B97F4A7C15u + 1;
    for (int n = 0; n < count; n++) {
        struct writing text = history(1 + (unsigned)draw(8), (unsigned)draw(40), n % 2 == 0 ? 0 : 1 + (unsigned)draw(12));
        char name[32];
        if (n % 5 == 2) { /* cut */
            text.length = draw(text.length + 1);
        } else if (n % 5 == 3) { /* a byte changed, to one of the text's own or to any */
            text.text[draw(text.length)] = draw(3) == 0 ? (char)draw(256) : text.text[draw(text.length)];
        } else if (n % 10 == 4) { /* a line taken out, or written twice */
            size_t from = draw(text.length), to = from;
            while (from > 0 && text.text[from - 1] != '\n') {
                from--;
            }
            while (text.text[to] != '\n') {
                to++;
            }
            memmove(text.text + from, text.text + to + 1, text.length - to - 1);
            text.length -= to + 1 - from;
        }
        snprintf(name, sizeof name, "%c%05d", "hhcxh"[n % 5], n);
        save(folder, name, text);
    }
    save(folder, "large", history(8, 100000, 0));
    return 0;
}

int main(int count, char **words)
{
    if (count == 5 && strcmp(words[1], "make") == 0) {
        return make(strtoull(words[2], NULL, 10), atoi(words[3]), words[4]);
    }
    if (count >= 4 && strcmp(words[1], "answers") == 0) {
        return print_answers(words[2], words + 3, count - 3);
    }
    if (count >= 3 && strcmp(words[1], "events") == 0) {
        return compare_events(words + 2, count - 2);
    }
    if (count >= 4 && strcmp(words[1], "threads") == 0) {
        return compare_threads(atoi(words[2]), words + 3, count - 3);
    }
    if (count >= 4 && strcmp(words[1], "memory") == 0) {
        return measure(atoi(words[2]), words + 3, count - 3);
    }
    if (count >= 3 && strcmp(words[1], "refuse") == 0) {
        return refuse(words + 2, count - 2);
    }
    fputs("usage: judge make SEED COUNT FOLDER | answers COMMAND FILE .. | events FILE .. | threads COUNT FILE .. | memory COUNT FILE .. | refuse FILE ..\n", stderr);
    return 2;
}
