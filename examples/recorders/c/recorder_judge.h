// The texts of runs, what a search asks of the program, and its files: histories, reports, and the texts of runs that
// end early. recorder.h includes it; it lies beside that.
#ifndef FIFOBENCH_RECORDER_JUDGE_H
#define FIFOBENCH_RECORDER_JUDGE_H

#include "recorder.h"
#include <unistd.h>

// Writes what stands before the events.
static inline void recorder_write_head(const struct recorder *recorder, bool is_pending, FILE *to)
{
    size_t initial = recorder->settings.initial;
    fprintf(to, "fifo-%s %d\n", is_pending ? "pending" : "history", initial == 0 ? 1 : 2);
    if (initial > 0) {
        fprintf(to, "initial %zu\n", initial);
    }
    for (size_t j = 0; j < initial; j++) {
        fprintf(to, "%" PRIu64 "\n", recorder_initial_value(&recorder->settings, j));
    }
}

static inline void recorder_write_event(const struct recorder_event *event, FILE *to)
{
    static const char *const words[] = {"call-enq", "ret-enq", "ret-not", "call-deq", "ret-deq", "ret-empty"};
    fprintf(to, "%" PRIu64 " %u %s", event->ticket, event->thread, words[event->what]);
    if (event->what == RECORDER_CALL_ENQ || event->what == RECORDER_RET_DEQ) {
        fprintf(to, " %" PRIu64, event->value);
    }
    fputc('\n', to);
}

// Writes a history, or a pending text (docs/RECORDING.md) if some call has no return. False if a write is refused.
static inline bool recorder_write(const struct recorder *recorder, FILE *to)
{
    struct recorder_sums sums = recorder_sum_up(recorder);
    struct recorder_merge merge = {.recorder = recorder};
    recorder_write_head(recorder, sums.pending > 0, to);
    while (merge.ticket < sums.events) {
        recorder_write_event(recorder_next(&merge), to);
    }
    if (sums.pending > 0) {
        fprintf(to, "open %zu\n", sums.pending);
    }
    fprintf(to, "end %zu\n", sums.events);
    return fflush(to) == 0 && !ferror(to);
}

// How far a search is, on a terminal: from two seconds on, until something else is printed.
static atomic_bool recorder_progress_is_shown;

static inline void recorder_erase_progress(void)
{
    if (atomic_exchange(&recorder_progress_is_shown, false)) {
        fputs("\r\033[K", stderr);
        fflush(stderr);
    }
}

// `next` is the time in seconds at which it is shown again.
static inline void recorder_show_progress(unsigned done, unsigned left, double *next)
{
    if (isatty(2) && recorder_seconds() >= *next) {
        *next = recorder_seconds() + 0.2;
        atomic_store(&recorder_progress_is_shown, true);
        fprintf(stderr, "\rfifobench: %u runs done, %u left, 0 found\033[K", done, left);
        fflush(stderr);
    }
}

// Writes FOLDER/SEED.KIND.
static inline void recorder_path(const struct recorder_settings *one, const char *kind, char path[RECORDER_PATH_BYTES])
{
    snprintf(path, RECORDER_PATH_BYTES, "%s/%" PRIu64 ".%s", one->folder, one->seed, kind);
}

// Makes a folder, and those in which it lies.
static inline void recorder_make_folder(const char *folder)
{
    char path[RECORDER_PATH_BYTES];
    for (int end = 1; end <= (int)strlen(folder); end++) {
        if (folder[end] == '/' || folder[end] == '\0') {
            snprintf(path, sizeof path, "%.*s", end, folder);
            mkdir(path, 0777);
        }
    }
}

// Writes the text of a run. Replaces an older file, since a journal may still be written to it.
static inline bool recorder_write_file(const struct recorder *recorder, const char *path)
{
    recorder_make_folder(recorder->settings.folder);
    remove(path);
    FILE *file = fopen(path, "wb");
    bool is_written = file != NULL && recorder_write(recorder, file);
    is_written = file != NULL && fclose(file) == 0 && is_written;
    if (!is_written) {
        fprintf(stderr, "fifobench: can't write %s\n", path);
    }
    return is_written;
}

static inline const char *recorder_program(const struct recorder_settings *settings)
{
    const char *named = getenv("FIFOBENCH");
    return settings->program != NULL ? settings->program : named != NULL && *named != '\0' ? named : "fifobench";
}

// The condition of a search and its bound, as its answer has them; empty if they are the default.
static inline void recorder_told_condition(const struct recorder_settings *settings, char told[RECORDER_LINE_BYTES])
{
    bool is_default = settings->condition == RECORDER_LINEARIZABLE;
    bool is_bounded = settings->overtaken_at_most != UINT64_MAX;
    int length = snprintf(told, RECORDER_LINE_BYTES, "%s%s", is_default ? "" : ", condition ",
                          is_default ? "" : recorder_condition_names[settings->condition]);
    if (is_bounded) {
        snprintf(told + length, (size_t)(RECORDER_LINE_BYTES - length), ", overtaken-at-most %" PRIu64,
                 settings->overtaken_at_most);
    }
}

// The flags of a command that are the condition of the settings.
static inline const char *recorder_flags(const struct recorder_settings *settings, const char *command)
{
    static const char *const flags[] = {"", " --local", " --weak-empty", " --local --weak-empty"};
    bool has_flags = strncmp(command, "check", 5) == 0 || strncmp(command, "shrink", 6) == 0 ||
                     strncmp(command, "draw", 4) == 0;
    return flags[has_flags ? settings->condition : RECORDER_LINEARIZABLE];
}

// Runs `PROGRAM COMMAND` from and to a file. Returns its status, or -1, and the first line of its output.
static inline int recorder_ask(const struct recorder_settings *settings, const char *command, const char *from,
                               const char *to, char first[RECORDER_LINE_BYTES])
{
    char line[4 * RECORDER_PATH_BYTES]; // more than three of the longest paths
    int length = snprintf(line, sizeof line, "'%s' %s%s <'%s' >'%s' 2>/dev/null", recorder_program(settings), command,
                          recorder_flags(settings, command), from, to);
    int status = length > 0 && (size_t)length < sizeof line ? system(line) : -1;
    FILE *answer = fopen(to, "r");
    bool has_line = answer != NULL && fgets(first, RECORDER_LINE_BYTES, answer) != NULL;
    first[has_line ? strcspn(first, "\n") : 0] = '\0';
    if (answer != NULL) {
        fclose(answer);
    }
    return status != -1 && WIFEXITED(status) ? WEXITSTATUS(status) : -1;
}

// Prints the second command of `see it:`, which draws the violation with what runs beside it: the report leaves that
// out. `draw` refuses more than 400 operations; then there is none.
static inline void recorder_tell_drawn_in(const struct recorder_settings *one, const char *history)
{
    static const char *const commands[] = {"draw --text --around 20", "draw --text"};
    char ignored[RECORDER_LINE_BYTES];
    int place = 0;
    while (place < 2 && recorder_ask(one, commands[place], history, "/dev/null", ignored) != 0) {
        place++;
    }
    if (place < 2) {
        printf("           %s %s%s < %s\n", recorder_program(one), commands[place],
               recorder_flags(one, commands[place]), history);
    }
}

// Of `stats` in a file, the number after this name. Returns whether there is one.
static inline bool recorder_stat(const char *path, const char *name, uint64_t *number)
{
    char line[RECORDER_LINE_BYTES];
    FILE *stats = fopen(path, "r");
    size_t length = strlen(name);
    bool is_found = false;
    while (stats != NULL && !is_found && fgets(line, sizeof line, stats) != NULL) {
        is_found = strncmp(line, name, length) == 0 && sscanf(line + length, " %" SCNu64, number) == 1;
    }
    if (stats != NULL) {
        fclose(stats);
    }
    return is_found;
}

// Prints the dequeue that overtakes most, and the command that prints all that do.
static inline void recorder_tell_overtaking(const struct recorder_settings *one, const char *history, const char *to)
{
    char line[RECORDER_LINE_BYTES] = "", more;
    uint64_t most = 0, count = 0, called = 0, ticket = 0, given = 0, value = 0;
    int status = recorder_ask(one, "stats --overtakes", history, to, line);
    FILE *stats = status == 0 ? fopen(to, "r") : NULL;
    while (stats != NULL && fgets(line, sizeof line, stats) != NULL) {
        int fields = sscanf(line, "%" SCNu64 " %" SCNu64 " %" SCNu64 " %c", &count, &ticket, &value, &more);
        if (fields == 3 && count > most) {
            most = count, called = ticket, given = value;
        }
    }
    if (stats != NULL) {
        fclose(stats);
    }
    remove(to);
    if (most > 0) {
        printf("  dequeue: that of %" PRIu64 ", called at ticket %" PRIu64 ", overtakes %" PRIu64 " values\n", given,
               called, most);
    } else {
        printf("  dequeue: not named by %s\n", recorder_program(one));
    }
    printf("  see it:  %s stats --overtakes < %s\n", recorder_program(one), history);
}

// What `check` says of a history, by the condition of the settings, and unless it completes pending calls by their
// bound on overtaking. A bound judges the order of values in place of `check`, but for that of each producer's own.
// Returns 0 for `YES`; 1 for `NO`, with its line; 2 for neither, which is said.
static inline int recorder_verdict(const struct recorder_settings *one, const char *history, const char *report,
                                   bool is_completed, char verdict[RECORDER_LINE_BYTES])
{
    int status = recorder_ask(one, "check", history, report, verdict);
    bool is_yes = status == 0 && strcmp(verdict, "YES") == 0, is_no = status == 1 && strncmp(verdict, "NO ", 3) == 0;
    bool is_local = one->condition == RECORDER_LOCAL || one->condition == RECORDER_BOTH;
    bool is_bounded = one->overtaken_at_most != UINT64_MAX && !is_completed;
    char ignored[RECORDER_LINE_BYTES];
    uint64_t most = 0;
    if (!is_yes && !is_no) {
        recorder_erase_progress();
        fprintf(stderr, "fifobench: %s says '%s' of %s\n", recorder_program(one), verdict, history);
        return 2;
    }
    if (!is_bounded || (is_no && (is_local || strcmp(verdict, "NO VOrd") != 0))) {
        return status;
    }
    recorder_ask(one, "stats", history, report, ignored);
    if (!recorder_stat(report, "overtaken-at-most", &most)) {
        recorder_erase_progress();
        fprintf(stderr, "fifobench: %s has no overtaken-at-most in stats, which a later version has\n",
                recorder_program(one));
        return 2;
    }
    snprintf(verdict, RECORDER_LINE_BYTES, "NO overtaken-at-most %" PRIu64, one->overtaken_at_most);
    return most > one->overtaken_at_most ? 1 : 0;
}

// Judges the history in a file, which may be a completion of pending calls. Returns 0, 1 or 2.
static inline int recorder_judge_file(const struct recorder_settings *one, const char *history, bool is_completed)
{
    char report[RECORDER_PATH_BYTES], verdict[RECORDER_LINE_BYTES], told[RECORDER_LINE_BYTES];
    const char *program = recorder_program(one), *pattern = recorder_pattern_names[recorder_pattern_of(one)];
    recorder_path(one, "report", report);
    recorder_told_condition(one, told);
    int answer = recorder_verdict(one, history, report, is_completed, verdict);
    bool is_undecided = answer == 1 && is_completed && told[0] != '\0';
    if ((answer == 0 || is_undecided) && (!one->keep || is_completed)) {
        remove(history);
    }
    if (answer == 0 || is_undecided) {
        remove(report);
    }
    if (is_undecided) {
        recorder_erase_progress();
        fprintf(stderr, "fifobench: %s of one completion%s: another one may be a YES\n", verdict, told);
    }
    if (answer != 1 || is_undecided) {
        return is_undecided ? 2 : answer;
    }
    recorder_erase_progress();
    printf("%s: seed %" PRIu64 ", %s%s\n  history: %s\n", verdict, one->seed, pattern,
           is_completed ? ": the queue is wrong, whatever the pending calls do" : "", history);
    if (strncmp(verdict, "NO overtaken-at-most ", 21) == 0) {
        recorder_tell_overtaking(one, history, report);
    } else {
        recorder_ask(one, "shrink", history, report, told);
        printf("  report:  %s\n  see it:  %s draw --text%s < %s\n", report, program, recorder_flags(one, "draw"),
               report);
        recorder_tell_drawn_in(one, history);
    }
    printf("  again:   seed %" PRIu64 ", pattern %s: the same plan, though threads may meet in another way\n",
           one->seed, pattern);
    return 1;
}

// Completes a pending text and judges that, or prints the command that does. Returns 1 or 2. `fault` follows YES.
static inline int recorder_judge_pending(const struct recorder_settings *one, const char *pending, const char *fault,
                                         size_t calls)
{
    char history[RECORDER_PATH_BYTES], first[RECORDER_LINE_BYTES];
    const char *program = recorder_program(one);
    recorder_path(one, "history", history);
    int status = recorder_ask(one, "complete", pending, history, first);
    if (status == 0) {
        status = recorder_judge_file(one, history, true);
        if (status == 0) {
            fprintf(stderr, "YES: a right queue can have behaved so until then. %s\n  see it:  ", fault);
            if (calls <= RECORDER_MAX_DRAWN && one->initial <= RECORDER_MAX_DRAWN) {
                fprintf(stderr, "%s draw --text < %s\n", program, pending);
            } else {
                fprintf(stderr, "tail -n 40 < %s\n", pending);
            }
        }
        return status == 1 ? 1 : 2;
    }
    remove(history);
    if (strncmp(first, "REFUSED ", 8) == 0) {
        fprintf(stderr, "fifobench: %s says '%s' of %s\n", program, first, pending);
    } else if (status > 0 && status < 126) { // else the shell has found no program
        fprintf(stderr, "fifobench: %s has no command complete, which a later version has\n", program);
    }
    fprintf(stderr, "  judge:   %s complete < %s | %s check%s\n", program, pending, program,
            recorder_flags(one, "check"));
    return 2;
}

// Keeps what there is of a run that ends early, says how it ended, and judges it. Returns 1 or 2.
static inline int recorder_end_early(const struct recorder *recorder, const char *how, const char *fault)
{
    struct recorder_sums sums = recorder_sum_up(recorder);
    char path[RECORDER_PATH_BYTES];
    const char *between = "; ";
    recorder_erase_progress();
    fprintf(stderr, "fifobench: seed %" PRIu64 ": %s", recorder->settings.seed, how);
    for (unsigned number = 0; number < recorder->threads; number++) {
        if (sums.open[number] != NULL) {
            fprintf(stderr, "%sthread %u is inside ", between, number);
            fprintf(stderr, sums.open[number]->what == RECORDER_CALL_ENQ ? "enqueue of %" PRIu64 : "dequeue",
                    sums.open[number]->value);
            between = ", ";
        }
    }
    fputs(sums.pending == 0 ? "; no thread is inside a call\n" : "\n", stderr);
    recorder_path(&recorder->settings, "pending", path);
    if (!recorder_write_file(recorder, path)) {
        return 2;
    }
    fprintf(stderr, "  pending: %s\n", path);
    return recorder_judge_pending(&recorder->settings, path, fault, sums.calls);
}

#endif
