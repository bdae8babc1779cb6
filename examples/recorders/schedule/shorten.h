// Leaves out the switches that a violation doesn't need. A part of schedule.c.

// How much is tried, so that a trace is there in some seconds. Not by the clock: the same run gives the same trace.
enum { MOST_TRIALS = 500, MOST_POINTS = 4000000 };

// Returns the number of runs that may be spent on a trace.
static unsigned most_trials(void)
{
    const char *wanted = getenv("FIFOBENCH_TRIALS");
    return wanted != NULL ? (unsigned)strtoul(wanted, NULL, 10) : MOST_TRIALS;
}

// The decisions that are still wanted, in the order of time, and the runs made so far.
struct shortening {
    const struct searching *of;
    uint64_t seed;
    struct outcome wanted_outcome;
    struct decision *kept, *sorted, *tried;
    size_t count;
    unsigned trials, most_trials;
    uint64_t points; // of all trials
    char history[MAX_PATH_BYTES], report[MAX_PATH_BYTES];
};

static int by_thread_and_point(const void *a, const void *b)
{
    const struct decision *first = a, *second = b;
    if (first->thread != second->thread) {
        return first->thread < second->thread ? -1 : 1;
    }
    return (first->point > second->point) - (first->point < second->point);
}

static bool is_same(const struct outcome *a, const struct outcome *b)
{
    return !a->is_wrong && !b->is_wrong && a->ending == b->ending && a->signal == b->signal &&
           a->has_failed == b->has_failed && strcmp(a->verdict, b->verdict) == 0;
}

static bool may_try(const struct shortening *of)
{
    return of->trials < of->most_trials && of->points < MOST_POINTS;
}

// Makes a run with these decisions. Returns whether it ends as the first one did.
static bool still_fails(struct shortening *of, const struct decision *decisions, size_t count)
{
    memcpy(of->sorted, decisions, count * sizeof *decisions);
    qsort(of->sorted, count, sizeof *decisions, by_thread_and_point);
    of->trials++;
    struct outcome outcome = make_run(of->of->settings, of->seed, of->sorted, count);
    of->points += tape->points;
    if (is_complete(&outcome)) {
        judge(of->of, of->history, of->report, &outcome);
    }
    return is_same(&outcome, &of->wanted_outcome);
}

// Tries without the decisions from one place to another. Keeps it so if the run still fails.
static bool leave_out(struct shortening *of, size_t first, size_t last)
{
    size_t rest = of->count - last;
    memcpy(of->tried, of->kept, first * sizeof *of->kept);
    memcpy(of->tried + first, of->kept + last, rest * sizeof *of->kept);
    if (!still_fails(of, of->tried, first + rest)) {
        return false;
    }
    memcpy(of->kept, of->tried, (first + rest) * sizeof *of->kept);
    of->count = first + rest;
    return true;
}

// Cuts off the end: what comes after the violation isn't needed.
static void cut_end(struct shortening *of)
{
    for (size_t cut = of->count / 2; cut > 0; cut /= 2) {
        while (cut <= of->count && may_try(of) && leave_out(of, of->count - cut, of->count)) {
        }
    }
}

// Leaves out parts, the later ones first: halves, quarters and so on, at last one by one until none can be left out.
static void leave_out_parts(struct shortening *of)
{
    size_t part = of->count / 2 > 0 ? of->count / 2 : 1;
    while (of->count > 0 && may_try(of)) {
        bool has_changed = false;
        for (size_t last = of->count; last > 0 && may_try(of);) {
            size_t first = last > part ? last - part : 0;
            has_changed = leave_out(of, first, last) || has_changed;
            last = first;
        }
        if (part == 1 && !has_changed) {
            return;
        }
        part = part > 1 ? part / 2 : 1;
    }
}

// Tries without the choices of who goes on for a thread that can't: the next by number may do as well.
static void leave_out_forced(struct shortening *of)
{
    size_t count = 0;
    for (size_t place = 0; place < of->count; place++) {
        if (!of->kept[place].is_forced) {
            of->tried[count++] = of->kept[place];
        }
    }
    if (count < of->count && may_try(of) && still_fails(of, of->tried, count)) {
        memcpy(of->kept, of->tried, count * sizeof *of->kept);
        of->count = count;
    }
}

// Copies the decisions of the run at hand, but for what was only noted.
static size_t copy_decisions(struct decision *to)
{
    size_t count = 0;
    for (size_t place = 0; place < tape->decisions; place++) {
        if (tape->decision[place].to != STORE_IS_SEEN) {
            to[count++] = tape->decision[place];
        }
    }
    return count;
}

static bool begin_shortening(struct shortening *of)
{
    size_t count = tape->decisions;
    if (count > MAX_DECISIONS) {
        return false;
    }
    of->kept = malloc((count + 1) * sizeof *of->kept);
    of->sorted = malloc((count + 1) * sizeof *of->sorted);
    of->tried = malloc((count + 1) * sizeof *of->tried);
    name_file(of->history, of->of->settings->folder, of->seed, "trace.history");
    name_file(of->report, of->of->settings->folder, of->seed, "trace.report");
    if (of->kept == NULL || of->sorted == NULL || of->tried == NULL) {
        return false;
    }
    of->count = copy_decisions(of->kept);
    return true;
}

static void end_shortening(struct shortening *of)
{
    free(of->kept);
    free(of->sorted);
    free(of->tried);
    remove(of->history);
    remove(of->report);
}

// Marks the events that `shrink` keeps of a run; of one that ended early, the calls that haven't returned.
static void keep_events(struct shortening *of, bool *is_kept)
{
    char line[MAX_LINE_BYTES];
    size_t ticket, open[FIFOBENCH_MAX_THREADS];
    unsigned thread;
    open_calls(tape, open);
    for (unsigned number = 0; number < FIFOBENCH_MAX_THREADS; number++) {
        if (open[number] != 0) {
            is_kept[open[number] - 1] = true;
        }
    }
    if (of->wanted_outcome.verdict[0] == '\0' || !write_tape_to(tape, of->history) ||
        ask(of->of->program, "shrink", of->history, of->report) != 1) {
        return;
    }
    FILE *file = fopen(of->report, "r");
    while (file != NULL && fgets(line, sizeof line, file) != NULL && strncmp(line, "end ", 4) != 0) {
        if (sscanf(line, "%zu %u", &ticket, &thread) == 2 && ticket < tape->events) {
            is_kept[ticket] = true;
        }
    }
    if (file != NULL) {
        fclose(file);
    }
}

// Counts the decisions that weren't forced: a thread that could have gone on was stopped, or its store waited.
static size_t count_switches(const struct decision *decisions, size_t count)
{
    size_t switches = 0;
    for (size_t place = 0; place < count; place++) {
        switches += !decisions[place].is_forced;
    }
    return switches;
}

static void name_outcome(const struct outcome *outcome, char *name, size_t room)
{
    const char *signal_name = outcome->signal != 0 ? strsignal(outcome->signal) : "";
    snprintf(name, room, "%s", outcome->has_failed            ? "failure"
                               : outcome->ending == DEADLOCK  ? "deadlock"
                               : outcome->ending == LIVELOCK  ? "livelock"
                               : outcome->signal != 0         ? signal_name
                                                              : outcome->verdict);
}

static bool write_trace(struct shortening *of, size_t all, const char *path)
{
    char name[MAX_LINE_BYTES];
    size_t made = tape->decisions < MAX_DECISIONS ? tape->decisions : MAX_DECISIONS;
    bool *is_kept = calloc(tape->events + 1, sizeof *is_kept);
    FILE *file = fopen(path, "w");
    if (is_kept != NULL && file != NULL) {
        keep_events(of, is_kept);
        name_outcome(&of->wanted_outcome, name, sizeof name);
        fprintf(file, "%s with %zu of the %zu switches of seed %" PRIu64 ":\n", name,
                count_switches(tape->decision, made), all, of->seed);
        tell_trace(tape, is_kept, file);
    }
    bool is_written = is_kept != NULL && file != NULL && !ferror(file);
    free(is_kept);
    return file != NULL && fclose(file) == 0 && is_written;
}

// Makes the failing run again, by the seed and by its decisions, and leaves out what isn't needed. Writes SEED.trace.
// Returns NULL, or a sentence on why there is no trace; and whether the run was the same the second time.
static const char *make_trace(const struct searching *searching, uint64_t seed, const struct outcome *outcome,
                              const char *path, bool *is_equal)
{
    struct shortening of = {.of = searching, .seed = seed, .wanted_outcome = *outcome, .most_trials = most_trials()};
    size_t events = tape->events;
    struct event *event = malloc((events + 1) * sizeof *event);
    const char *fault = "there is no memory for a trace";
    if (event != NULL && begin_shortening(&of)) {
        memcpy(event, tape->event, events * sizeof *event);
        size_t all = count_switches(of.kept, of.count);
        make_run(searching->settings, seed, NULL, 0);
        *is_equal = tape->events == events && memcmp(event, tape->event, events * sizeof *event) == 0;
        fault = "the run isn't the same when it is made again: a clock, an address, real input or threads of the "
                "queue's own may change what it does";
        if (*is_equal && still_fails(&of, of.kept, of.count)) {
            leave_out_forced(&of);
            cut_end(&of);
            leave_out_forced(&of);
            leave_out_parts(&of);
            still_fails(&of, of.kept, of.count);
            fault = write_trace(&of, all, path) ? NULL : "the trace can't be written";
        }
    }
    free(event);
    end_shortening(&of);
    return fault;
}
