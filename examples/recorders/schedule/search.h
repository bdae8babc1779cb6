// The runs of a search, and what it prints. A part of schedule.c.

// Adds how many operations have returned, and how many of these overlap another.
static void count_overlap(struct searching *of)
{
    size_t calls = 0, pending = 0, calls_at[FIFOBENCH_MAX_THREADS] = {0}, pending_at[FIFOBENCH_MAX_THREADS] = {0};
    for (size_t place = 0; place < tape->events; place++) {
        const struct event *event = &tape->event[place];
        if (is_call(event)) {
            calls_at[event->thread] = calls++;
            pending_at[event->thread] = pending++;
        } else {
            pending--;
            of->operations++;
            of->overlapping += pending_at[event->thread] > 0 || calls - calls_at[event->thread] > 1;
        }
    }
}

// How far a search is, on a terminal: from two seconds on, until something else is printed. `next` is the time in
// seconds at which it is shown again.
static bool progress_is_shown;

static void erase_progress(void)
{
    if (progress_is_shown) {
        progress_is_shown = false;
        fprintf(stderr, "\r\033[K");
        fflush(stderr);
    }
}

static double seconds_now(void)
{
    struct timespec now;
    clock_gettime(CLOCK_MONOTONIC, &now);
    return (double)now.tv_sec + (double)now.tv_nsec / 1e9;
}

static void show_progress(unsigned done, unsigned left, double *next)
{
    if (isatty(2) && seconds_now() >= *next) {
        *next = seconds_now() + 0.2;
        progress_is_shown = true;
        fprintf(stderr, "\rfifobench: %u runs done, %u left, 0 found\033[K", done, left);
        fflush(stderr);
    }
}

// Says of each thread where it is.
static void tell_places(FILE *to)
{
    size_t open[FIFOBENCH_MAX_THREADS];
    char place[MAX_LINE_BYTES];
    open_calls(tape, open);
    for (unsigned number = 0; number < tape->threads; number++) {
        const struct place *at = &tape->places[number];
        if (at->has_ended || open[number] == 0) {
            fprintf(to, "fifobench: thread %u %s\n", number,
                    at->has_ended ? "has made its last operation" : "is between two operations");
            continue;
        }
        const struct event *call = &tape->event[open[number] - 1];
        fprintf(to, "fifobench: thread %u is inside ", number);
        if (call->what == FIFOBENCH_SCHEDULE_CALL_ENQ) {
            fprintf(to, "the enqueue of %" PRIu64, call->value);
        } else {
            fprintf(to, "a dequeue");
        }
        name_place(at->from, place, sizeof place);
        fprintf(to, ", ticket %zu, at %s", open[number] - 1, place);
        fprintf(to, at->waits != NULL ? "; it waits for %s\n" : "\n", at->waits);
    }
}

static void tell_unseen(void)
{
    fprintf(stderr, "fifobench: no atomic operation was seen in the queue, and no lock: inline assembler, and code "
                    "compiled without -fsanitize=thread, is one step\n");
}

// How a run ended early, in a word, and the sentence that follows YES.
struct early {
    const char *kind;
    const char *fault;
};

static struct early name_early(const struct outcome *outcome)
{
    static const char *const waits = "If the queue promises to return, the %s itself is the fault.";
    static const char *const throws = "If the queue promises not to %s, the %s itself is the fault.";
    static char fault[MAX_LINE_BYTES];
    struct early early = {"end of the process", fault};
    snprintf(fault, sizeof fault, "The end of the process itself is the fault.");
    if (outcome->has_failed) {
        bool is_panic = strncmp(tape->failure, "panic", 5) == 0;
        early.kind = is_panic ? "panic" : "exception";
        snprintf(fault, sizeof fault, throws, is_panic ? "panic" : "throw", early.kind);
    } else if (outcome->ending == DEADLOCK || outcome->ending == LIVELOCK || outcome->signal == SIGALRM) {
        early.kind = outcome->ending == DEADLOCK ? "deadlock" : outcome->ending == LIVELOCK ? "livelock" : "hang";
        snprintf(fault, sizeof fault, waits, early.kind);
    } else if (outcome->signal != 0) {
        early.kind = "crash";
        snprintf(fault, sizeof fault, "The crash itself is the fault.");
    }
    return early;
}

// Prints how a run ended early, and keeps its text. Returns whether that was written.
static bool tell_early(const char *folder, uint64_t seed, const struct outcome *outcome, char path[MAX_PATH_BYTES])
{
    const char *kind = name_early(outcome).kind;
    erase_progress();
    fprintf(stderr, "fifobench: seed %" PRIu64 ": ", seed);
    if (outcome->has_failed) {
        fprintf(stderr, "%s\n", tape->failure);
    } else if (outcome->ending == DEADLOCK) {
        fprintf(stderr, "%s: no thread can go on\n", kind);
    } else if (outcome->ending == LIVELOCK) {
        fprintf(stderr, "%s: %" PRIu64 " points, and no operation ends (FIFOBENCH_PATIENCE sets the bound)\n", kind,
                tape->patience);
    } else if (outcome->signal == SIGALRM) {
        fprintf(stderr, "%s: no event for %u s: a thread waits for something that isn't seen, or runs without a "
                        "point\n", kind, tape->seconds);
    } else if (outcome->signal != 0) {
        fprintf(stderr, "%s: %s\n", kind, strsignal(outcome->signal));
    } else {
        fprintf(stderr, "the queue has ended the process\n");
    }
    if (outcome->signal == SIGALRM && tape->atomics == 0 && tape->locks == 0) {
        tell_unseen();
    }
    if (!outcome->has_failed) {
        tell_places(stderr);
    }
    make_folder(folder);
    name_file(path, folder, seed, "pending");
    bool is_written = write_tape_to(tape, path);
    fprintf(stderr, is_written ? "  pending: %s\n" : "fifobench: can't write %s\n", path);
    return is_written;
}

// The condition of the search and its bound, as its answer has them; empty if they are the default.
static char told_condition[MAX_LINE_BYTES];

static void tell_condition(const struct fifobench_search *settings)
{
    bool is_local = strstr(condition_flags, "--local") != NULL, is_weak = strstr(condition_flags, "--weak") != NULL;
    const char *name = is_local && is_weak ? "both" : is_local ? "local" : is_weak ? "weak-empty" : NULL;
    int length = snprintf(told_condition, sizeof told_condition, "%s%s", name != NULL ? ", condition " : "",
                          name != NULL ? name : "");
    if (settings->is_bounded) {
        snprintf(told_condition + length, sizeof told_condition - (size_t)length, ", overtaken-at-most %" PRIu64,
                 settings->overtaken_at_most);
    }
}

// Judges the completion of a pending text. Returns 0 or 1, and the verdict; or 2 if there is none, and prints the
// command that gives one.
static int judge_pending(const char *program, bool judges, const char *pending, const char *history, const char *report,
                         char verdict[MAX_LINE_BYTES])
{
    int status = judges ? ask(program, "complete", pending, history) : -1;
    read_first_line(history, verdict, MAX_LINE_BYTES);
    if (status == 0) {
        status = ask(program, "check", history, report);
        read_first_line(report, verdict, MAX_LINE_BYTES);
        // `complete` decides linearizability: by another condition another completion may be right.
        if (status == 1 && told_condition[0] != '\0') {
            fprintf(stderr, "fifobench: %s of one completion%s: another one may be a YES\n", verdict, told_condition);
            remove(history);
            remove(report);
            return 2;
        }
        if ((status == 0 && strcmp(verdict, "YES") == 0) || (status == 1 && strncmp(verdict, "NO ", 3) == 0)) {
            return status;
        }
        fprintf(stderr, "fifobench: %s says '%s' of %s\n", program, verdict, history);
        return 2;
    }
    remove(history);
    if (judges && strncmp(verdict, "REFUSED ", 8) == 0) {
        fprintf(stderr, "fifobench: %s says '%s' of %s\n", program, verdict, pending);
    } else if (judges) {
        fprintf(stderr, "fifobench: %s has no command complete, which a later version has\n", program);
    }
    fprintf(stderr, "  judge:   %s complete < %s | %s check%s\n", program, pending, program, flags_of("check"));
    return 2;
}

static void tell_completable(const char *program, const char *pending, const struct outcome *outcome)
{
    size_t open[FIFOBENCH_MAX_THREADS];
    // `draw` refuses more than 400 operations or initial values.
    bool is_drawn = tape->events + open_calls(tape, open) <= 800 && tape->initial <= 400;
    fprintf(stderr, "YES: a right queue can have behaved so until then. %s\n  see it:  ", name_early(outcome).fault);
    if (is_drawn) {
        fprintf(stderr, "%s draw --text < %s\n", program, pending);
    } else {
        fprintf(stderr, "tail -n 40 < %s\n", pending);
    }
}

static const char *program_of(const struct fifobench_search *settings);

// A run of this process itself has ended early; so does the process.
static _Noreturn void report_early(void)
{
    struct outcome outcome = {.ending = tape->ending};
    struct fifobench_search none = {0};
    char pending[MAX_PATH_BYTES], history[MAX_PATH_BYTES], report[MAX_PATH_BYTES], verdict[MAX_LINE_BYTES];
    const char *folder = run.settings.folder != NULL ? run.settings.folder : "fifobench-runs";
    const char *program = program_of(&none);
    int answer = 2;
    seat = NULL;
    name_file(history, folder, run.settings.seed, "history");
    name_file(report, folder, run.settings.seed, "report");
    if (tell_early(folder, run.settings.seed, &outcome, pending)) {
        bool judges = ask(program, "--version", "/dev/null", "/dev/null") == 0;
        answer = judge_pending(program, judges, pending, history, report, verdict);
    }
    if (answer == 0) {
        remove(history);
        remove(report);
        tell_completable(program, pending, &outcome);
    } else if (answer == 1) {
        fprintf(stderr, "%s: seed %" PRIu64 ": the queue is wrong, whatever the pending calls do\n", verdict,
                run.settings.seed);
        fprintf(stderr, "  history: %s\n  report:  %s\n", history, report);
    }
    fflush(NULL);
    _exit(answer == 1 ? 1 : 2);
}

// The command that made this search, with its settings of the environment, but for the seed and the number of runs.
static void tell_command(FILE *to)
{
    static const char *const names[] = {"FIFOBENCH_STRATEGY", "FIFOBENCH_BUFFERS", "FIFOBENCH_PATIENCE"};
    for (unsigned place = 0; place < 3; place++) {
        if (getenv(names[place]) != NULL) {
            fprintf(to, "%s=%s ", names[place], getenv(names[place]));
        }
    }
    static char words[1 << 16];
    int file = open("/proc/self/cmdline", O_RDONLY);
    ssize_t length = file >= 0 ? read(file, words, sizeof words - 1) : 0;
    close(file);
    for (ssize_t at = 0; at < length; at += (ssize_t)strlen(words + at) + 1) {
        if (strcmp(words + at, "--seed") == 0 || strcmp(words + at, "--runs") == 0) {
            at += (ssize_t)strlen(words + at) + 1;
        } else {
            fprintf(to, strpbrk(words + at, " '\"$&|<>;*?\\") != NULL ? "\"%s\" " : "%s ", words + at);
        }
    }
}

// The first seed: that of `--seed N` on the command line or of FIFOBENCH_SEED, so that any program can replay a run.
static uint64_t first_seed(uint64_t settings)
{
    char words[1 << 16];
    const char *named = getenv("FIFOBENCH_SEED");
    int file = open("/proc/self/cmdline", O_RDONLY);
    ssize_t length = file >= 0 ? read(file, words, sizeof words - 1) : 0;
    close(file);
    words[length > 0 ? length : 0] = '\0';
    for (ssize_t at = 0; at < length; at += (ssize_t)strlen(words + at) + 1) {
        if (strcmp(words + at, "--seed") == 0) {
            named = words + at + sizeof "--seed";
        }
    }
    return named != NULL && *named >= '0' && *named <= '9' ? strtoull(named, NULL, 10) : settings;
}

// Makes and prints the trace of the run at hand. Returns whether the run is the same when it is made again.
static bool tell_trace_of(const struct searching *of, uint64_t seed, const struct outcome *outcome, FILE *to)
{
    char path[MAX_PATH_BYTES], line[2 * MAX_LINE_BYTES];
    name_file(path, of->settings->folder, seed, "trace");
    bool is_equal = true;
    if (most_trials() == 0) {
        return true;
    }
    const char *fault = make_trace(of, seed, outcome, path, &is_equal);
    FILE *file = fault == NULL ? fopen(path, "r") : NULL;
    if (file == NULL) {
        fprintf(stderr, "fifobench: seed %" PRIu64 ": %s\n", seed, fault != NULL ? fault : "the trace can't be read");
        return is_equal;
    }
    fprintf(to, "  trace:   %s\n", path);
    while (fgets(line, sizeof line, file) != NULL) {
        fprintf(to, "  %s", line);
    }
    fclose(file);
    return true;
}

// The trace of a run that fails, and how to make the run again. An exception or a hang has no trace: what each trial
// would need is the time of a hang.
static void tell_again(const struct searching *of, uint64_t seed, const struct outcome *outcome, FILE *to)
{
    bool has_trace = !outcome->has_failed && outcome->signal != SIGALRM;
    bool is_equal = !has_trace || tell_trace_of(of, seed, outcome, to);
    fprintf(to, "  again:   ");
    tell_command(to);
    fprintf(to, "--seed %" PRIu64 " %s\n", seed,
            is_equal ? "replays this very run" : "makes the same plan, though the run may be another");
}

// Prints the second command of `see it:`, which draws the violation with what runs beside it: the report leaves that
// out. `draw` refuses more than 400 operations; then there is none.
static void tell_drawn_in(const char *program, const char *history)
{
    static const char *const commands[] = {"draw --text --around 20", "draw --text"};
    int place = 0;
    while (place < 2 && ask(program, commands[place], history, "/dev/null") != 0) {
        place++;
    }
    if (place < 2) {
        printf("           %s %s%s < %s\n", program, commands[place], flags_of(commands[place]), history);
    }
}

// Prints the dequeue that overtakes most, and the command that prints all that do.
static void tell_overtaking(const char *program, const char *history, const char *report)
{
    char line[MAX_LINE_BYTES] = "", more;
    uint64_t count = 0, ticket = 0, value = 0;
    bool is_found = false;
    FILE *stats = ask(program, "stats --overtakes", history, report) == 0 ? fopen(report, "r") : NULL;
    while (stats != NULL && !is_found && fgets(line, sizeof line, stats) != NULL) {
        is_found = sscanf(line, "%" SCNu64 " %" SCNu64 " %" SCNu64 " %c", &count, &ticket, &value, &more) == 3;
    }
    if (stats != NULL) {
        fclose(stats);
    }
    remove(report);
    if (is_found) {
        printf("  dequeue: that of %" PRIu64 ", which returns at ticket %" PRIu64 ", overtakes %" PRIu64 " values\n",
               value, ticket, count);
    } else {
        printf("  dequeue: not named by %s\n", program);
    }
    printf("  see it:  %s stats --overtakes < %s\n", program, history);
}

// `why` stands after the verdict.
static int tell_violation(const struct searching *of, uint64_t seed, const struct outcome *outcome, const char *verdict,
                          const char *why, const char *history, const char *report)
{
    const struct fifobench_search *settings = of->settings;
    bool is_bound = strncmp(verdict, "NO overtaken-at-most ", 21) == 0;
    int status = is_bound ? 1 : ask(of->program, "shrink", history, report);
    erase_progress();
    printf("%s: seed %" PRIu64 ", ", verdict, seed);
    if (settings->pattern != NULL) {
        printf("%s, ", settings->pattern(settings->context, seed));
    }
    printf("with chosen schedules%s\n  history: %s\n", why, history);
    if (is_bound) {
        tell_overtaking(of->program, history, report);
    } else {
        printf("  report:  %s\n  see it:  %s draw --text%s < %s\n", report, of->program, flags_of("draw"), report);
        tell_drawn_in(of->program, history);
    }
    tell_again(of, seed, outcome, stdout);
    if (status != 1) {
        fprintf(stderr, "fifobench: '%s' can't shrink %s\n", of->program, history);
    }
    return status == 1 ? 1 : 2;
}

static void count_run(struct searching *of)
{
    of->events += tape->events;
    of->accesses += tape->accesses;
    of->atomics += tape->atomics;
    of->locks += tape->locks;
    count_overlap(of);
    if (tape->has_own_threads && !of->said_own_threads) {
        of->said_own_threads = true;
        erase_progress();
        fprintf(stderr, "fifobench: the queue has threads of its own, which run free: a run may not be the same "
                        "twice\n");
    }
}

// Reports that the run at hand has ended early. Returns 1 if no completion of it is linearizable, else 2.
static int finish_early(const struct searching *of, uint64_t seed, const struct outcome *outcome, const char *history,
                        const char *report)
{
    char pending[MAX_PATH_BYTES], verdict[MAX_LINE_BYTES];
    int answer = tell_early(of->settings->folder, seed, outcome, pending)
                     ? judge_pending(of->program, of->judges, pending, history, report, verdict)
                     : 2;
    if (answer == 1) {
        const char *why = ": the queue is wrong, whatever the pending calls do";
        return tell_violation(of, seed, outcome, verdict, why, history, report);
    }
    if (answer == 0) {
        remove(history);
        remove(report);
        tell_completable(of->program, pending, outcome);
    }
    tell_again(of, seed, outcome, stderr);
    return 2;
}

// One run of a search: 0, 1 or 2.
static int search_one(struct searching *of, uint64_t seed)
{
    char history[MAX_PATH_BYTES], report[MAX_PATH_BYTES];
    const char *folder = of->settings->folder;
    name_file(history, folder, seed, "history");
    name_file(report, folder, seed, "report");
    struct outcome outcome = make_run(of->settings, seed, NULL, 0);
    if (!outcome.is_wrong && outcome.ending == NOT_BEGUN && outcome.signal == 0 && !outcome.has_failed) {
        erase_progress();
        fprintf(stderr, "fifobench: seed %" PRIu64 ": there is no run\n", seed);
        return 2;
    }
    if (!outcome.is_wrong && !is_complete(&outcome)) {
        return finish_early(of, seed, &outcome, history, report);
    }
    count_run(of);
    judge(of, history, report, &outcome);
    if (outcome.is_wrong) {
        erase_progress();
        bool has_stats = strcmp(outcome.verdict, "no overtaken-at-most") != 0;
        fprintf(stderr, has_stats ? "fifobench: %s says '%s' of %s\n" : "fifobench: %s has %s in stats, which a later "
                "version has\n", of->program, outcome.verdict, history);
        return 2;
    }
    if (strncmp(outcome.verdict, "NO ", 3) == 0) {
        return tell_violation(of, seed, &outcome, outcome.verdict, "", history, report);
    }
    if (of->judges && !of->settings->keep) {
        remove(history);
    }
    if (of->judges) {
        remove(report);
    }
    return 0;
}

// Says what no violation means, and what wasn't seen.
static int tell_none(const struct searching *of, uint64_t seed, unsigned runs)
{
    printf("%s in %u runs (seeds %" PRIu64 " to %" PRIu64 ")%s, with chosen schedules; %" PRIu64
           " of 100 operations overlap another\n", of->judges ? "no violation" : "nothing judged", runs, seed,
           seed + runs - 1, told_condition, 100 * of->overlapping / (of->operations + (of->operations == 0)));
    fflush(stdout);
    if (of->accesses == 0) {
        fprintf(stderr, of->locks == 0
                            ? "fifobench: no point was seen in the queue: compile it with -fsanitize=thread\n"
                            : "fifobench: only locks were seen in the queue: compile it with -fsanitize=thread\n");
        return of->locks == 0 || !of->judges ? 2 : 0;
    }
    if (of->atomics == 0 && of->locks == 0) {
        tell_unseen();
    }
    return of->judges ? 0 : 2;
}

static const char *program_of(const struct fifobench_search *settings)
{
    const char *named = settings->program != NULL && *settings->program != '\0' ? settings->program
                                                                               : getenv("FIFOBENCH");
    return named != NULL && *named != '\0' ? named : "fifobench";
}

int fifobench_search_runs(const struct fifobench_search *settings)
{
    struct searching of = {.settings = settings, .program = program_of(settings)};
    condition_flags = settings->flags != NULL ? settings->flags : "";
    tell_condition(settings);
    unsigned runs = settings->runs != 0 ? settings->runs : DEFAULT_RUNS;
    uint64_t seed = first_seed(settings->seed);
    size_t operations = settings->operations != 0 ? settings->operations : 100;
    if (settings->threads == 0 || settings->threads > FIFOBENCH_MAX_THREADS) {
        fprintf(stderr, "fifobench: schedules are chosen for 1 to 64 threads\n");
        return 2;
    }
    tape = new_tape(4 * settings->threads * (operations + 1) + 2 * MAX_INITIAL_VALUES);
    if (tape == NULL) {
        fprintf(stderr, "fifobench: there is no memory for chosen schedules\n");
        return 2;
    }
    tape->seconds = settings->seconds != 0 ? settings->seconds : DEFAULT_SECONDS;
    make_folder(settings->folder);
    of.judges = ask(of.program, "--version", "/dev/null", "/dev/null") == 0;
    if (!of.judges) {
        fprintf(stderr, "fifobench: no program '%s': nothing is judged; the histories are kept in %s\n", of.program,
                settings->folder);
    }
    int answer = 0;
    unsigned made = 0;
    double next = seconds_now() + 2;
    for (; made < runs && answer == 0; made++) {
        show_progress(made, runs - made, &next);
        answer = search_one(&of, seed + made);
    }
    erase_progress();
    rmdir(settings->folder); // if it is empty
    answer = answer == 0 ? tell_none(&of, seed, runs) : answer;
    if (settings->keep && of.judges && answer != 2) {
        printf("  kept:    %u judged runs with %" PRIu64 " events in %s\n", made, of.events, settings->folder);
    }
    fflush(stdout);
    free_tape(tape);
    tape = NULL;
    return answer;
}

// Addresses are drawn anew for each process, and a queue that hashes one would make another run in each. So a program
// that chooses schedules begins once more without that, before anything of it has run. Where the system doesn't allow
// this, it goes on as it is.
__attribute__((constructor)) static void fix_addresses(int count, char **words, char **environment)
{
    char path[MAX_PATH_BYTES];
    int now = personality(0xffffffff);
    (void)count;
    if (now == -1 || (now & ADDR_NO_RANDOMIZE) != 0 || !fifobench_schedule_is_chosen()) {
        return;
    }
    ssize_t length = readlink("/proc/self/exe", path, sizeof path - 1);
    if (length > 0 && personality((unsigned long)now | ADDR_NO_RANDOMIZE) != -1) {
        path[length] = '\0';
        execve(path, words, environment);
    }
}
