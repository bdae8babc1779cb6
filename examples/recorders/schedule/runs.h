// Runs in child processes, and what `check` says of them. A part of schedule.c.

// How a run ended: two runs of one kind show the same.
struct outcome {
    enum ending ending;
    int signal; // that ended the child, or 0
    bool has_failed;
    bool is_wrong;    // nothing can be said of it
    char verdict[80]; // of `check`, of a complete run; empty if nothing judges
};

struct searching {
    const struct fifobench_search *settings;
    const char *program;
    bool judges;
    bool said_own_threads;
    uint64_t accesses, atomics, locks;
    uint64_t operations, overlapping, events;
};

enum { DEFAULT_RUNS = 300, DEFAULT_SECONDS = 30, MAX_PATH_BYTES = 4096, MAX_LINE_BYTES = 1024, MAX_WORDS = 10 };

static void cut_at(char *line, const char *ends)
{
    line[strcspn(line, ends)] = '\0';
}

static void name_file(char path[MAX_PATH_BYTES], const char *folder, uint64_t seed, const char *kind)
{
    snprintf(path, MAX_PATH_BYTES, "%s/%" PRIu64 ".%s", folder, seed, kind);
}

static void make_folder(const char *folder)
{
    char path[MAX_PATH_BYTES];
    snprintf(path, sizeof path, "%s", folder);
    for (char *at = path + 1; *at != '\0'; at++) {
        if (*at == '/') {
            *at = '\0';
            mkdir(path, 0777);
            *at = '/';
        }
    }
    mkdir(path, 0777);
}

// The flags of `check`, `shrink` and `draw` that are the condition of the search.
static const char *condition_flags = "";

static const char *flags_of(const char *command)
{
    bool has_flags = strncmp(command, "check", 5) == 0 || strncmp(command, "shrink", 6) == 0 ||
                     strncmp(command, "draw", 4) == 0;
    return has_flags ? condition_flags : "";
}

// Runs a command of the program, with its options, from and to a file. Returns its status, or -1.
static int ask(const char *program, const char *command, const char *from, const char *to)
{
    int status = 0, count = 1;
    char copy[MAX_LINE_BYTES];
    char *words[MAX_WORDS + 1] = {(char *)program};
    snprintf(copy, sizeof copy, "%s%s", command, flags_of(command));
    for (char *word = strtok(copy, " "); word != NULL && count < MAX_WORDS; word = strtok(NULL, " ")) {
        words[count++] = word;
    }
    fflush(NULL);
    pid_t child = fork();
    if (child == 0) {
        int in = open(from, O_RDONLY), none = open("/dev/null", O_WRONLY);
        int out = open(to, O_WRONLY | O_CREAT | O_TRUNC, 0666);
        if (in >= 0 && out >= 0 && none >= 0 && dup2(in, 0) == 0 && dup2(out, 1) == 1 && dup2(none, 2) == 2) {
            execvp(program, words);
        }
        _exit(127);
    }
    while (child > 0 && waitpid(child, &status, 0) < 0 && errno == EINTR) {
    }
    return child > 0 && WIFEXITED(status) ? WEXITSTATUS(status) : -1;
}

static void read_first_line(const char *path, char *line, int room)
{
    FILE *file = fopen(path, "r");
    if (file == NULL || fgets(line, room, file) == NULL) {
        line[0] = '\0';
    }
    cut_at(line, "\n");
    if (file != NULL) {
        fclose(file);
    }
}

// The number of operations of each thread: few and many, by the seed.
static size_t operations_of(const struct fifobench_search *search, uint64_t seed)
{
    static const size_t counts[] = {100, 100, 60, 40, 25, 12};
    uint64_t state = seed ^ UINT64_C(0xA0761D6478BD642F);
    return search->operations != 0 ? search->operations : counts[next_random(&state) % 6];
}

// Makes one run in a child process: by the seed's strategy, or with these decisions.
static struct outcome make_run(const struct fifobench_search *search, uint64_t seed, const struct decision *wanted,
                               size_t wanted_count)
{
    struct outcome outcome = {0};
    int status = 0;
    clear_tape(tape);
    fflush(NULL);
    pid_t child = fork();
    if (child == 0) {
        run.is_child = true;
        run.wanted = wanted;
        run.wanted_count = wanted_count;
        atomic_store(&created_threads, 0);
        alarm(tape->seconds);
        search->run(search->context, seed, operations_of(search, seed));
        fflush(NULL);
        _exit(0);
    }
    while (child > 0 && waitpid(child, &status, 0) < 0 && errno == EINTR) {
    }
    outcome.is_wrong = child < 0 || tape->events > tape->max_events;
    outcome.signal = child > 0 && WIFSIGNALED(status) ? WTERMSIG(status) : 0;
    outcome.ending = tape->ending;
    outcome.has_failed = tape->has_failed;
    return outcome;
}

// Whether a dequeue of the run in a file overtakes more values than the settings allow; no outcome if `stats` doesn't
// say. A bound judges the order of values in place of `check`, but for that of each producer's own.
static void judge_overtaking(const struct searching *of, const char *history, const char *report,
                             struct outcome *outcome)
{
    bool is_local = strstr(condition_flags, "--local") != NULL, is_found = false;
    bool is_ordered = strcmp(outcome->verdict, "YES") != 0 && (is_local || strcmp(outcome->verdict, "NO VOrd") != 0);
    char line[MAX_LINE_BYTES];
    uint64_t most = 0;
    if (!of->settings->is_bounded || is_ordered || outcome->is_wrong) {
        return;
    }
    FILE *stats = ask(of->program, "stats", history, report) == 0 ? fopen(report, "r") : NULL;
    while (stats != NULL && !is_found && fgets(line, sizeof line, stats) != NULL) {
        is_found = sscanf(line, "overtaken-at-most %" SCNu64, &most) == 1;
    }
    if (stats != NULL) {
        fclose(stats);
    }
    outcome->is_wrong = !is_found;
    snprintf(outcome->verdict, sizeof outcome->verdict, "YES");
    if (!is_found) {
        snprintf(outcome->verdict, sizeof outcome->verdict, "no overtaken-at-most");
    } else if (most > of->settings->overtaken_at_most) {
        snprintf(outcome->verdict, sizeof outcome->verdict, "NO overtaken-at-most %" PRIu64,
                 of->settings->overtaken_at_most);
    }
}

// Has a complete run judged.
static void judge(const struct searching *of, const char *history, const char *report, struct outcome *outcome)
{
    outcome->is_wrong = outcome->is_wrong || !write_tape_to(tape, history);
    if (outcome->is_wrong || !of->judges) {
        return;
    }
    int status = ask(of->program, "check", history, report);
    read_first_line(report, outcome->verdict, sizeof outcome->verdict);
    bool is_yes = status == 0 && strcmp(outcome->verdict, "YES") == 0;
    outcome->is_wrong = !is_yes && (status != 1 || strncmp(outcome->verdict, "NO ", 3) != 0);
    judge_overtaking(of, history, report, outcome);
}

static bool is_complete(const struct outcome *outcome)
{
    return outcome->ending == COMPLETE && outcome->signal == 0 && !outcome->has_failed;
}
