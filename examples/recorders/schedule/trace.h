// Places in the source, and the sentences of a trace. A part of schedule.c.

// The file in which the code at an address lies, and the address within it. False if it isn't known.
static bool find_object(uintptr_t address, char file[MAX_PATH_BYTES], uintptr_t *within)
{
    Dl_info object;
    if (address == 0 || dladdr((void *)address, &object) == 0 || object.dli_fname == NULL) {
        return false;
    }
    const ElfW(Ehdr) *head = object.dli_fbase;
    *within = head->e_type == ET_DYN ? address - (uintptr_t)object.dli_fbase : address;
    ssize_t length = -1;
    Dl_info own;
    if (dladdr((void *)(uintptr_t)find_object, &own) != 0 && own.dli_fbase == object.dli_fbase) {
        length = readlink("/proc/self/exe", file, MAX_PATH_BYTES - 1);
    }
    if (length > 0) {
        file[length] = '\0';
    } else {
        snprintf(file, MAX_PATH_BYTES, "%s", object.dli_fname);
    }
    return true;
}

// Whether a file is one of the language's own library, or schedule.rs with its atomics and locks: its lines say less
// than that of the caller.
static bool is_library(const char *path)
{
    return strstr(path, "/c++/") != NULL || strstr(path, "/lib/gcc/") != NULL || strstr(path, "/lib/clang/") != NULL ||
           strstr(path, "/lib/llvm") != NULL || strstr(path, "/library/core/") != NULL ||
           strstr(path, "/library/std/") != NULL || strstr(path, "/library/alloc/") != NULL ||
           strstr(path, "/schedule.rs") != NULL;
}

// Reads what addr2line says of one address: pairs of a function and a line, the innermost first. Takes the first that
// isn't the library's.
static bool read_place(FILE *said, char function[MAX_LINE_BYTES], char line[MAX_LINE_BYTES])
{
    char next_function[MAX_LINE_BYTES], next_line[MAX_LINE_BYTES];
    bool is_found = false, is_own = false;
    while (fgets(next_function, sizeof next_function, said) != NULL &&
           fgets(next_line, sizeof next_line, said) != NULL) {
        if (!is_own && next_line[0] != '?') {
            cut_at(next_function, "\n");
            cut_at(next_line, " \n");
            is_own = !is_library(next_line);
            if (is_own || !is_found) {
                memcpy(function, next_function, MAX_LINE_BYTES);
                memcpy(line, next_line, MAX_LINE_BYTES);
            }
            is_found = true;
        }
    }
    return is_found;
}

// Shortens a function's name: no arguments, no template's values, no type in front.
static void shorten(char *function)
{
    unsigned depth = 0;
    char *to = function;
    for (const char *at = function; *at != '\0' && (*at != '(' || depth > 0); at++) {
        depth += *at == '<';
        if (depth == 0) {
            *to++ = *at;
        }
        depth -= *at == '>' && depth > 0;
    }
    *to = '\0';
    const char *space = strstr(function, "operator") == NULL ? strrchr(function, ' ') : NULL;
    if (space != NULL) {
        memmove(function, space + 1, strlen(space));
    }
}

// Writes `file:line (function)` for the code before a return address; `an unknown place` without debugging data.
static void find_place(uintptr_t from, char *place, size_t room)
{
    char file[MAX_PATH_BYTES], command[2 * MAX_PATH_BYTES], function[MAX_LINE_BYTES], line[MAX_LINE_BYTES];
    uintptr_t within = 0;
    bool is_found = false;
    if (from != 0 && find_object(from - 1, file, &within) && strchr(file, '\'') == NULL) {
        snprintf(command, sizeof command, "addr2line -f -C -i -e '%s' 0x%" PRIxPTR " 2>/dev/null", file, within);
        FILE *said = popen(command, "r");
        is_found = said != NULL && read_place(said, function, line);
        if (said != NULL) {
            pclose(said);
        }
    }
    if (!is_found) {
        snprintf(place, room, "an unknown place (compile with -g, and install addr2line)");
        return;
    }
    const char *name = strrchr(line, '/');
    shorten(function);
    snprintf(place, room, "%.200s (%.400s)", name != NULL ? name + 1 : line, function);
}

enum { KNOWN_PLACES = 64 };

// As find_place, which takes long; so the places that were found last are kept.
static void name_place(uintptr_t from, char *place, size_t room)
{
    static struct {
        uintptr_t from;
        char place[MAX_LINE_BYTES];
    } known[KNOWN_PLACES];
    size_t at = from / 4 % KNOWN_PLACES;
    if (known[at].from != from || from == 0) {
        known[at].from = from;
        find_place(from, known[at].place, sizeof known[at].place);
    }
    snprintf(place, room, "%s", known[at].place);
}

static void tell_event(const struct tape *of, size_t ticket, FILE *to)
{
    const struct event *event = &of->event[ticket];
    fprintf(to, "%6zu  thread %u ", ticket, event->thread);
    switch (event->what) {
    case FIFOBENCH_SCHEDULE_CALL_ENQ: fprintf(to, "calls enqueue of %" PRIu64 "\n", event->value); break;
    case FIFOBENCH_SCHEDULE_RET_ENQ: fprintf(to, "returns: the value is enqueued\n"); break;
    case FIFOBENCH_SCHEDULE_RET_NOT: fprintf(to, "returns: the enqueue has failed\n"); break;
    case FIFOBENCH_SCHEDULE_CALL_DEQ: fprintf(to, "calls dequeue\n"); break;
    case FIFOBENCH_SCHEDULE_RET_DEQ: fprintf(to, "returns: %" PRIu64 " is dequeued\n", event->value); break;
    default: fprintf(to, "returns: the queue is empty\n"); break;
    }
}

// A decision as a sentence: where its thread stops, and who goes on.
static void tell_decision(const struct decision *made, FILE *to)
{
    static const char *const before[] = {"before it reads", "before it writes", "before a load", "before a store",
                                         "before a read-modify-write or a lock", "before a fence"};
    char place[MAX_LINE_BYTES] = "";
    if (made->from != 0) {
        name_place(made->from, place, sizeof place);
    }
    fprintf(to, "        ");
    if (made->thread == FIRST_TURN) {
        fprintf(to, "thread %u begins\n", made->to);
        return;
    }
    fprintf(to, "thread %u ", made->thread);
    if (made->to == STORE_WAITS) {
        fprintf(to, "stores at %s, and no other thread sees it yet\n", place);
        return;
    }
    if (made->to == STORE_IS_SEEN) {
        fprintf(to, "goes on until what it stored is seen\n");
        return;
    }
    if (made->access == ENDS) {
        fprintf(to, made->is_forced ? "has made its last operation" : "stops between two operations");
    } else if (made->access == WAITS) {
        fprintf(to, made->from != 0 ? "waits at %s" : "waits for all others", place);
    } else if (made->access == RESTS) {
        fprintf(to, "yields or sleeps at %s", place);
    } else if (made->is_forced) {
        fprintf(to, "goes round at %s", place);
    } else {
        fprintf(to, "stops at %s, %s", place, before[made->access]);
    }
    fprintf(to, made->to == made->thread ? "; it goes on\n" : "; thread %u goes on\n", made->to);
}

enum { TOLD_DECISIONS = 128 };

// Whether a decision is worth a line: not one that changes nothing, nor another round of threads that wait for one
// another.
static bool is_news(const struct decision *made, struct decision told[TOLD_DECISIONS], size_t *count)
{
    if (made->to == made->thread) {
        return false;
    }
    for (size_t place = 0; made->is_forced && place < *count; place++) {
        if (told[place].thread == made->thread && told[place].to == made->to && told[place].from == made->from) {
            return false;
        }
    }
    if (made->is_forced && *count < TOLD_DECISIONS) {
        told[(*count)++] = *made;
    }
    return !made->is_forced || *count < TOLD_DECISIONS;
}

// Writes the events that are kept and the decisions, in the order in which they were. Switches of threads that couldn't
// go on are written between these events only.
static void tell_trace(const struct tape *of, const bool *is_kept, FILE *to)
{
    struct decision told[TOLD_DECISIONS];
    size_t first = of->events, last = 0;
    for (size_t ticket = 0; ticket < of->events; ticket++) {
        first = is_kept[ticket] && ticket < first ? ticket : first;
        last = is_kept[ticket] ? ticket : last;
    }
    last = of->ending == COMPLETE ? last : of->events;
    size_t next = 0, count = 0, decisions = of->decisions < MAX_DECISIONS ? of->decisions : MAX_DECISIONS;
    for (size_t ticket = 0; ticket <= of->events; ticket++) {
        while (next < decisions && of->decision[next].event <= ticket) {
            const struct decision *made = &of->decision[next++];
            bool is_between = made->event > first && made->event <= last;
            if ((!made->is_forced || is_between) && is_news(made, told, &count)) {
                tell_decision(made, to);
            }
        }
        if (ticket < of->events && is_kept[ticket]) {
            tell_event(of, ticket, to);
        }
    }
}
