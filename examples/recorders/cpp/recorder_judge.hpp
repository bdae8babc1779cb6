// What a search asks of the program, and the files of its runs: histories, reports, and the texts of runs that end
// early. recorder.hpp includes it; it lies beside that.
#ifndef FIFOBENCH_RECORDER_JUDGE_HPP
#define FIFOBENCH_RECORDER_JUDGE_HPP

#include "recorder.hpp"

#if __has_include(<unistd.h>)
#include <unistd.h>
#endif

namespace fifobench::detail {

// How far a search is, on a terminal: from two seconds on, until something else is printed.
class Progress {
public:
    ~Progress() { erase(); }

    void show(unsigned done, unsigned left) {
        const auto now = std::chrono::steady_clock::now();
        if (is_terminal() && now >= next_) {
            next_ = now + std::chrono::milliseconds(200);
            is_shown() = true;
            std::cerr << "\rfifobench: " << done << " runs done, " << left << " left, 0 found\033[K" << std::flush;
        }
    }

    static void erase() {
        if (is_shown().exchange(false)) {
            std::cerr << "\r\033[K" << std::flush;
        }
    }

private:
    static std::atomic<bool>& is_shown() {
        static std::atomic<bool> is_shown{false};
        return is_shown;
    }

    static bool is_terminal() {
#if __has_include(<unistd.h>)
        return isatty(2) != 0;
#else
        return false;
#endif
    }

    std::chrono::steady_clock::time_point next_ = std::chrono::steady_clock::now() + std::chrono::seconds(2);
};

// The condition of a search and its bound, as its answer has them, if they aren't the default.
inline std::string told_condition(const Settings& settings) {
    const bool is_default = settings.condition == Condition::Linearizable;
    const std::string name = condition_names[static_cast<unsigned>(settings.condition)];
    return (is_default ? "" : ", condition " + name) +
           (settings.overtaken_at_most ? ", overtaken-at-most " + std::to_string(*settings.overtaken_at_most) : "");
}

// The program, and the files of a run that it judges.
class Judge {
public:
    explicit Judge(const Settings& of) : settings_(of), program_(of.program) {
        const char* const named = std::getenv("FIFOBENCH");
        program_ = !program_.empty() ? program_ : named != nullptr && *named != '\0' ? named : "fifobench";
    }

    const std::string& program() const { return program_; }
    bool is_there() const { return ask("--version", "/dev/null", "/dev/null").first == 0; }
    std::string path(const char* kind) const { return settings_.folder + "/" + std::to_string(settings_.seed) + kind; }

    // Writes the text of a run. Replaces an older file, since a journal may still be written to it.
    std::string keep(const History& history, const char* kind) const {
        std::error_code ignored;
        std::filesystem::create_directories(settings_.folder, ignored);
        std::filesystem::remove(path(kind), ignored);
        std::ofstream file(path(kind), std::ios::binary);
        history.write(file);
        if (!file) {
            throw std::runtime_error("can't write " + path(kind));
        }
        return path(kind);
    }

    // Keeps a run of a search, and has it judged. Returns 0, 1 or 2.
    int answer(const History& history, bool judges) const {
        if (history.has_failed()) {
            const char* const fault = "If the queue promises not to throw, the exception itself is the fault.";
            return end_early(history, history.notes().front(), fault);
        }
        for (const std::string& sentence : history.notes()) {
            Progress::erase();
            std::cerr << "fifobench: seed " << settings_.seed << ": " << sentence << std::endl;
        }
        keep(history, ".history");
        return judges ? check(false) : 0;
    }

    // Judges the history that is kept, which may be a completion of pending calls. Returns 0, 1 or 2.
    int check(bool is_completed) const {
        const std::string history = path(".history"), report = path(".report");
        const auto [answer, verdict] = is_completed ? checked(history, report) : bounded(history, report);
        const bool is_undecided = answer == 1 && is_completed && !told_condition(settings_).empty();
        if (answer == 0 || is_undecided) {
            if (!settings_.keep || is_completed) std::filesystem::remove(history);
            std::filesystem::remove(report);
        }
        if (answer == 0) {
            return 0;
        }
        Progress::erase();
        if (is_undecided) {
            std::cerr << "fifobench: " << verdict << " of one completion" << told_condition(settings_)
                      << ": another one may be a YES" << std::endl;
        } else if (answer == 2) {
            std::cerr << "fifobench: " << program_ << verdict << std::endl;
        } else {
            tell_violation(verdict, history, report, is_completed);
        }
        return is_undecided ? 2 : answer;
    }

    // Keeps the report of a violation, and says where it is and how it can be seen.
    void tell_violation(const std::string& verdict, const std::string& history, const std::string& report,
                        bool is_completed) const {
        const std::string seed = std::to_string(settings_.seed), pattern = name_of(settings_.pattern_of_seed());
        std::cout << verdict << ": seed " << seed << ", " << pattern
                  << (is_completed ? ": the queue is wrong, whatever the pending calls do" : "")
                  << "\n  history: " << history;
        if (verdict.rfind("NO overtaken-at-most ", 0) == 0) {
            std::cout << "\n  dequeue: " << overtaking(history, report) << "\n  see it:  " << program_
                      << " stats --overtakes < " << history;
        } else {
            ask("shrink", history, report);
            std::cout << "\n  report:  " << report << "\n  see it:  " << program_ << ' '
                      << with_flags("draw --text") << " < " << report << drawn_in(history);
        }
        std::cout << "\n  again:   seed " << seed << ", pattern " << pattern
                  << ": the same plan, though threads may meet in another way" << std::endl;
    }

    // The second command of `see it:`, which draws the violation with what runs beside it: the report leaves that out.
    // `draw` refuses more than 400 operations; then there is none.
    std::string drawn_in(const std::string& history) const {
        for (const std::string command : {"draw --text --around 20", "draw --text"}) {
            if (ask(command, history, "/dev/null").first == 0) {
                return "\n           " + program_ + ' ' + with_flags(command) + " < " + history;
            }
        }
        return "";
    }

    // Keeps what there is of a run that ends early, says how it ended, and judges it: 1 or 2. The fault follows YES.
    int end_early(const History& history, const std::string& how, const std::string& fault) const {
        Progress::erase();
        std::cerr << "fifobench: seed " << settings_.seed << ": " << how << "; " << history.told_open() << std::endl;
        const std::string pending = keep(history, ".pending");
        std::cerr << "  pending: " << pending << std::endl;
        const auto [status, first] = ask("complete", pending, path(".history"));
        if (status == 0) {
            const int answer = check(true);
            if (answer == 0) {
                const std::string drawn = program_ + " draw --text < " + pending;
                std::cerr << "YES: a right queue can have behaved so until then. " << fault << "\n  see it:  "
                          << (history.is_drawn() ? drawn : "tail -n 40 < " + pending) << std::endl;
            }
            return answer == 1 ? 1 : 2;
        }
        std::filesystem::remove(path(".history"));
        const bool is_refused = first.rfind("REFUSED ", 0) == 0;
        if (is_refused || is_there()) {
            std::cerr << "fifobench: " << program_
                      << (is_refused ? " says '" + first + "' of " + pending
                                     : std::string(" has no command complete, which a later version has")) << '\n';
        }
        std::cerr << "  judge:   " << program_ << " complete < " << pending << " | " << program_ << ' '
                  << with_flags("check") << std::endl;
        return 2;
    }

private:
    // 0: `YES`; 1: `NO`, with its line; 2: neither, with what the program does in place of that.
    using Verdict = std::pair<int, std::string>;

    // What `check` says of a history, by the condition of the settings.
    Verdict checked(const std::string& history, const std::string& to) const {
        const auto [status, line] = ask("check", history, to);
        if ((status == 0 && line == "YES") || (status == 1 && line.rfind("NO ", 0) == 0)) {
            return {status, line};
        }
        return {2, " says '" + line + "' of " + history};
    }

    // The same, and by the bound of the settings on overtaking. A bound judges the order of values in place of `check`,
    // but for that of each producer's own.
    Verdict bounded(const std::string& history, const std::string& to) const {
        const Verdict verdict = checked(history, to);
        const bool is_local = settings_.condition == Condition::Local || settings_.condition == Condition::Both;
        if (!settings_.overtaken_at_most || verdict.first == 2 ||
            (verdict.first == 1 && (is_local || verdict.second != "NO VOrd"))) {
            return verdict;
        }
        ask("stats", history, to);
        std::ifstream stats(to);
        std::string name;
        for (std::uint64_t most; stats >> name;) {
            if (name == "overtaken-at-most" && stats >> most) {
                const std::string bound = std::to_string(*settings_.overtaken_at_most);
                const bool is_met = most <= *settings_.overtaken_at_most;
                return is_met ? Verdict{0, "YES"} : Verdict{1, "NO overtaken-at-most " + bound};
            }
        }
        return {2, " has no overtaken-at-most in stats, which a later version has"};
    }

    // The dequeue that overtakes most.
    std::string overtaking(const std::string& history, const std::string& to) const {
        ask("stats --overtakes", history, to);
        std::ifstream stats(to);
        std::string line, more, told = "not named by " + program_;
        std::uint64_t most = 0, count = 0, ticket = 0, value = 0;
        while (std::getline(stats, line)) {
            std::istringstream words(line);
            if (words >> count >> ticket >> value && !(words >> more) && count > most) {
                most = count;
                told = "that of " + std::to_string(value) + ", called at ticket " + std::to_string(ticket) +
                       ", overtakes " + std::to_string(count) + " values";
            }
        }
        std::filesystem::remove(to);
        return told;
    }

    // A command, with the flags that are the condition of the settings.
    std::string with_flags(const std::string& command) const {
        static const char* const flags[] = {"", " --local", " --weak-empty", " --local --weak-empty"};
        const bool has_flags = command.rfind("check", 0) == 0 || command.rfind("shrink", 0) == 0 ||
                               command.rfind("draw", 0) == 0;
        return has_flags ? command + flags[static_cast<unsigned>(settings_.condition)] : command;
    }

    // Runs a command of the program. Returns its status, or -1, and the first line of its output.
    std::pair<int, std::string> ask(const std::string& command, const std::string& from, const std::string& to) const {
        const std::string files = " <'" + from + "' >'" + to + "' 2>/dev/null";
        const int status = std::system(("'" + program_ + "' " + with_flags(command) + files).c_str());
        std::string first;
        std::getline(std::ifstream(to), first);
        return {status % 256 == 0 ? status / 256 : -1, first};    // as POSIX has it
    }

    const Settings settings_;
    std::string program_;
};

}    // namespace fifobench::detail

#endif
