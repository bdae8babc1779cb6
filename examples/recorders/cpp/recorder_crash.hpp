// What a run leaves if it dies: recorder.hpp includes this header if it lies beside it.
//
// A crash. While a search runs, a signal that the queue dies of (SIGSEGV, SIGBUS, SIGFPE, SIGILL, SIGABRT) lets the
// thread that waits for the run's end keep and judge what was recorded; then the process dies of the signal. Where the
// program has a handler, its own or a sanitizer's, that one stays.
//
// A kill. With Settings::journal the events reach FOLDER/SEED.pending a few milliseconds after they are noted. A
// complete run removes that file. What a killed run has left is judged by
//
//     fifobench complete --cut < fifobench-runs/7.pending | fifobench check
//
// and the next search says so, after it has renamed the file to SEED.killed.
#ifndef FIFOBENCH_RECORDER_CRASH_HPP
#define FIFOBENCH_RECORDER_CRASH_HPP

#include <pthread.h>
#include <signal.h>
#include <string.h>
#include <unistd.h>

namespace fifobench::detail {

constexpr int fatal_signals[] = {SIGSEGV, SIGBUS, SIGFPE, SIGILL, SIGABRT};

// The journal of a run, and the signal that ends it.
class Crash {
public:
    Crash(const Settings& settings, const std::deque<Thread>& threads, const std::vector<std::uint64_t>& initial,
          bool is_chosen)
        : settings_(settings), threads_(threads), initial_(initial), is_chosen_(is_chosen), stacks_(threads.size()),
          written_(threads.size()) {
        if (is_chosen_) {
            return;
        }
        if (settings.journal) {
            std::error_code ignored;
            std::filesystem::create_directories(settings.folder, ignored);
            journal_.open(path(), std::ios::binary);
            History::write_head(journal_, "fifo-pending ", initial);
            if (!journal_) {
                throw std::runtime_error("can't write " + path());
            }
        }
        now_.store(this);
    }

    ~Crash() {
        if (is_chosen_) {
            return;
        }
        now_.store(nullptr);
        std::error_code ignored;
        if (journal_.is_open()) {
            std::filesystem::remove(path(), ignored);
        }
    }

    Crash(const Crash&) = delete;
    Crash& operator=(const Crash&) = delete;

    // Called in each thread of the run before its first call. A signal is handled on a stack of its own, which a
    // sanitizer may have given the thread.
    void enter(unsigned thread) {
        mine_ = is_chosen_ ? nullptr : this;
        stack_t before{}, stack{};
        stack.ss_sp = stacks_[thread].data();
        stack.ss_size = stacks_[thread].size();
        if (!is_chosen_ && ::sigaltstack(nullptr, &before) == 0 && (before.ss_flags & SS_DISABLE) != 0) {
            ::sigaltstack(&stack, nullptr);
        }
    }

    // Appends the new events to the journal, and ends the process if a thread has died.
    void look() {
        if (const int number = signal_.load(); number != 0) {
            die(number);
        }
        if (journal_.is_open()) {
            while (write_next()) {
            }
            journal_.flush();
        }
    }

    // Lets the run be judged before a thread dies of a signal. Waits a minute at most: judging may need its lock.
    static void handle(int number) {
        Crash* const crash = mine_ != nullptr ? mine_ : now_.load();
        int none = 0;
        const bool is_first = crash != nullptr && crash->signal_.compare_exchange_strong(none, number);
        if (crash != nullptr && ::pthread_equal(::pthread_self(), crash->waits_) == 0) {
            for (unsigned left = 60; left > 0;) {
                left = ::sleep(left);
            }
        } else if (is_first) {
            return;    // from outside, as by kill, to the thread that waits
        }
        ::signal(number, SIG_DFL);
        ::raise(number);
    }

private:
    std::string path() const { return Judge(settings_).path(".pending"); }

    // Writes the next event if it is published. Tickets have no gap, so some thread has it next.
    bool write_next() {
        for (std::size_t number = 0; number < threads_.size(); ++number) {
            const Log& log = threads_[number].log();
            std::size_t& place = written_[number];
            if (place < log.count() && log[place].ticket == ticket_) {
                History::write_event(journal_, threads_[number].number(), log[place++]);
                ++ticket_;
                return true;
            }
        }
        return false;
    }

    [[noreturn]] void die(int number) const {
        try {
            Judge(settings_).end_early(History(threads_, initial_), std::string("crash: ") + ::strsignal(number),
                                       "The crash itself is the fault.");
        } catch (const std::exception& exception) {
            std::cerr << "fifobench: " << exception.what() << std::endl;
        }
        std::cout.flush();
        ::signal(number, SIG_DFL);
        ::raise(number);
        std::abort();
    }

    static inline std::atomic<Crash*> now_{nullptr};       // the run that is waited for
    static inline thread_local Crash* mine_ = nullptr;    // that of this thread

    const Settings settings_;
    const std::deque<Thread>& threads_;
    const std::vector<std::uint64_t>& initial_;
    const bool is_chosen_;    // the schedule: then the run has a process of its own
    const pthread_t waits_ = ::pthread_self();
    std::atomic<int> signal_{0};    // that a thread has died of
    std::vector<std::array<char, 1 << 16>> stacks_;
    std::ofstream journal_;
    std::vector<std::size_t> written_;    // how many events of each thread are in the journal
    std::uint64_t ticket_ = 0;            // of the next one
};

// The signals of a search, handled while it lasts. Names the texts that killed runs of an earlier one have left.
class Watch {
public:
    Watch(const Settings& settings, unsigned runs) {
        const std::string program = Judge(settings).program();
        Settings one = settings;
        for (unsigned made = 0; made < runs; ++made, ++one.seed) {
            const std::string from = Judge(one).path(".pending"), to = Judge(one).path(".killed");
            if (is_cut(from) && std::rename(from.c_str(), to.c_str()) == 0) {
                std::cerr << "fifobench: seed " << one.seed << " was killed in an earlier search\n"
                          << "  judge:   " << program << " complete --cut < " << to << " | " << program << " check"
                          << std::endl;
            }
        }
        for (const int number : fatal_signals) {
            struct sigaction before {}, handles {};
            handles.sa_handler = Crash::handle;
            handles.sa_flags = SA_ONSTACK;
            ::sigaction(number, nullptr, &before);
            if ((before.sa_flags & SA_SIGINFO) == 0 && before.sa_handler == SIG_DFL) {
                ::sigaction(number, &handles, nullptr);
                handled_.push_back(number);
            }
        }
    }

    ~Watch() {
        for (const int number : handled_) {
            ::signal(number, SIG_DFL);
        }
    }

    Watch(const Watch&) = delete;
    Watch& operator=(const Watch&) = delete;

private:
    // Returns whether a text lacks its last line, as a killed run leaves it.
    static bool is_cut(const std::string& path) {
        std::ifstream file(path, std::ios::binary);
        std::string line, last;
        while (std::getline(file, line)) {
            last = file.eof() ? "" : line;
        }
        return std::filesystem::exists(path) && last.rfind("end ", 0) != 0;
    }

    std::vector<int> handled_;
};

}    // namespace fifobench::detail

#endif
