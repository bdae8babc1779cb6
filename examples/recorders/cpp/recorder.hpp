// Records what threads do with a FIFO queue, and has `fifobench check` judge it. C++17, this header and
// recorder_judge.hpp; link with -pthread.
//
//     struct Mine {    // a queue of yours
//         my::queue<std::uint64_t> queue;
//         bool enqueue(std::uint64_t value) { return queue.push(value); }        // false: refused, the queue is full
//         std::optional<std::uint64_t> dequeue() { return queue.try_pop(); }     // std::nullopt: empty
//     };
//     int main() { return fifobench::search<Mine>(); }
//
// `search` makes 100 short runs of four threads, each over a fresh queue, and has each judged. It returns 0 if no run
// shows a violation; 1 if one does, whose files are in the folder fifobench-runs; 2 if something is wrong. The
// program is Settings::program, else the environment's FIFOBENCH, else `fifobench` on the PATH. Beside these two
// calls a queue may have
//     void enter(unsigned thread)           in each thread before its first call
//     void leave(unsigned thread)           in each thread after its last call
//     bool preload(std::uint64_t value)     puts a value in before the run; without it `enqueue` does
// docs/RECORDING.md has a loop of your own and the rules that this header keeps, kinds.cpp queues of other kinds. With
// recorder_crash.hpp beside this header a run that crashes or is killed leaves a text too.
#ifndef FIFOBENCH_RECORDER_HPP
#define FIFOBENCH_RECORDER_HPP

#include <algorithm>
#include <array>
#include <atomic>
#include <chrono>
#include <cstdint>
#include <cstdlib>
#include <deque>
#include <exception>
#include <filesystem>
#include <fstream>
#include <functional>
#include <iostream>
#include <iterator>
#include <map>
#include <memory>
#include <mutex>
#include <optional>
#include <sstream>
#include <stdexcept>
#include <string>
#include <system_error>
#include <thread>
#include <type_traits>
#include <utility>
#include <vector>
#ifdef __linux__
#include <sched.h>
#endif

#if __has_include("schedule/for_recorder.hpp")
#include "schedule/for_recorder.hpp"
#elif __has_include("../schedule/for_recorder.hpp")
#include "../schedule/for_recorder.hpp"
#else    // threads run as the system lets them
#define FIFOBENCH_POINTS(call) ((void)0)
#define FIFOBENCH_IF_CHOSEN(call) ((void)0)
#endif

namespace fifobench {

constexpr unsigned max_threads = 64;
constexpr std::size_t max_events = 2'000'000, max_initial = 100'000;

enum class What : std::uint8_t { CallEnq, RetEnq, RetNot, CallDeq, RetDeq, RetEmpty };

// The words of the events, as a history text has them.
constexpr const char* words[] = {"call-enq", "ret-enq", "ret-not", "call-deq", "ret-deq", "ret-empty"};

struct Event {
    std::uint64_t ticket;
    std::uint64_t value;    // of CallEnq and RetDeq
    What what;
};

// Which operations a thread makes. Alternate: enqueue, dequeue, and so on. Mix: a percentage of enqueues, by the
// seed. Bursts: 1 to 32 enqueues, by the seed, and then as many dequeues. Roles: threads of even number enqueue, the
// others dequeue; one thread alone alternates.
enum class Pattern { Alternate, Mix, Bursts, Roles };
constexpr const char* pattern_names[] = {"alternate", "mix", "bursts", "roles"};
inline const char* name_of(Pattern pattern) { return pattern_names[static_cast<unsigned>(pattern)]; }

// What a history has to meet. Local: the values of each producer alone are in order. WeakEmpty: an empty dequeue
// promises nothing. docs/RECORDING.md says which queues promise no more.
enum class Condition { Linearizable, Local, WeakEmpty, Both };
constexpr const char* condition_names[] = {"linearizable", "local", "weak-empty", "both"};

struct Settings {
    unsigned threads = 4;
    std::size_t operations = 0;          // of each thread; 0: by the seed, 500, 100 or 2,500
    std::optional<Pattern> pattern;      // if none, that of the seed: 1 alternates, 2 mixes, and so on
    unsigned producers = 0;              // threads 0 to producers - 1 enqueue, the others dequeue; 0: by the pattern
    unsigned percent = 50;               // of enqueues in a mix
    std::uint64_t seed = 1;              // of a run; the first of a search
    unsigned runs = 0;                   // of a search; 0: 100, or 300 with chosen schedules
    std::chrono::milliseconds timeout{30'000};    // a run without an event for so long hangs
    std::uint64_t first = 0;             // is added to each value: for queues that take 0 as `nothing`
    std::size_t initial = 0;             // values that the queue is given before the run; before your own loop by you
    bool drain = true;                   // at the end the queue is dequeued until it says that it is empty
    bool choose = true;                  // schedules, if schedule.c is linked; else its points disturb the threads
    bool journal = false;                // with recorder_crash.hpp: events reach a file while the run goes on
    bool keep = false;                   // a search keeps the histories without a violation too
    Condition condition = Condition::Linearizable;
    std::optional<std::uint64_t> overtaken_at_most;    // more values that one dequeue overtakes are a violation
    std::string program, folder = "fifobench-runs";    // that judges; of the files

    // The value of the n-th operation of a thread, and that of initial value n with the thread 64. All have to
    // differ. If there is none, values are thread * 2^32 + first + n, and the initial ones 2^38 + n.
    std::function<std::uint64_t(unsigned thread, std::uint64_t n)> value;

    std::uint64_t value_of(unsigned thread, std::uint64_t n) const {
        return value ? value(thread, n) : (std::uint64_t{thread} << 32) + (thread < max_threads ? first : 0) + n;
    }

    // The values that the queue holds first. Before a loop of your own you put them in, in this order.
    std::vector<std::uint64_t> initial_values() const {
        std::vector<std::uint64_t> values;
        for (std::size_t n = 0; n < initial; ++n) {
            values.push_back(value_of(max_threads, n));
        }
        return values;
    }

    // Seeds 1 to 4 have 500, 5 to 8 have 100, 9 to 12 have 500, and 13 to 16 have 2,500, which let a ring of 1,024
    // places go round; and so on.
    std::size_t operations_of_seed() const {
        constexpr std::size_t sizes[] = {2'500, 500, 100, 500};
        return operations != 0 ? operations : sizes[(seed + 3) / 4 % 4];
    }
    Pattern pattern_of_seed() const { return pattern.value_or(producers ? Pattern::Roles : Pattern((seed + 3) % 4)); }
};

namespace detail {

// The operations of one thread by a pattern, one after another.
class Plan {
public:
    Plan(const Settings& of, unsigned thread) : settings_(of), thread_(thread), state_(of.seed * 64 + thread) {}

    bool next_is_enqueue() {
        const std::uint64_t n = made_++;
        switch (settings_.pattern_of_seed()) {
        case Pattern::Alternate: return n % 2 == 0;
        case Pattern::Mix: return random() % 100 < settings_.percent;
        case Pattern::Roles:
            return settings_.producers > 0 ? thread_ < settings_.producers
                                           : (settings_.threads == 1 ? n : thread_) % 2 == 0;
        case Pattern::Bursts: break;
        }
        if (n == begin_ + 2 * length_) {
            begin_ = n;
            length_ = 1 + random() % 32;
        }
        return n < begin_ + length_;
    }

private:
    // Vigna's splitmix64: a seed gives the same plan in each language's recorder.
    std::uint64_t random() {
        std::uint64_t z = state_ += 0x9E3779B97F4A7C15;
        z = (z ^ (z >> 30)) * 0xBF58476D1CE4E5B9;
        z = (z ^ (z >> 27)) * 0x94D049BB133111EB;
        return z ^ (z >> 31);
    }

    const Settings& settings_;
    unsigned thread_;
    std::uint64_t state_, made_ = 0, begin_ = 0, length_ = 0;    // the operations, and those of the burst
};

// Whether the queue took a value. A call without an answer took it.
template <class Call>
bool took(Call call) {
    if constexpr (std::is_void_v<decltype(call())>) {
        return call(), true;
    } else {
        return static_cast<bool>(call());
    }
}

// The events of one thread. It alone appends. What it has counted others may read at any time.
class Log {
public:
    explicit Log(std::size_t room) { blocks_[0].resize(std::max<std::size_t>(room, 64)); }

    void append(const Event& event) {
        if (place_ == blocks_[last_].size()) {
            blocks_[++last_].resize(2 * place_);
            place_ = 0;
        }
        blocks_[last_][place_++] = event;
        count_.store(count_.load(std::memory_order_relaxed) + 1, std::memory_order_release);
    }

    std::size_t count() const { return count_.load(std::memory_order_acquire); }

    // Returns the event at a place below the count.
    const Event& operator[](std::size_t place) const {
        const std::vector<Event>* block = blocks_.data();
        for (; place >= block->size(); ++block) {
            place -= block->size();
        }
        return (*block)[place];
    }

private:
    std::array<std::vector<Event>, 20> blocks_;    // each twice as large as the one before
    std::size_t last_ = 0, place_ = 0;
    std::atomic<std::size_t> count_{0};
};
}    // namespace detail

// What one thread records. Only that thread may call it.
class alignas(64) Thread {
public:
    Thread(std::atomic<std::uint64_t>& tickets, unsigned number, const Settings& settings)
        : tickets_(&tickets), settings_(&settings), number_(number), log_(2 * settings.operations_of_seed()) {}

    unsigned number() const { return number_; }    // from 0

    // Calls `call(value)` with a value that no other call has. It returns whether the queue took the value: false if
    // the queue was full or had no memory. A call without an answer took it.
    template <class Call>
    bool enqueue(Call&& call) {
        const std::uint64_t value = settings_->value_of(number_, asked_++);
        note(What::CallEnq, value);
        const bool taken = detail::took([&] { return std::forward<Call>(call)(value); });
        note(taken ? What::RetEnq : What::RetNot, 0);
        stay_ += taken ? 1 : 0;
        return taken;
    }

    // Calls `call()`, which gives the value that the queue gave, or std::nullopt if the queue said that it is empty.
    template <class Call>
    std::optional<std::uint64_t> dequeue(Call&& call) {
        ++asked_;
        note(What::CallDeq, 0);
        const std::optional<std::uint64_t> found = std::forward<Call>(call)();
        note(found ? What::RetDeq : What::RetEmpty, found.value_or(0));
        stay_ -= found ? 1 : 0;
        return found;
    }

    std::int64_t stay() const { return stay_; }    // values that the queue took from it, less those that it gave
    const detail::Log& log() const { return log_; }
private:
    // The ticket is drawn first: of a call before the queue is asked, of a return after it has answered. What came
    // before a return is seen by every call of a greater ticket, since the order is sequentially consistent.
    void note(What what, std::uint64_t value) {
        FIFOBENCH_POINTS(notes(what));
        const std::uint64_t ticket = tickets_->fetch_add(1, std::memory_order_seq_cst);
        if (ticket >= max_events) {
            throw std::length_error("a history has at most 2000000 events");
        }
        log_.append(Event{ticket, value, what});
        FIFOBENCH_POINTS(noted(what, value));
    }

    std::atomic<std::uint64_t>* tickets_;
    const Settings* settings_;
    std::uint64_t asked_ = 0;
    std::int64_t stay_ = 0;
    unsigned number_;
    detail::Log log_;
};

// The events of all threads.
class History {
public:
    // While threads still run: the events up to the first that isn't published.
    explicit History(const std::deque<Thread>& threads, std::vector<std::uint64_t> initial = {},
                     std::vector<std::string> failures = {}, const char* drained = nullptr)
        : initial_(std::move(initial)), notes_(std::move(failures)), has_failed_(!notes_.empty()) {
        if (drained != nullptr) {
            notes_.push_back(drained);
        }
        for (const Thread& thread : threads) {
            for (std::size_t place = 0, count = thread.log().count(); place < count; ++place) {
                events_.emplace_back(thread.number(), thread.log()[place]);
            }
        }
        const auto by_ticket = [](const auto& a, const auto& b) { return a.second.ticket < b.second.ticket; };
        std::sort(events_.begin(), events_.end(), by_ticket);
        // Tickets are drawn from 0 on without a gap, so a ticket is its event's place.
        std::size_t whole = 0;
        while (whole < events_.size() && events_[whole].second.ticket == whole) {
            ++whole;
        }
        events_.resize(whole);
        std::size_t calls = 0, pending = 0, calls_at[max_threads] = {}, pending_at[max_threads] = {};
        for (const auto& [thread, event] : events_) {
            if (event.what == What::CallEnq || event.what == What::CallDeq) {
                calls_at[thread] = calls++;
                pending_at[thread] = pending++;
                open_[thread] = event;
            } else {
                --pending;
                overlapping_ += pending_at[thread] > 0 || calls - calls_at[thread] > 1 ? 1 : 0;
                open_.erase(thread);
            }
        }
    }

    // Writes a history, or a pending text (docs/RECORDING.md) if some call has no return.
    void write(std::ostream& to) const {
        write_head(to, open_.empty() ? "fifo-history " : "fifo-pending ", initial_);
        for (const auto& [thread, event] : events_) {
            write_event(to, thread, event);
        }
        to << (open_.empty() ? "" : "open " + std::to_string(open_.size()) + '\n') << "end " << events_.size() << '\n';
        to.flush();
    }

    static void write_head(std::ostream& to, const char* name, const std::vector<std::uint64_t>& initial) {
        to << name << (initial.empty() ? 1 : 2) << '\n';
        if (!initial.empty()) {
            to << "initial " << initial.size() << '\n';
            std::copy(initial.begin(), initial.end(), std::ostream_iterator<std::uint64_t>(to, "\n"));
        }
    }

    static void write_event(std::ostream& to, unsigned thread, const Event& event) {
        to << event.ticket << ' ' << thread << ' ' << words[static_cast<unsigned>(event.what)];
        if (event.what == What::CallEnq || event.what == What::RetDeq) {
            to << ' ' << event.value;
        }
        to << '\n';
    }

    // The events by ticket, each with its thread, and the values that the queue held first.
    const std::vector<std::pair<unsigned, Event>>& events() const { return events_; }
    const std::vector<std::uint64_t>& initial() const { return initial_; }

    // The calls without a return by their threads, and a sentence that names them.
    const std::map<unsigned, Event>& open() const { return open_; }
    std::string told_open() const {
        std::string told;
        for (const auto& [thread, call] : open_) {
            told += (told.empty() ? "thread " : ", thread ") + std::to_string(thread) + " is inside " +
                    (call.what == What::CallEnq ? "enqueue of " + std::to_string(call.value) : "dequeue");
        }
        return told.empty() ? "no thread is inside a call" : told;
    }

    // What went wrong, a sentence for each thread that an exception ended, and one if the drain met its bound.
    const std::vector<std::string>& notes() const { return notes_; }
    bool has_failed() const { return has_failed_; }

    // How many operations have returned, and how many of these overlap another.
    std::size_t operations() const { return (events_.size() - open_.size()) / 2; }
    std::size_t overlapping() const { return overlapping_; }

    // Returns whether `draw` takes this many operations and initial values.
    bool is_drawn() const { return operations() + open_.size() <= 400 && initial_.size() <= 400; }
private:
    std::vector<std::pair<unsigned, Event>> events_;
    std::vector<std::uint64_t> initial_;
    std::map<unsigned, Event> open_;
    std::vector<std::string> notes_;
    bool has_failed_;
    std::size_t overlapping_ = 0;
};

namespace detail {

// While it lives, its thread stays on one core, on Linux: thread 0 on the first core that it may run on, and so on.
class Core {
#ifdef __linux__
public:
    explicit Core(unsigned number) {
        const int cores = sched_getaffinity(0, sizeof before_, &before_) == 0 ? CPU_COUNT(&before_) : 1;
        cpu_set_t one;
        CPU_ZERO(&one);
        for (int core = 0, left = static_cast<int>(number) % cores; left >= 0 && core < CPU_SETSIZE; ++core) {
            if (CPU_ISSET(core, &before_) && left-- == 0) CPU_SET(core, &one);
        }
        is_pinned_ = cores > 1 && sched_setaffinity(0, sizeof one, &one) == 0;
    }
    ~Core() { if (is_pinned_) sched_setaffinity(0, sizeof before_, &before_); }
    Core(const Core&) = delete;
    Core& operator=(const Core&) = delete;

private:
    cpu_set_t before_;
    bool is_pinned_;
#else
public:
    explicit Core(unsigned) {}
#endif
};

// The start of a run. A system may let the threads of a young process take turns on one core. So each waits on a core
// of its own, and all go on looking until two have been seen to run at once. Then all begin, on any core. On one core
// that can't be, and all begin after a tenth of a second.
class Start {
public:
    explicit Start(unsigned threads) : threads_(threads) {}
    void open() { open_.store(true); }
    bool is_open() const { return open_.load(); }

    void wait(unsigned number) {
        const std::optional<Core> core(open_.load() ? std::nullopt : std::make_optional<Core>(number));
        arrived_.fetch_add(1);
        auto until = std::chrono::steady_clock::now() + std::chrono::seconds(1);
        while (arrived_.load() < threads_ && !open_.load() && std::chrono::steady_clock::now() < until) {
            std::this_thread::yield();
        }
        until = std::chrono::steady_clock::now() + std::chrono::milliseconds(100);
        while (threads_ > 1 && !open_.load() && !has_met(number) && std::chrono::steady_clock::now() < until) {
            std::this_thread::yield();
        }
        open();
    }

private:
    // Each leaves its number at each look. Who finds another's there 64 times isn't alone.
    bool has_met(unsigned number) {
        unsigned met = 0;
        for (unsigned look = 0; look < 1000 && met < 64 && !open_.load(std::memory_order_relaxed); ++look) {
            met += last_.exchange(number) != number ? 1 : 0;
        }
        return met == 64;
    }

    unsigned threads_;
    std::atomic<unsigned> arrived_{0};
    std::atomic<bool> open_{false};
    alignas(64) std::atomic<unsigned> last_{0};
};
}    // namespace detail
}    // namespace fifobench

#include "recorder_judge.hpp"

#if __has_include("recorder_crash.hpp")
#include "recorder_crash.hpp"
#else    // a run that crashes or is killed leaves nothing
namespace fifobench::detail {
struct Crash {
    template <class... Of> explicit Crash(const Of&...) {}
    void enter(unsigned) const {}
    void look() const {}
};
using Watch = Crash;
}    // namespace fifobench::detail
#endif

namespace fifobench::detail {

// What each thread does in a run beside its operations.
struct Hooks {
    std::function<void(unsigned)> enter = [](unsigned) {};
    std::function<void(unsigned)> leave = [](unsigned) {};
    std::function<bool(std::uint64_t)> preload;
    std::function<std::optional<std::uint64_t>()> drain;
};

// One run: its threads, what they record, and a look at whether they go on.
class Run {
public:
    Run(const Settings& settings, Hooks hooks)
        : settings_(settings), hooks_(std::move(hooks)), start_(settings.threads) {
        const auto require = [](bool is_met, const char* why) { if (!is_met) throw std::invalid_argument(why); };
        require(settings_.threads >= 1 && settings_.threads <= max_threads, "1 to 64 threads");
        settings_.operations = settings_.operations_of_seed();
        require(settings_.operations <= max_events / 2 / settings_.threads,
                "at most 1000000 operations of all threads");
        const bool has_roles = settings_.producers == 0 || settings_.pattern_of_seed() == Pattern::Roles;
        require(settings_.producers < settings_.threads && has_roles,
                "fewer producers than threads, with the pattern roles");
        require(settings_.percent <= 100, "at most 100 percent are enqueues");
        require(settings_.initial <= max_initial, "at most 100000 initial values");
        require(!settings_.journal || !std::is_empty_v<Crash>, "the setting journal needs recorder_crash.hpp");
        require((settings_.folder + settings_.program).find('\'') == std::string::npos,
                "no quote in the names of the folder and the program");
        initial_ = settings_.initial_values();
        for (unsigned number = 0; number < settings_.threads; ++number) {
            recorded_.emplace_back(tickets_, number, settings_);
        }
    }

    template <class Work>
    History record(Work& work) {
        std::vector<std::thread> running;
        FIFOBENCH_POINTS(begin(settings_, initial_, start_, is_chosen_));
        crash_.emplace(settings_, recorded_, initial_, is_chosen_);
        try {
            for (Thread& thread : recorded_) {
                running.emplace_back([this, &thread, &work] { run_thread(thread, work); });
                FIFOBENCH_IF_CHOSEN(started(thread.number()));
            }
        } catch (const std::system_error&) {
            guarded(running.size(), [] { throw std::runtime_error("it can't be started"); });
            is_refused_.store(true);
            start_.open();
        }
        FIFOBENCH_IF_CHOSEN(open(static_cast<unsigned>(running.size())));
        wait(running.size());
        for (std::thread& thread : running) {
            thread.join();
        }
        FIFOBENCH_IF_CHOSEN(end());
        if (is_refused_.load()) {
            throw std::runtime_error("before the start: " + failures_.front());
        }
        return History(recorded_, initial_, failures_, drained_);
    }

private:
    template <class Work>
    void run_thread(Thread& thread, Work& work) {
        const unsigned number = thread.number();
        if (!guarded(number, [&] { prepare(number); })) {
            is_refused_.store(true);
        }
        FIFOBENCH_IF_CHOSEN(enter(number));
        crash_->enter(number);
        start_.wait(number);
        if (!is_refused_.load()) {
            guarded(number, [&] { work(thread); });
            worked_.fetch_add(1);
            if (number == 0 && hooks_.drain) {
                guarded(number, [&] { drain(thread); });
            }
            guarded(number, [&] { hooks_.leave(number); });
        }
        FIFOBENCH_IF_CHOSEN(leave());
        ended_.fetch_add(1);
    }

    // What a thread does before the start, thread 0 also for the queue.
    void prepare(unsigned number) {
        hooks_.enter(number);
        for (std::size_t j = 0; number == 0 && hooks_.preload && j < initial_.size(); ++j) {
            if (!hooks_.preload(initial_[j])) {
                throw std::runtime_error("the queue doesn't take the initial value " + std::to_string(initial_[j]));
            }
        }
    }

    // In the seat of thread 0 once all others have ended. No sound queue gives more values than went in. A dequeue has
    // two events.
    void drain(Thread& thread) {
        FIFOBENCH_IF_CHOSEN(alone());
        while (!is_chosen_ && worked_.load() < settings_.threads) {
            nap();
        }
        if (has_failed_.load()) {
            return;
        }
        auto stay = static_cast<std::int64_t>(initial_.size());
        for (const Thread& other : recorded_) {
            stay += other.stay();
        }
        std::int64_t bound = std::max<std::int64_t>(stay, 0) + 1;
        bool found = true;
        while (found && bound > 0 && tickets_.load() + 2 <= max_events) {
            found = thread.dequeue(hooks_.drain).has_value();
            --bound;
        }
        drained_ = !found ? nullptr
                   : bound == 0 ? "the queue gave more values than went in"
                                : "a history has at most 2000000 events, and the drain stopped there";
    }

    // Whether no exception leaves the work. One is noted.
    template <class Work>
    bool guarded(std::size_t thread, Work work) {
        std::string sentence = "exception: thread " + std::to_string(thread) + " threw ";
        try {
            work();
            return true;
        } catch (const std::exception& exception) {
            sentence += exception.what();
        } catch (...) {
            sentence += "what is no std::exception";
        }
        const std::lock_guard<std::mutex> guard(lock_);
        failures_.push_back(sentence);
        has_failed_.store(true);
        return false;
    }

    static void nap() { std::this_thread::sleep_for(std::chrono::microseconds(100)); }
    // Waits until this many threads have ended. A run in which no ticket is drawn for the time of the settings hangs.
    void wait(std::size_t threads) {
        std::uint64_t seen = 0;
        auto since = std::chrono::steady_clock::now();
        for (; ended_.load() < threads; nap()) {
            crash_->look();
            const std::uint64_t drawn = tickets_.load();
            const auto now = std::chrono::steady_clock::now();
            since = drawn != seen ? now : since;
            seen = drawn;
            if (now - since >= settings_.timeout) {
                end_hung();
            }
        }
    }

    // The threads can't be ended, so the process is.
    [[noreturn]] void end_hung() const {
        std::ostringstream how;
        how << "hang: no event for " << static_cast<double>(settings_.timeout.count()) / 1000 << " s"
            << (start_.is_open() ? "" : "; not all threads have begun");
        for (const std::string& sentence : failures_) {
            how << "; " << sentence;
        }
        const char* const fault = "If the queue promises to return, the hang itself is the fault.";
        const int status = Judge(settings_).end_early(History(recorded_, initial_), how.str(), fault);
        std::cout.flush();
        std::_Exit(status);
    }

    Settings settings_;
    bool is_chosen_ = false;           // the schedule
    const char* drained_ = nullptr;    // what went wrong in the drain
    std::optional<Crash> crash_;
    const Hooks hooks_;
    std::vector<std::uint64_t> initial_;
    alignas(64) std::atomic<std::uint64_t> tickets_{0};
    std::deque<Thread> recorded_;
    Start start_;
    std::atomic<unsigned> worked_{0}, ended_{0};
    std::atomic<bool> has_failed_{false}, is_refused_{false};
    std::mutex lock_;
    std::vector<std::string> failures_;
};

// The hooks that a queue has.
template <class Queue>
Hooks hooks_of(Queue& queue, const Settings& settings) {
    Hooks hooks;
    const auto enter = [](auto& of, unsigned number) -> decltype(of.enter(number)) { return of.enter(number); };
    const auto leave = [](auto& of, unsigned number) -> decltype(of.leave(number)) { return of.leave(number); };
    const auto preload = [](auto& of, std::uint64_t v) -> decltype(of.preload(v)) { return of.preload(v); };
    if constexpr (std::is_invocable_v<decltype(enter), Queue&, unsigned>) {
        hooks.enter = [&queue, enter](unsigned thread) { enter(queue, thread); };
    }
    if constexpr (std::is_invocable_v<decltype(leave), Queue&, unsigned>) {
        hooks.leave = [&queue, leave](unsigned thread) { leave(queue, thread); };
    }
    if constexpr (std::is_invocable_v<decltype(preload), Queue&, std::uint64_t>) {
        hooks.preload = [&queue, preload](std::uint64_t v) { return took([&] { return preload(queue, v); }); };
    } else {
        hooks.preload = [&queue](std::uint64_t v) { return took([&] { return queue.enqueue(v); }); };
    }
    if (settings.drain) {
        hooks.drain = [&queue] { return queue.dequeue(); };
    }
    return hooks;
}

// A search of free runs, one seed after another.
template <class RunOne>
class FreeSearch {
public:
    FreeSearch(const Settings& settings, RunOne& run_one)
        : settings_(settings), run_one_(run_one), runs_(settings.runs != 0 ? settings.runs : 100),
          judges_(Judge(settings).is_there()) {}

    int answer() {
        if (!judges_) {
            std::cerr << "fifobench: no program '" << Judge(settings_).program()
                      << "': nothing is judged; the histories are kept in " << settings_.folder << std::endl;
        }
        const Watch watch(settings_, runs_);
        Progress progress;
        int answer = 0;
        for (; made_ < runs_ && answer == 0; ++made_) {
            progress.show(made_, runs_ - made_);
            answer = answer_of(made_);
        }
        Progress::erase();
        if (answer == 0) {
            tell_none();
        }
        if (settings_.keep && judges_ && answer != 2) {
            std::cout << "  kept:    " << made_ << " judged runs with " << events_ << " events in " << settings_.folder
                      << std::endl;
        }
        return answer == 0 && !judges_ ? 2 : answer;
    }

private:
    // The answer to the run of a seed. Threads that haven't met have shown little, so a run without overlap is made
    // again: three times, and in a search no more often than it has runs.
    int answer_of(unsigned number) {
        Settings one = settings_;
        one.seed += number;
        one.pattern = one.pattern_of_seed();
        one.operations = one.operations_of_seed();
        for (unsigned left = one.threads > 1 ? 3 : 0;; --left) {
            const History history = run_one_(static_cast<const Settings&>(one));
            const int answer = Judge(one).answer(history, judges_);
            if (answer != 0 || history.overlapping() > 0 || left == 0 || again_ == runs_) {
                add(history);
                return answer;
            }
            ++again_;
        }
    }

    void add(const History& history) {
        operations_ += history.operations();
        overlapping_ += history.overlapping();
        events_ += history.events().size();
        without_overlap_ += history.overlapping() == 0 ? 1 : 0;
    }

    void tell_none() const {
        std::error_code ignored;
        std::filesystem::remove(settings_.folder, ignored);    // if it is empty
        std::cout << (judges_ ? "no violation" : "nothing judged") << " in " << runs_ << " runs (seeds "
                  << settings_.seed << " to " << settings_.seed + runs_ - 1 << ')' << told_condition(settings_) << "; "
                  << 100 * overlapping_ / (operations_ + !operations_)
                  << " of 100 operations overlap another; runs without overlap: " << without_overlap_ << std::endl;
    }

    const Settings& settings_;
    RunOne& run_one_;
    const unsigned runs_;
    const bool judges_;
    unsigned made_ = 0, again_ = 0, without_overlap_ = 0;    // runs
    std::size_t operations_ = 0, overlapping_ = 0, events_ = 0;
};

}    // namespace fifobench::detail

namespace fifobench {

// Runs `work(thread)` in each of the threads, which begin together, and gives what they recorded. Memory is taken
// ahead for the operations of the settings; more are recorded too. An exception that leaves `work` ends its thread
// alone: History::notes has it. A run that hangs ends the process with status 1 or 2. Throws std::invalid_argument if
// the settings are out of range, std::runtime_error if a thread can't be started.
template <class Work>
History record(const Settings& settings, Work work) {
    return detail::Run(settings, {}).record(work);
}

template <class Work>
History record(unsigned threads, std::size_t operations, Work work) {
    Settings settings;
    settings.threads = threads;
    settings.operations = operations;
    return record(settings, std::move(work));
}

// Runs the pattern of the settings over a queue.
template <class Queue>
History run(const Settings& settings, Queue& queue) {
    const auto work = [&](Thread& thread) {
        detail::Plan plan(settings, thread.number());
        for (std::size_t n = 0, count = settings.operations_of_seed(); n < count; ++n) {
            if (plan.next_is_enqueue()) {
                thread.enqueue([&](std::uint64_t value) { return queue.enqueue(value); });
            } else {
                thread.dequeue([&] { return queue.dequeue(); });
            }
        }
    };
    return detail::Run(settings, detail::hooks_of(queue, settings)).record(work);
}

// Judges what `run_one(settings)` records, for one seed after another, until one run shows a violation; the settings
// are those of the one run. 0: none shows one; 1: one does; 2: something is wrong, which standard error names.
template <class RunOne>
int search_runs(const Settings& settings, RunOne run_one) {
    try {
        detail::Run(settings, {});    // throws if a setting is out of its range
        std::optional<int> answer;
        FIFOBENCH_POINTS(search(settings, run_one, answer));
        return answer ? *answer : detail::FreeSearch<RunOne>(settings, run_one).answer();
    } catch (const std::exception& exception) {
        std::cerr << "fifobench: " << exception.what() << std::endl;
        return 2;
    }
}

// Searches runs by patterns, each over a fresh queue, to which `make()` returns a pointer.
template <class Make>
int search(const Settings& settings, Make make) {
    return search_runs(settings, [&make](const Settings& one) { return run(one, *make()); });
}

template <class Queue>
int search(const Settings& settings = {}) {
    return search(settings, [] { return std::make_unique<Queue>(); });
}

}    // namespace fifobench

#endif
