// A good queue and some that are wrong on purpose, recorded and judged.
//
//     queue QUEUE [--runs R] [--threads T] [--producers N] [--ops N] [--pattern P] [--percent K] [--seed S]
//                 [--initial N] [--condition C] [--overtaken-at-most N] [--folder F] [--keep 0|1]
//                 [--timeout SECONDS]
//     queue QUEUE THREADS OPERATIONS [PATTERN [SEED [INITIAL]]] > history
//
// The first makes runs until one shows a violation: status 0 none does, 1 one does, 2 something is wrong. The second
// makes one run, and writes its history; without a pattern, or with `loop`, it is a loop of one's own. A queue is good;
// wrong: every 4th value that is found is left in place; stack: the last value comes out first; shards: values of two
// producers overtake each other; early: it says empty too early; hang: a dequeue never returns; throw: an enqueue
// throws.
#include "recorder.hpp"

#include <algorithm>
#include <deque>
#include <iostream>
#include <memory>
#include <mutex>
#include <stdexcept>
#include <string>
#include <vector>

namespace {

// A list under a lock.
class Good {
public:
    virtual ~Good() = default;

    virtual bool enqueue(std::uint64_t value) {
        const std::lock_guard<std::mutex> guard(lock_);
        values_.push_back(value);
        return true;
    }

    virtual std::optional<std::uint64_t> dequeue() {
        const std::lock_guard<std::mutex> guard(lock_);
        return take();
    }

protected:
    std::optional<std::uint64_t> take() {
        if (values_.empty()) {
            return std::nullopt;
        }
        const std::uint64_t value = values_.front();
        values_.pop_front();
        return value;
    }

    std::mutex lock_;
    std::deque<std::uint64_t> values_;
};

class Wrong : public Good {
public:
    std::optional<std::uint64_t> dequeue() override {
        const std::lock_guard<std::mutex> guard(lock_);
        if (!values_.empty() && ++found_ % 4 == 0) {
            return values_.front();
        }
        return take();
    }

private:
    std::uint64_t found_ = 0;
};

class Stack : public Good {
public:
    bool enqueue(std::uint64_t value) override {
        const std::lock_guard<std::mutex> guard(lock_);
        values_.push_front(value);
        return true;
    }
};

// Keeps the order of each producer alone.
class Shards : public Good {
public:
    std::optional<std::uint64_t> dequeue() override {
        const std::lock_guard<std::mutex> guard(lock_);
        const auto is_of_last = [&](std::uint64_t value) { return value >> 32 == values_.back() >> 32; };
        const auto at = std::find_if(values_.begin(), values_.end(), is_of_last);
        const auto found = at == values_.end() ? std::nullopt : std::make_optional(*at);
        if (found) values_.erase(at);
        return found;
    }
};

// The size is counted beside the list, after it was changed and outside of the lock: so it can be 0 while values are
// in.
class Early : public Good {
public:
    bool enqueue(std::uint64_t value) override {
        Good::enqueue(value);
        std::this_thread::yield();
        size_.fetch_add(1);
        return true;
    }

    std::optional<std::uint64_t> dequeue() override {
        if (size_.load() <= 0) {
            return std::nullopt;
        }
        const auto found = Good::dequeue();
        size_.fetch_sub(found ? 1 : 0);
        return found;
    }

private:
    std::atomic<std::int64_t> size_{0};
};

class Hang : public Good {
public:
    std::optional<std::uint64_t> dequeue() override {
        if (calls_.fetch_add(1) == 100) {
            for (;;) {
                std::this_thread::sleep_for(std::chrono::hours(1));
            }
        }
        return Good::dequeue();
    }

private:
    std::atomic<std::uint64_t> calls_{0};
};

class Throw : public Good {
public:
    bool enqueue(std::uint64_t value) override {
        if (calls_.fetch_add(1) == 100) {
            throw std::runtime_error("no memory");
        }
        return Good::enqueue(value);
    }

private:
    std::atomic<std::uint64_t> calls_{0};
};

std::unique_ptr<Good> make(const std::string& name) {
    if (name == "good") return std::make_unique<Good>();
    if (name == "wrong") return std::make_unique<Wrong>();
    if (name == "stack") return std::make_unique<Stack>();
    if (name == "shards") return std::make_unique<Shards>();
    if (name == "early") return std::make_unique<Early>();
    if (name == "hang") return std::make_unique<Hang>();
    if (name == "throw") return std::make_unique<Throw>();
    throw std::invalid_argument("no queue '" + name + "': good, wrong, stack, shards, early, hang or throw");
}

std::uint64_t number(const std::string& word, std::uint64_t least, std::uint64_t most) {
    const bool has_digits = word.find_first_not_of("0123456789") == std::string::npos;
    if (word.empty() || word.size() > 18 || !has_digits || std::stoull(word) < least || std::stoull(word) > most) {
        throw std::invalid_argument("'" + word + "' is no number from " + std::to_string(least) + " to " +
                                    std::to_string(most));
    }
    return std::stoull(word);
}

fifobench::Pattern pattern(const std::string& word) {
    using fifobench::Pattern;
    for (const Pattern pattern : {Pattern::Alternate, Pattern::Mix, Pattern::Bursts, Pattern::Roles}) {
        if (word == fifobench::name_of(pattern)) {
            return pattern;
        }
    }
    throw std::invalid_argument("no pattern '" + word + "': alternate, mix, bursts or roles");
}

fifobench::Condition condition(const std::string& word) {
    for (unsigned place = 0; place < 4; ++place) {
        if (word == fifobench::condition_names[place]) {
            return static_cast<fifobench::Condition>(place);
        }
    }
    throw std::invalid_argument("no condition '" + word + "': linearizable, local, weak-empty or both");
}

void set(fifobench::Settings& settings, const std::string& option, const std::string& word) {
    if (option == "--runs") settings.runs = static_cast<unsigned>(number(word, 1, 1'000'000));
    else if (option == "--threads") settings.threads = static_cast<unsigned>(number(word, 1, 64));
    else if (option == "--ops") settings.operations = number(word, 1, 1'000'000);
    else if (option == "--pattern") settings.pattern = pattern(word);
    else if (option == "--percent") settings.percent = static_cast<unsigned>(number(word, 0, 100));
    else if (option == "--seed") settings.seed = number(word, 0, 4'294'967'295);
    else if (option == "--initial") settings.initial = number(word, 0, 100'000);
    else if (option == "--condition") settings.condition = condition(word);
    else if (option == "--overtaken-at-most") settings.overtaken_at_most = number(word, 0, 1'000'000);
    else if (option == "--folder") settings.folder = word;
    else if (option == "--producers") settings.producers = static_cast<unsigned>(number(word, 0, 63));
    else if (option == "--keep") settings.keep = number(word, 0, 1) == 1;
    else if (option == "--timeout") settings.timeout = std::chrono::seconds(number(word, 1, 86'400));
    else throw std::invalid_argument("no option '" + option + "'");
}

// A loop of one's own. Which operations are enqueues, from the thread's number on and over and over:
constexpr char plan[] = "EEDDDEED";

fifobench::History loop(const fifobench::Settings& settings, Good& queue) {
    for (const std::uint64_t value : settings.initial_values()) {
        queue.enqueue(value);
    }
    return fifobench::record(settings, [&](fifobench::Thread& thread) {
        for (std::size_t n = 0; n < settings.operations; ++n) {
            if (plan[(n + thread.number()) % 8] == 'E') {
                thread.enqueue([&](std::uint64_t value) { return queue.enqueue(value); });
            } else {
                thread.dequeue([&] { return queue.dequeue(); });
            }
        }
    });
}

int run_once(const std::vector<std::string>& words) {
    fifobench::Settings settings;
    const auto queue = make(words[0]);
    set(settings, "--threads", words[1]);
    set(settings, "--ops", words[2]);
    settings.drain = false;
    const bool has_pattern = words.size() > 3 && words[3] != "loop";
    if (has_pattern) set(settings, "--pattern", words[3]);
    if (words.size() > 4) set(settings, "--seed", words[4]);
    if (words.size() > 5) set(settings, "--initial", words[5]);
    const auto history = has_pattern ? fifobench::run(settings, *queue) : loop(settings, *queue);
    for (const std::string& sentence : history.notes()) {
        std::cerr << "queue: " << sentence << '\n';
    }
    history.write(std::cout);
    return !std::cout ? 3 : history.has_failed() ? 2 : 0;
}

int run(const std::vector<std::string>& words) {
    if (words.empty()) {
        throw std::invalid_argument("a queue is missing: queue QUEUE, or queue QUEUE THREADS OPERATIONS");
    }
    make(words[0]);
    if (words.size() >= 3 && words.size() <= 6 && words[1].rfind("--", 0) != 0) {
        return run_once(words);
    }
    fifobench::Settings settings;
    for (std::size_t place = 1; place < words.size(); place += 2) {
        set(settings, words[place], place + 1 < words.size() ? words[place + 1] : "");
    }
    return fifobench::search(settings, [&] { return make(words[0]); });
}

}    // namespace

int main(int count, char** words) {
    std::ios::sync_with_stdio(false);
    try {
        return run(std::vector<std::string>(words + 1, words + count));
    } catch (const std::exception& exception) {
        std::cerr << "queue: " << exception.what() << '\n';
        return 2;
    }
}
