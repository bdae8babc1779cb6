// A std::deque under a std::mutex, and the same made wrong on purpose: recorded, and judged in this process.
//
//     queue good|wrong THREADS OPERATIONS
//
// The status is the verdict's, 0 `YES` or 1 `NO`; for a `NO` the few operations that show the violation are printed.
#include "../recorders/cpp/recorder.hpp"
#include "fifobench.hpp"

#include <charconv>
#include <cstring>
#include <deque>
#include <iostream>
#include <mutex>
#include <sstream>
#include <string>

namespace {

class Queue {
public:
    explicit Queue(bool wrong) : wrong_(wrong) {}

    bool push(std::uint64_t value) {
        std::lock_guard<std::mutex> guard(lock_);
        values_.push_back(value);
        return true;
    }

    std::optional<std::uint64_t> pop() {
        std::lock_guard<std::mutex> guard(lock_);
        if (values_.empty()) {
            return std::nullopt;
        }
        const std::uint64_t value = values_.front();
        ++found_;
        // The fault: every 4th value that is found is left in place.
        if (!wrong_ || found_ % 4 != 0) {
            values_.pop_front();
        }
        return value;
    }

private:
    std::mutex lock_;
    std::deque<std::uint64_t> values_;
    std::uint64_t found_ = 0;
    bool wrong_;
};

// Which operations are enqueues, from the thread's number on and over and over.
constexpr char plan[] = "EEDDDEED";

// The text of what the threads did with the queue.
std::string recorded(Queue& queue, unsigned threads, std::size_t operations) {
    std::ostringstream text;
    fifobench::record(threads, operations, [&](fifobench::Thread& thread) {
        for (std::size_t i = 0; i < operations; ++i) {
            if (plan[(i + thread.number()) % 8] == 'E') {
                thread.enqueue([&](std::uint64_t value) { return queue.push(value); });
            } else {
                thread.dequeue([&] { return queue.pop(); });
            }
        }
    }).write(text);
    return text.str();
}

// The number in digits that a word is; else a message says that this isn't one.
std::optional<std::size_t> number_in(const char* name, const std::string& word) {
    std::size_t number = 0;
    const char* const end = word.data() + word.size();
    const auto read = std::from_chars(word.data(), end, number);
    if (read.ec == std::errc() && read.ptr == end) {
        return number;
    }
    std::cerr << "queue: " << name << " has to be a number, and is '" << word << "'\n";
    return std::nullopt;
}

}    // namespace

int main(int count, char** words) {
    if (count != 4 || (std::strcmp(words[1], "good") != 0 && std::strcmp(words[1], "wrong") != 0)) {
        std::cerr << "usage: queue good|wrong THREADS OPERATIONS\n";
        return 2;
    }
    const auto threads = number_in("THREADS", words[2]);
    const auto operations = threads ? number_in("OPERATIONS", words[3]) : std::nullopt;
    if (!operations) {
        return 2;
    }
    if (*threads < 1 || *threads > 64 || *operations > 1000000 / *threads) {
        std::cerr << "queue: 1 to 64 threads, and at most 1000000 operations together\n";
        return 2;
    }
    Queue queue(std::strcmp(words[1], "wrong") == 0);
    const std::string text = recorded(queue, static_cast<unsigned>(*threads), *operations);
    const fifobench::Answer verdict = fifobench::check(text);
    if (verdict.status == fifobench::Status::no) {
        const fifobench::Answer shrunk = fifobench::shrink(text);
        // Whoever gets the report can check it.
        if (!fifobench::verify(shrunk.text).is_yes()) {
            return 3;
        }
        std::cout << shrunk.text;
    } else {
        std::cout << verdict.first_line() << '\n';
    }
    return static_cast<int>(verdict.status);
}
