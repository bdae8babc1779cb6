// A queue that ends a run early: see run, which says what a search of it has to say.
//
//     queue ORDER END FOLDER
//
// ORDER is fifo or lifo. END is what the second dequeue does: lock, wait, throw, abort, null, overflow, kill, or fine;
// or, with late, what the 250th does: it waits.
#include "../../examples/recorders/cpp/recorder.hpp"

#include <condition_variable>

namespace {

std::string order, end, folder;

// Returns whether the journal has the call that is pending.
bool has_last_call() {
    std::ifstream file(folder + "/3.pending");
    const std::string text(std::istreambuf_iterator<char>(file), {});
    return text.find("\n52 0 call-deq\n") != std::string::npos;
}

// The stack overflows, so the signal needs one of its own.
unsigned deep(const volatile unsigned* above) {
    volatile unsigned here[1024] = {};
    here[0] = *above;
    return here[0] == 0 ? 0 : deep(here) + here[5];
}

struct Queue {
    std::deque<std::uint64_t> values;
    unsigned dequeues = 0;
    std::mutex lock;
    std::condition_variable never;

    bool enqueue(std::uint64_t value) {
        values.push_back(value);
        return true;
    }

    std::optional<std::uint64_t> dequeue() {
        if (++dequeues == (end == "late" ? 250 : 2)) {
            end_early();
        }
        if (values.empty()) {
            return std::nullopt;
        }
        const std::uint64_t value = order == "lifo" ? values.back() : values.front();
        if (order == "lifo") {
            values.pop_back();
        } else {
            values.pop_front();
        }
        return value;
    }

    void end_early() {
        std::unique_lock<std::mutex> guard(lock, std::defer_lock);
        if (end == "lock") {
            lock.lock();
            lock.lock();
        } else if (end == "wait" || end == "late") {
            guard.lock();
            never.wait(guard, [] { return false; });
        } else if (end == "throw") {
            throw std::runtime_error("no value today");
        } else if (end == "abort") {
            std::abort();
        } else if (end == "null") {
            *static_cast<volatile int*>(nullptr) = 1;
        } else if (end == "overflow") {
            volatile unsigned first = 1;
            std::exit(static_cast<int>(deep(&first)));
        } else if (end == "kill") {
            while (!has_last_call()) {
                std::this_thread::sleep_for(std::chrono::milliseconds(1));
            }
            ::raise(SIGKILL);
        }
    }
};

}    // namespace

int main(int count, char** words) {
    if (count != 4) {
        return 3;
    }
    order = words[1];
    end = words[2];
    fifobench::Settings settings;
    settings.folder = folder = words[3];
    settings.threads = 1;
    settings.operations = end == "late" ? 600 : 60;
    settings.seed = end == "late" ? 1 : 3;    // alternate; bursts, the first of 25
    settings.runs = 1;
    settings.timeout = std::chrono::seconds(end == "lock" || end == "wait" || end == "late" ? 1 : 30);
    settings.journal = end == "kill";
    return fifobench::search<Queue>(settings);
}
