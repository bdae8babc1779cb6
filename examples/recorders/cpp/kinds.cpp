// Queues of several kinds, as they are, and how the recorder calls each.
//
//     kinds [KIND [RUNS]]      searches all, or one of reference, thrown, spsc, blocking, bounded, registered, pointers
//
// Each has a namespace with the queue and, as Mine, what calls it. The status is 0 if no queue shows a violation.
#include "recorder.hpp"

#include <array>
#include <condition_variable>
#include <cstring>
#include <deque>
#include <iostream>
#include <memory>
#include <mutex>
#include <string>

namespace {

using Value = std::uint64_t;
using Found = std::optional<Value>;

// `bool pop(T&)`, and a push that answers nothing. The values are of 32 bits, and so smaller than the recorder's own.
namespace reference {

class Queue {
public:
    void push(std::uint32_t value) {
        const std::lock_guard<std::mutex> guard(lock_);
        values_.push_back(value);
    }

    bool pop(std::uint32_t& value) {
        const std::lock_guard<std::mutex> guard(lock_);
        if (values_.empty()) {
            return false;
        }
        value = values_.front();
        values_.pop_front();
        return true;
    }

private:
    std::mutex lock_;
    std::deque<std::uint32_t> values_;
};

struct Mine {
    Queue queue;

    void enqueue(Value value) { queue.push(static_cast<std::uint32_t>(value)); }

    Found dequeue() {
        std::uint32_t value = 0;
        return queue.pop(value) ? Found(value) : std::nullopt;
    }
};

int search(fifobench::Settings settings) {
    settings.value = [](unsigned thread, std::uint64_t n) { return 65 * n + thread + 1; };    // never 0; 64: initial
    settings.initial = 3;
    return fifobench::search<Mine>(settings);
}

}    // namespace reference

// An empty queue throws.
namespace thrown {

struct Empty {};

class Queue {
public:
    void push(Value value) {
        const std::lock_guard<std::mutex> guard(lock_);
        values_.push_back(value);
    }

    Value pop() {
        const std::lock_guard<std::mutex> guard(lock_);
        if (values_.empty()) {
            throw Empty();
        }
        const Value value = values_.front();
        values_.pop_front();
        return value;
    }

private:
    std::mutex lock_;
    std::deque<Value> values_;
};

struct Mine {
    Queue queue;

    void enqueue(Value value) { queue.push(value); }

    Found dequeue() {
        try {
            return queue.pop();
        } catch (const Empty&) {
            return std::nullopt;
        }
    }
};

int search(const fifobench::Settings& settings) { return fifobench::search<Mine>(settings); }

}    // namespace thrown

// One producer and one consumer, and a ring of 64 places, which refuses a value if it is full.
namespace spsc {

class Queue {
public:
    bool push(Value value) {
        const std::size_t last = last_.load(std::memory_order_relaxed);
        if (last - first_.load(std::memory_order_acquire) == values_.size()) {
            return false;
        }
        values_[last % values_.size()] = value;
        last_.store(last + 1, std::memory_order_release);
        return true;
    }

    Found pop() {
        const std::size_t first = first_.load(std::memory_order_relaxed);
        if (first == last_.load(std::memory_order_acquire)) {
            return std::nullopt;
        }
        const Value value = values_[first % values_.size()];
        first_.store(first + 1, std::memory_order_release);
        return value;
    }

private:
    std::array<Value, 64> values_{};
    std::atomic<std::size_t> first_{0};
    std::atomic<std::size_t> last_{0};
};

struct Mine {
    Queue queue;
    bool enqueue(Value value) { return queue.push(value); }
    Found dequeue() { return queue.pop(); }
};

// Thread 0 produces and thread 1 consumes. Thread 0 drains once thread 1 has ended: one consumer at a time.
int search(fifobench::Settings settings) {
    settings.threads = 2;
    settings.producers = 1;
    return fifobench::search<Mine>(settings);
}

}    // namespace spsc

// A dequeue waits until there is a value.
namespace blocking {

class Queue {
public:
    void push(Value value) {
        {
            const std::lock_guard<std::mutex> guard(lock_);
            values_.push_back(value);
        }
        has_value_.notify_one();
    }

    Value pop() {
        std::unique_lock<std::mutex> guard(lock_);
        has_value_.wait(guard, [this] { return !values_.empty(); });
        const Value value = values_.front();
        values_.pop_front();
        return value;
    }

private:
    std::mutex lock_;
    std::condition_variable has_value_;
    std::deque<Value> values_;
};

struct Mine {
    Queue queue;
    void enqueue(Value value) { queue.push(value); }
    Found dequeue() { return queue.pop(); }
};

// As many producers as consumers make as many operations, so each dequeue has its value; a drain would wait for ever.
int search(fifobench::Settings settings) {
    settings.pattern = fifobench::Pattern::Roles;
    settings.drain = false;
    return fifobench::search<Mine>(settings);
}

}    // namespace blocking

// Room for two values: more are refused.
namespace bounded {

class Queue {
public:
    bool push(Value value) {
        const std::lock_guard<std::mutex> guard(lock_);
        if (values_.size() == 2) {
            return false;
        }
        values_.push_back(value);
        return true;
    }

    Found pop() {
        const std::lock_guard<std::mutex> guard(lock_);
        if (values_.empty()) {
            return std::nullopt;
        }
        const Value value = values_.front();
        values_.pop_front();
        return value;
    }

private:
    std::mutex lock_;
    std::deque<Value> values_;
};

struct Mine {
    Queue queue;
    bool enqueue(Value value) { return queue.push(value); }
    Found dequeue() { return queue.pop(); }
};

int search(const fifobench::Settings& settings) { return fifobench::search<Mine>(settings); }

}    // namespace bounded

// Each thread registers before its first call, and takes itself off after its last, as with hazard pointers.
namespace registered {

class Queue {
public:
    class Handle {
    public:
        explicit Handle(Queue& queue) : queue_(&queue) {}
        void push(Value value) { queue_->queue_.push(value); }
        bool pop(Value& value) {
            try {
                value = queue_->queue_.pop();
                return true;
            } catch (const thrown::Empty&) {
                return false;
            }
        }

    private:
        Queue* queue_;
    };

private:
    thrown::Queue queue_;
};

struct Mine {
    Queue queue;
    static thread_local std::unique_ptr<Queue::Handle> handle;

    void enter(unsigned) { handle = std::make_unique<Queue::Handle>(queue); }
    void leave(unsigned) { handle.reset(); }

    void enqueue(Value value) { handle->push(value); }

    Found dequeue() {
        Value value = 0;
        return handle->pop(value) ? Found(value) : std::nullopt;
    }
};

thread_local std::unique_ptr<Queue::Handle> Mine::handle;

int search(fifobench::Settings settings) {
    settings.initial = 2;
    return fifobench::search<Mine>(settings);
}

}    // namespace registered

// The queue holds pointers. The value of an object is its place in a table of one object for each call.
namespace pointers {

struct Object {
    Value value;
};

class Queue {
public:
    void push(Object* object) {
        const std::lock_guard<std::mutex> guard(lock_);
        objects_.push_back(object);
    }

    Object* pop() {
        const std::lock_guard<std::mutex> guard(lock_);
        if (objects_.empty()) {
            return nullptr;
        }
        Object* const object = objects_.front();
        objects_.pop_front();
        return object;
    }

private:
    std::mutex lock_;
    std::deque<Object*> objects_;
};

struct Mine {
    Queue queue;
    std::vector<Object> objects;

    explicit Mine(std::size_t count) : objects(count) {
        for (std::size_t place = 0; place < count; ++place) {
            objects[place].value = place;
        }
    }

    void enqueue(Value value) { queue.push(&objects[value]); }

    Found dequeue() {
        const Object* const object = queue.pop();
        return object != nullptr ? Found(object->value) : std::nullopt;
    }
};

int search(fifobench::Settings settings) {
    settings.operations = 500;    // not by the seed: each has an object
    const std::size_t threads = settings.threads, count = threads * settings.operations;
    settings.value = [threads](unsigned thread, std::uint64_t n) { return threads * n + thread; };
    return fifobench::search(settings, [count] { return std::make_unique<Mine>(count); });
}

}    // namespace pointers

struct Kind {
    const char* name;
    int (*search)(fifobench::Settings);
};

constexpr Kind kinds[] = {
    {"reference", [](fifobench::Settings settings) { return reference::search(std::move(settings)); }},
    {"thrown", [](fifobench::Settings settings) { return thrown::search(settings); }},
    {"spsc", [](fifobench::Settings settings) { return spsc::search(std::move(settings)); }},
    {"blocking", [](fifobench::Settings settings) { return blocking::search(std::move(settings)); }},
    {"bounded", [](fifobench::Settings settings) { return bounded::search(settings); }},
    {"registered", [](fifobench::Settings settings) { return registered::search(std::move(settings)); }},
    {"pointers", [](fifobench::Settings settings) { return pointers::search(std::move(settings)); }},
};

}    // namespace

int main(int count, char** words) {
    fifobench::Settings settings;
    if (count > 2) {
        settings.runs = static_cast<unsigned>(std::strtoul(words[2], nullptr, 10));
    }
    int status = 0;
    bool is_known = false;
    for (const Kind& kind : kinds) {
        if (count < 2 || std::strcmp(words[1], kind.name) == 0 || std::strcmp(words[1], "all") == 0) {
            std::cout << kind.name << ": " << std::flush;
            status = std::max(status, kind.search(settings));
            is_known = true;
        }
    }
    return is_known ? status : 2;
}
