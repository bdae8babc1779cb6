// Queues of oneTBB.
#include "field.hpp"

#include <tbb/concurrent_priority_queue.h>
#include <tbb/concurrent_queue.h>

namespace {

using field::Found;
using field::Value;

template <class Queue>
struct Unbounded : field::Any {
    explicit Unbounded(std::size_t) {}
    Queue queue;
    bool enqueue(Value value) override {
        queue.push(value);
        return true;
    }
    Found dequeue() override {
        return field::found([this](Value& value) { return queue.try_pop(value); });
    }
};

struct Bounded : field::Any {
    explicit Bounded(std::size_t size) { queue.set_capacity(static_cast<std::ptrdiff_t>(size)); }
    tbb::concurrent_bounded_queue<Value> queue;
    bool enqueue(Value value) override { return queue.try_push(value); }
    Found dequeue() override {
        return field::found([this](Value& value) { return queue.try_pop(value); });
    }
};

struct Waits : Bounded {
    using Bounded::Bounded;
    bool enqueue(Value value) override {
        queue.push(value);
        return true;
    }
    Found dequeue() override {
        Value value = 0;
        queue.pop(value);
        return value;
    }
};

}    // namespace

int main(int count, char** words) {
    return field::run(count, words, {
        {"tbb-queue", field::make<Unbounded<tbb::concurrent_queue<Value>>>},
        {"tbb-bounded", field::make<Bounded>},
        {"tbb-bounded-waits", field::make<Waits>},
        {"tbb-priority", field::make<Unbounded<tbb::concurrent_priority_queue<Value>>>},
    });
}
