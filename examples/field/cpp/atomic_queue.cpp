// Queues of atomic_queue. 0 is an empty slot.
#include "field.hpp"

#include <atomic_queue/atomic_queue.h>

namespace {

using field::Found;
using field::Value;

template <class Queue>
struct Tries : field::Any {
    Queue queue;
    bool enqueue(Value value) override { return queue.try_push(value); }
    Found dequeue() override {
        return field::found([this](Value& value) { return queue.try_pop(value); });
    }
};

// The calls of OptimistAtomicQueue: they claim a slot first, and wait for it.
template <std::size_t size>
struct Waits : field::Any {
    atomic_queue::AtomicQueue<Value, size> queue;
    bool enqueue(Value value) override {
        queue.push(value);
        return true;
    }
    Found dequeue() override { return queue.pop(); }
};

template <std::size_t size>
using One = Tries<atomic_queue::AtomicQueue<Value, size>>;

template <std::size_t size>
using Two = Tries<atomic_queue::AtomicQueue2<Value, size>>;

template <std::size_t size>
using TotalOrder = Tries<atomic_queue::AtomicQueue<Value, size, Value{}, true, true, true>>;

template <std::size_t size>
using OneToOne = Tries<atomic_queue::AtomicQueue<Value, size, Value{}, true, true, false, true>>;

}    // namespace

int main(int count, char** words) {
    return field::run(count, words, {
        {"atomic-queue", field::make_sized<One>},
        {"atomic-queue-2", field::make_sized<Two>},
        {"atomic-queue-total-order", field::make_sized<TotalOrder>},
        {"atomic-queue-spsc", field::make_sized<OneToOne>},
        {"atomic-queue-waits", field::make_sized<Waits>},
    });
}
