// moodycamel's queues of one producer and one consumer.
#include "field.hpp"

#include <readerwriterqueue/readerwritercircularbuffer.h>
#include <readerwriterqueue/readerwriterqueue.h>

namespace {

using field::Found;
using field::Value;

template <class Queue>
struct Growing : field::Any {
    explicit Growing(std::size_t size) : queue(size) {}
    Queue queue;
    bool enqueue(Value value) override { return queue.enqueue(value); }
    Found dequeue() override {
        return field::found([this](Value& value) { return queue.try_dequeue(value); });
    }
};

// Never takes more memory.
struct Bounded : Growing<moodycamel::ReaderWriterQueue<Value>> {
    using Growing::Growing;
    bool enqueue(Value value) override { return queue.try_enqueue(value); }
};

struct Circular : field::Any {
    explicit Circular(std::size_t size) : queue(size) {}
    moodycamel::BlockingReaderWriterCircularBuffer<Value> queue;
    bool enqueue(Value value) override { return queue.try_enqueue(value); }
    Found dequeue() override {
        return field::found([this](Value& value) { return queue.try_dequeue(value); });
    }
};

struct Waits : Circular {
    using Circular::Circular;
    bool enqueue(Value value) override {
        queue.wait_enqueue(value);
        return true;
    }
    Found dequeue() override {
        Value value = 0;
        queue.wait_dequeue(value);
        return value;
    }
};

}    // namespace

int main(int count, char** words) {
    return field::run(count, words, {
        {"readerwriter", field::make<Growing<moodycamel::ReaderWriterQueue<Value>>>},
        {"readerwriter-bounded", field::make<Bounded>},
        {"readerwriter-blocking", field::make<Growing<moodycamel::BlockingReaderWriterQueue<Value>>>},
        {"readerwriter-circular", field::make<Circular>},
        {"readerwriter-waits", field::make<Waits>},
    });
}
