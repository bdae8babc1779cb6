// moodycamel's ConcurrentQueue, plain, blocking and with tokens.
#include "field.hpp"

#include <concurrentqueue/blockingconcurrentqueue.h>
#include <concurrentqueue/concurrentqueue.h>

namespace {

using field::Found;
using field::Value;

template <class Queue>
struct Plain : field::Any {
    explicit Plain(std::size_t) {}
    Queue queue;
    bool enqueue(Value value) override { return queue.enqueue(value); }
    Found dequeue() override {
        return field::found([this](Value& value) { return queue.try_dequeue(value); });
    }
};

struct Waits : Plain<moodycamel::BlockingConcurrentQueue<Value>> {
    using Plain::Plain;
    Found dequeue() override {
        Value value = 0;
        queue.wait_dequeue(value);
        return value;
    }
};

// Each thread has tokens of its own.
struct Tokens : field::Any {
    struct Pair {
        moodycamel::ProducerToken producer;
        moodycamel::ConsumerToken consumer;
    };
    explicit Tokens(std::size_t) {}
    moodycamel::ConcurrentQueue<Value> queue;
    static thread_local std::unique_ptr<Pair> tokens;

    void enter(unsigned) override {
        tokens.reset(new Pair{moodycamel::ProducerToken(queue), moodycamel::ConsumerToken(queue)});
    }
    void leave(unsigned) override { tokens.reset(); }
    bool enqueue(Value value) override { return queue.enqueue(tokens->producer, value); }
    Found dequeue() override {
        return field::found([this](Value& value) { return queue.try_dequeue(tokens->consumer, value); });
    }
};

thread_local std::unique_ptr<Tokens::Pair> Tokens::tokens;

}    // namespace

int main(int count, char** words) {
    return field::run(count, words, {
        {"moodycamel", field::make<Plain<moodycamel::ConcurrentQueue<Value>>>},
        {"moodycamel-tokens", field::make<Tokens>},
        {"moodycamel-blocking", field::make<Plain<moodycamel::BlockingConcurrentQueue<Value>>>},
        {"moodycamel-waits", field::make<Waits>},
        {"moodycamel-one-producer", field::make<Plain<moodycamel::ConcurrentQueue<Value>>>},
    });
}
