// Queues of Boost: lockfree, thread (sync queues), fiber (channels, called by threads).
#include "field.hpp"

#include <boost/fiber/buffered_channel.hpp>
#include <boost/lockfree/queue.hpp>
#include <boost/lockfree/spsc_queue.hpp>
#include <boost/lockfree/stack.hpp>
#include <boost/thread/concurrent_queues/sync_bounded_queue.hpp>
#include <boost/thread/concurrent_queues/sync_priority_queue.hpp>
#include <boost/thread/concurrent_queues/sync_queue.hpp>

namespace {

using field::Found;
using field::Value;
using Status = boost::concurrent::queue_op_status;

// The size is the number of nodes that are there at the start, or the capacity.
template <class Queue>
struct Lockfree : field::Any {
    explicit Lockfree(std::size_t size) : queue(size) {}
    Queue queue;
    bool enqueue(Value value) override { return queue.push(value); }
    Found dequeue() override {
        return field::found([this](Value& value) { return queue.pop(value); });
    }
};

// Memory is taken at the start alone.
struct Bounded : Lockfree<boost::lockfree::queue<Value>> {
    using Lockfree::Lockfree;
    bool enqueue(Value value) override { return queue.bounded_push(value); }
};

template <std::size_t size>
struct Fixed : field::Any {
    boost::lockfree::queue<Value, boost::lockfree::capacity<size>> queue;
    bool enqueue(Value value) override { return queue.push(value); }
    Found dequeue() override {
        return field::found([this](Value& value) { return queue.pop(value); });
    }
};

template <class Queue>
struct Sync : field::Any {
    explicit Sync(std::size_t) {}
    Queue queue;
    bool enqueue(Value value) override {
        queue.push(value);
        return true;
    }
    Found dequeue() override {
        return field::found([this](Value& value) { return queue.try_pull(value) == Status::success; });
    }
};

struct SyncBounded : field::Any {
    explicit SyncBounded(std::size_t size) : queue(size) {}
    boost::concurrent::sync_bounded_queue<Value> queue;
    bool enqueue(Value value) override { return queue.try_push_back(value) == Status::success; }
    Found dequeue() override {
        return field::found([this](Value& value) { return queue.try_pull_front(value) == Status::success; });
    }
};

struct SyncWaits : field::Any {
    explicit SyncWaits(std::size_t size) : queue(size) {}
    boost::concurrent::sync_bounded_queue<Value> queue;
    bool enqueue(Value value) override {
        queue.push_back(value);
        return true;
    }
    Found dequeue() override { return queue.pull_front(); }
};

// One place of the channel stays free.
struct Channel : field::Any {
    explicit Channel(std::size_t size) : queue(size) {}
    boost::fibers::buffered_channel<Value> queue;
    bool enqueue(Value value) override { return queue.try_push(value) == boost::fibers::channel_op_status::success; }
    Found dequeue() override {
        return field::found([this](Value& value) {
            return queue.try_pop(value) == boost::fibers::channel_op_status::success;
        });
    }
};

}    // namespace

int main(int count, char** words) {
    return field::run(count, words, {
        {"boost-queue", field::make<Lockfree<boost::lockfree::queue<Value>>>},
        {"boost-queue-bounded", field::make<Bounded>},
        {"boost-queue-fixed", field::make_sized<Fixed>},
        {"boost-spsc", field::make<Lockfree<boost::lockfree::spsc_queue<Value>>>},
        {"boost-stack", field::make<Lockfree<boost::lockfree::stack<Value>>>},
        {"boost-sync", field::make<Sync<boost::concurrent::sync_queue<Value>>>},
        {"boost-sync-bounded", field::make<SyncBounded>},
        {"boost-sync-waits", field::make<SyncWaits>},
        {"boost-sync-priority", field::make<Sync<boost::concurrent::sync_priority_queue<Value>>>},
        {"boost-fiber-channel", field::make<Channel>},
    });
}
