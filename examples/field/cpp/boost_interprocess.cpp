// The message queue of Boost.Interprocess, which lies in shared memory.
#include "field.hpp"

#include <boost/interprocess/ipc/message_queue.hpp>
#include <unistd.h>

namespace {

using boost::interprocess::message_queue;
using field::Found;
using field::Value;

struct Messages : field::Any {
    explicit Messages(std::size_t size)
        : queue(boost::interprocess::create_only, name().c_str(), size, sizeof(Value)) {}
    ~Messages() override { message_queue::remove(name().c_str()); }
    static std::string name() { return "fifobench-field-" + std::to_string(getpid()); }
    message_queue queue;
    bool enqueue(Value value) override { return queue.try_send(&value, sizeof value, 0); }
    Found dequeue() override {
        return field::found([this](Value& value) {
            message_queue::size_type size = 0;
            unsigned priority = 0;
            return queue.try_receive(&value, sizeof value, size, priority);
        });
    }
};

}    // namespace

int main(int count, char** words) {
    return field::run(count, words, {
        {"boost-interprocess", field::make<Messages>},
    });
}
