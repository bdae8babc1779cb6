// A queue of the set, whatever it is made of.
#ifndef ANY_HPP
#define ANY_HPP

#include <cstdint>
#include <optional>

class Any {
public:
    virtual ~Any() = default;
    virtual bool enqueue(std::uint64_t value) = 0;
    virtual std::optional<std::uint64_t> dequeue() = 0;
    virtual void enter(unsigned) {}    // in each thread before its first call
};

#endif
