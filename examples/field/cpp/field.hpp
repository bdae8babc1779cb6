// What the C++ programs of this folder share: a search over one of their queues.
//
//     PROGRAM QUEUE SIZE THREADS PRODUCERS OPERATIONS RUNS INITIAL DRAIN FOLDER
//
// SIZE is the capacity of a bounded queue. The others are settings of the recorder; DRAIN is 0 or 1.
#ifndef FIFOBENCH_FIELD_HPP
#define FIFOBENCH_FIELD_HPP

#include "../../recorders/cpp/recorder.hpp"

#include <algorithm>
#include <initializer_list>
#include <iostream>
#include <iterator>
#include <memory>
#include <optional>
#include <sstream>
#include <string>

namespace field {

using Value = std::uint64_t;
using Found = std::optional<Value>;

// The value that `take(value)` finds, which returns whether there was one.
template <class Take>
Found found(Take take) {
    Value value = 0;
    return take(value) ? Found(value) : std::nullopt;
}

// A queue of any kind: the search over it is compiled once in each program.
class Any {
public:
    virtual ~Any() = default;
    virtual bool enqueue(Value value) = 0;    // false: it is full
    virtual Found dequeue() = 0;              // std::nullopt: it is empty
    virtual void enter(unsigned) {}           // in each thread before its first call
    virtual void leave(unsigned) {}           // in each thread after its last call
};

using Made = std::unique_ptr<Any>;

// A queue that is made with its capacity.
template <class Kind>
Made make(std::size_t size) {
    return std::make_unique<Kind>(size);
}

// A queue whose capacity is a template argument.
template <template <std::size_t> class Kind>
Made make_sized(std::size_t size) {
    switch (size) {
    case 8: return std::make_unique<Kind<8>>();
    case 32: return std::make_unique<Kind<32>>();
    case 1024: return std::make_unique<Kind<1024>>();
    }
    throw std::invalid_argument("sizes are 8, 32 and 1024");
}

struct Named {
    const char* name;
    Made (*make)(std::size_t size);
};

// The status of the search; 2 if the arguments are wrong. Values are 1 and more: for some queues 0 is "nothing".
inline int run(int count, char** words, std::initializer_list<Named> queues) {
    std::stringstream arguments;
    std::copy(words + 1, words + count, std::ostream_iterator<const char*>(arguments, " "));
    fifobench::Settings settings;
    std::string name;
    std::size_t size = 0;
    arguments >> name >> size >> settings.threads >> settings.producers >> settings.operations >> settings.runs >>
        settings.initial >> settings.drain >> settings.folder;
    settings.first = 1;
    settings.keep = true;
    for (const Named& queue : queues) {
        if (arguments && name == queue.name) {
            return fifobench::search(settings, [&] { return queue.make(size); });
        }
    }
    std::cerr << words[0] << ": no such queue, or fewer than nine arguments\n";
    return 2;
}

}    // namespace field

#endif
