// A set of queues for chosen schedules: wrong ones, each with one fault that real queues had, and right ones.
//
//     queues                                                        lists them
//     queues QUEUE [--runs R] [--threads T] [--ops N] [--pattern P] [--percent K] [--seed S] [--folder F]
//                  [--timeout SECONDS]
//     queues QUEUE THREADS OPERATIONS [PATTERN [SEED]] > history
//
// The arguments are those of examples/recorders/cpp/queue.cpp. A queue for one consumer or one that waits has its own
// number of threads and its own pattern unless the arguments say otherwise.
#include "../../examples/recorders/cpp/recorder.hpp"

#include "locked.hpp"
#include "michael_scott.hpp"
#include "rings.hpp"
#include "segments.hpp"

#include <iostream>
#include <memory>
#include <string>
#include <vector>

namespace {

using fifobench::Pattern;
using Made = std::unique_ptr<Any>;

template <class Queue>
Made make() {
    return std::make_unique<Queue>();
}

// How a queue is used.
enum class Use { Any, OneToOne, TwoToOne, Waits };

struct Named {
    const char* name;
    Made (*make)();
    Use use;
    const char* what;    // its fault, or "right"
};

constexpr auto release = std::memory_order_release;
constexpr auto strongest = std::memory_order_seq_cst;

constexpr Named queues[] = {
    {"ms", make<MichaelScott<Slip::None>>, Use::Any, "right"},
    {"hazards", make<Hazards<8, true>>, Use::Any, "right"},
    {"ring", make<Ring<Mistake::None>>, Use::Any, "right"},
    {"lamport", make<Lamport>, Use::OneToOne, "right"},
    {"segments", make<Segments<Loss::None>>, Use::Any, "right"},
    {"two-lock", make<TwoLock>, Use::Any, "right"},
    {"blocking", make<Blocking<true>>, Use::Waits, "right"},
    {"flags", make<Flags<strongest>>, Use::Any, "right"},
    {"ms-no-help", make<MichaelScott<Slip::NoHelp>>, Use::Any, "helping left out: the head passes the tail"},
    {"ms-plain-link", make<MichaelScott<Slip::PlainLink>>, Use::Any, "next stored without compare-and-swap"},
    {"ms-head-store", make<MichaelScott<Slip::HeadStore>>, Use::Any, "head stored after a look"},
    {"ms-aba", make<MichaelScott<Slip::NoTags>>, Use::Any, "ABA over a list of free nodes"},
    {"ms-value-late", make<MichaelScott<Slip::ValueLate>>, Use::Any, "value read after its node may be free"},
    {"ms-gives-up", make<MichaelScott<Slip::GivesUp>>, Use::Any, "empty after three lost races"},
    {"hazards-few", make<Hazards<2, true>>, Use::Any, "too few hazard pointers; three threads have to stop"},
    {"hazards-no-fence", make<Hazards<8, false>>, Use::Any, "no fence after a hazard pointer is set"},
    {"ring-no-sequences", make<Unsequenced<8>>, Use::Any, "slots without sequences"},
    {"ring-sequence-first", make<Ring<Mistake::SequenceFirst>>, Use::Any, "sequence set before the value"},
    {"ring-freed-early", make<Ring<Mistake::FreedEarly>>, Use::Any, "slot freed before its value is read"},
    {"ring-plain-claim", make<Ring<Mistake::PlainClaim>>, Use::Any, "claims that aren't atomic"},
    {"ring-early-empty", make<Ring<Mistake::EarlyEmpty>>, Use::Any, "empty while an earlier enqueue is pending"},
    {"lamport-two", make<Lamport>, Use::TwoToOne, "two producers in a ring for one"},
    {"segments-lost", make<Segments<Loss::Segment>>, Use::Any, "a lost segment"},
    {"segments-slot", make<Segments<Loss::Slot>>, Use::Any, "a slot that is passed over isn't marked"},
    {"counted", make<Counted>, Use::Any, "a counter beside the list"},
    {"upgraded", make<Upgraded>, Use::Any, "no second look under the exclusive lock"},
    {"reversed", make<Reversed>, Use::Any, "values in no list for a moment"},
    {"three-places", make<ThreePlaces>, Use::Any, "a place for three enqueues; three threads have to stop"},
    {"flags-no-fence", make<Flags<release>>, Use::Any, "Dekker's lock without a fence"},
    {"crossed-locks", make<CrossedLocks>, Use::Any, "two locks in two orders: a deadlock"},
    {"lost-wake-up", make<Blocking<false>>, Use::Waits, "a lost wake-up: a deadlock"},
    {"stays-locked", make<StaysLocked>, Use::Any, "a spin lock that is left locked: a livelock"},
};

const Named& named(const std::string& name) {
    for (const Named& queue : queues) {
        if (name == queue.name) {
            return queue;
        }
    }
    throw std::invalid_argument("no queue '" + name + "': queues without an argument lists them");
}

fifobench::Settings settings_for(Use use) {
    fifobench::Settings settings;
    if (use != Use::Any) {
        settings.pattern = Pattern::Roles;
    }
    settings.threads = use == Use::OneToOne ? 2 : use == Use::TwoToOne ? 3 : 4;
    settings.drain = use != Use::Waits;
    return settings;
}

std::uint64_t number(const std::string& word, std::uint64_t least, std::uint64_t most) {
    const bool has_digits = word.find_first_not_of("0123456789") == std::string::npos;
    if (word.empty() || word.size() > 18 || !has_digits || std::stoull(word) < least || std::stoull(word) > most) {
        throw std::invalid_argument("'" + word + "' is no number from " + std::to_string(least) + " to " +
                                    std::to_string(most));
    }
    return std::stoull(word);
}

Pattern pattern(const std::string& word) {
    for (const Pattern pattern : {Pattern::Alternate, Pattern::Mix, Pattern::Bursts, Pattern::Roles}) {
        if (word == fifobench::name_of(pattern)) {
            return pattern;
        }
    }
    throw std::invalid_argument("no pattern '" + word + "': alternate, mix, bursts or roles");
}

void set(fifobench::Settings& settings, const std::string& option, const std::string& word) {
    if (option == "--runs") settings.runs = static_cast<unsigned>(number(word, 1, 1'000'000));
    else if (option == "--threads") settings.threads = static_cast<unsigned>(number(word, 1, 1000));
    else if (option == "--ops") settings.operations = number(word, 0, 1'000'000);
    else if (option == "--pattern") settings.pattern = pattern(word);
    else if (option == "--percent") settings.percent = static_cast<unsigned>(number(word, 0, 100));
    else if (option == "--seed") settings.seed = number(word, 0, 4'294'967'295);
    else if (option == "--folder") settings.folder = word;
    else if (option == "--timeout") settings.timeout = std::chrono::seconds(number(word, 1, 86'400));
    else throw std::invalid_argument("no option '" + option + "'");
}

// Returns the status of a run whose history is written.
int run_once(const Named& queue, const std::vector<std::string>& words) {
    static constexpr const char* options[] = {"--threads", "--ops", "--pattern", "--seed"};
    fifobench::Settings settings = settings_for(queue.use);
    for (std::size_t place = 1; place < words.size(); ++place) {
        set(settings, options[place - 1], words[place]);
    }
    settings.drain = false;
    const Made made = queue.make();
    const auto history = fifobench::run(settings, *made);
    history.write(std::cout);
    return !std::cout ? 3 : history.has_failed() ? 2 : 0;
}

int run(const std::vector<std::string>& words) {
    if (words.empty()) {
        for (const Named& queue : queues) {
            std::cout << queue.name << ": " << queue.what << '\n';
        }
        return 0;
    }
    const Named& queue = named(words[0]);
    if (words.size() >= 3 && words.size() <= 5 && words[1].rfind("--", 0) != 0) {
        return run_once(queue, words);
    }
    fifobench::Settings settings = settings_for(queue.use);
    for (std::size_t place = 1; place < words.size(); place += 2) {
        set(settings, words[place], place + 1 < words.size() ? words[place + 1] : "");
    }
    return fifobench::search(settings, queue.make);
}

}    // namespace

int main(int count, char** words) {
    std::ios::sync_with_stdio(false);
    try {
        return run(std::vector<std::string>(words + 1, words + count));
    } catch (const std::exception& exception) {
        std::cerr << "queues: " << exception.what() << '\n';
        return 2;
    }
}
