// A buffered channel, and lists under a lock that are made wrong on purpose, recorded.
//
//	queue QUEUE                                        searches for a violation, status 0, 1 or 2
//	queue QUEUE [--runs R] [--threads T] [--producers N] [--ops N] [--pattern P] [--percent K] [--seed S]
//	    [--initial N] [--condition C] [--overtaken-at-most N] [--folder F] [--keep 0|1] [--timeout SECONDS]
//	                                                               the same with settings
//	queue QUEUE THREADS OPERATIONS [PATTERN [SEED [INITIAL]]]      one run, written to standard output
//
// Without a pattern, or with loop, the one run is a loop of one's own.
//
// QUEUE is good (the channel), wrong (every 4th value that is found stays), stack (last in, first out), shards (values
// of two producers overtake each other), early (says empty too early), hang (a dequeue never returns) or throw (a
// dequeue panics).
package main

import (
	"fmt"
	"os"
	"strconv"
	"strings"
	"sync"
	"sync/atomic"
	"time"

	"fifobench"
)

// A channel as a queue: what doesn't fit is not taken, and nobody waits.
type channel chan uint64

func (values channel) Enqueue(value uint64) bool {
	select {
	case values <- value:
		return true
	default:
		return false
	}
}

func (values channel) Dequeue() (uint64, bool) {
	select {
	case value := <-values:
		return value, true
	default:
		return 0, false
	}
}

// A list under a lock, with the fault of its kind.
type list struct {
	kind   string
	lock   sync.Mutex
	values []uint64
	found  uint64
	// Counted beside the list and outside of the lock, for early.
	size     atomic.Int64
	dequeues atomic.Int64
}

func (list *list) Enqueue(value uint64) bool {
	list.lock.Lock()
	list.values = append(list.values, value)
	list.lock.Unlock()
	if list.kind == "early" {
		// A yield is over at once if no other goroutine waits for this processor.
		if value%8 == 0 {
			time.Sleep(time.Microsecond)
		}
		list.size.Add(1)
	}
	return true
}

func (list *list) Dequeue() (uint64, bool) {
	switch list.kind {
	case "early":
		return list.takeCounted()
	case "hang":
		if list.dequeues.Add(1) == 100 {
			select {}
		}
	case "throw":
		if list.dequeues.Add(1) == 100 {
			panic("the 100th dequeue")
		}
	}
	return list.take()
}

func (list *list) take() (uint64, bool) {
	list.lock.Lock()
	defer list.lock.Unlock()
	last := len(list.values) - 1
	if last < 0 {
		return 0, false
	}
	if list.kind == "stack" {
		value := list.values[last]
		list.values = list.values[:last]
		return value, true
	}
	// The first value of the last one's producer: the order of each producer is kept.
	if list.kind == "shards" {
		place := 0
		for list.values[place]>>32 != list.values[last]>>32 {
			place++
		}
		value := list.values[place]
		list.values = append(list.values[:place], list.values[place+1:]...)
		return value, true
	}
	value := list.values[0]
	list.found++
	// The fault of wrong: every 4th value that is found is left in place.
	if list.kind != "wrong" || list.found%4 != 0 {
		list.values = list.values[1:]
	}
	return value, true
}

// The fault of early: a value is in the list before it is counted, and another goroutine may take it meanwhile.
func (list *list) takeCounted() (uint64, bool) {
	if list.size.Load() <= 0 {
		return 0, false
	}
	value, found := list.take()
	if found {
		list.size.Add(-1)
	}
	return value, found
}

const capacity = 1024

func makeQueue(kind string) fifobench.Queue {
	if kind == "good" {
		return make(channel, capacity)
	}
	return &list{kind: kind}
}

func number(name, word string, least, most uint64) (uint64, error) {
	if word == "" || strings.Trim(word, "0123456789") != "" {
		return 0, fmt.Errorf("%s is a number, and not %q", name, word)
	}
	number, err := strconv.ParseUint(word, 10, 64)
	if err != nil || number < least || number > most {
		return 0, fmt.Errorf("%s is %d to %d, and not %s", name, least, most, word)
	}
	return number, nil
}

func set(options *fifobench.Options, name, word string) error {
	var found uint64
	var err error
	switch name {
	case "--runs":
		options.Runs, err = number(name, word, 1, 1_000_000)
	case "--threads":
		found, err = number(name, word, 1, fifobench.MaxThreads)
		options.Threads = int(found)
	case "--ops":
		found, err = number(name, word, 1, fifobench.MaxOperations)
		options.Operations = int(found)
	case "--pattern":
		options.Pattern = fifobench.Pattern(word)
		if word == "" {
			err = fmt.Errorf("no pattern %q: alternate, mix, bursts or roles", word)
		}
	case "--percent":
		options.Percent, err = number(name, word, 0, 100)
	case "--seed":
		options.Seed, err = number(name, word, 0, 4_294_967_295)
	case "--initial":
		found, err = number(name, word, 0, fifobench.MaxInitial)
		options.Initial = int(found)
	case "--condition":
		options.Condition = fifobench.Condition(word)
	case "--overtaken-at-most":
		found, err = number(name, word, 0, 1_000_000)
		options.OvertakenAtMost = int64(found)
	case "--folder":
		options.Folder = word
	case "--producers":
		found, err = number(name, word, 0, 63)
		options.Producers = int(found)
	case "--keep":
		found, err = number(name, word, 0, 1)
		options.Keep = found == 1
	case "--timeout":
		found, err = number(name, word, 1, 86_400)
		options.Timeout = time.Duration(found) * time.Second
	default:
		err = fmt.Errorf("no option %q", name)
	}
	return err
}

func isOneRun(words []string) bool {
	return len(words) > 0 && !strings.HasPrefix(words[0], "--")
}

func settings(words []string) (fifobench.Options, error) {
	options := fifobench.Defaults()
	names := []string{"--threads", "--ops", "--pattern", "--seed", "--initial"}
	if isOneRun(words) {
		if len(words) < 2 || len(words) > len(names) {
			return options, fmt.Errorf("one run is QUEUE THREADS OPERATIONS [PATTERN [SEED [INITIAL]]]")
		}
		options.Drain = false
		for place, word := range words {
			if word == "loop" {
				continue
			}
			if err := set(&options, names[place], word); err != nil {
				return options, err
			}
		}
		return options, options.Check()
	}
	for place := 0; place < len(words); place += 2 {
		if place+1 == len(words) {
			return options, fmt.Errorf("%s has no value", words[place])
		}
		if err := set(&options, words[place], words[place+1]); err != nil {
			return options, err
		}
	}
	return options, options.Check()
}

// Which operations are enqueues if no pattern is named; a thread begins at its number and goes round.
const steps = "EEDDDEED"

// A loop of one's own, recorded.
func recordSteps(options fifobench.Options, queue fifobench.Queue) (*fifobench.History, error) {
	for _, value := range options.InitialValues() {
		queue.Enqueue(value)
	}
	return fifobench.RecordWith(options, func(thread *fifobench.Thread) {
		for n := 0; n < options.Operations; n++ {
			if steps[(n+thread.Number())%len(steps)] == 'E' {
				thread.Enqueue(queue.Enqueue)
			} else {
				thread.Dequeue(queue.Dequeue)
			}
		}
	})
}

func oneRun(options fifobench.Options, queue fifobench.Queue) int {
	record := fifobench.Run
	if options.Pattern == fifobench.Turns {
		record = recordSteps
	}
	history, err := record(options, queue)
	if err != nil {
		fmt.Fprintln(os.Stderr, "queue:", err)
		return int(fifobench.Wrong)
	}
	if history.IsGivenUp() {
		return int(fifobench.Wrong)
	}
	for _, failure := range history.Failures() {
		fmt.Fprintln(os.Stderr, "fifobench:", failure)
	}
	if err := history.Write(os.Stdout); err != nil {
		fmt.Fprintln(os.Stderr, "queue:", err)
		return 3
	}
	if len(history.Failures()) > 0 {
		return int(fifobench.Wrong)
	}
	return 0
}

func status(words []string) (int, error) {
	if len(words) == 0 {
		return 0, fmt.Errorf("which queue? good, wrong, stack, shards, early, hang or throw")
	}
	kind := words[0]
	switch kind {
	case "good", "wrong", "stack", "shards", "early", "hang", "throw":
	default:
		return 0, fmt.Errorf("no queue %q: good, wrong, stack, shards, early, hang or throw", kind)
	}
	options, err := settings(words[1:])
	if err != nil {
		return 0, err
	}
	if isOneRun(words[1:]) {
		return oneRun(options, makeQueue(kind)), nil
	}
	return int(fifobench.Search(options, func() fifobench.Queue { return makeQueue(kind) })), nil
}

func main() {
	status, err := status(os.Args[1:])
	if err != nil {
		fmt.Fprintln(os.Stderr, "queue:", err)
		status = int(fifobench.Wrong)
	}
	os.Exit(status)
}
