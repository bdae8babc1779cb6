// Queues with a fault that shows if goroutines meet in one way alone, and right ones beside them.
//
//	queues NAME [--seed S] [--runs R] [--ops N] [--strategy S] [--folder F] [--timeout SECONDS]
//
// makes a search, with status 0, 1 or 2.
// queues --list has a line for each: its name, whether it is right, and the fault.
package main

import (
	"fmt"
	"os"
	"strconv"
	"sync"
	"sync/atomic"
	"time"

	"fifobench"
)

type node struct {
	value uint64
	next  atomic.Pointer[node]
}

// A list with a first node that is empty, as Michael and Scott's.
type linked struct {
	head, tail atomic.Pointer[node]
	// The first links a node to the last one, the second moves the head to the node that follows.
	link     func(last, added *node) bool
	moveHead func(first, following *node) bool
}

func newLinked() *linked {
	list := &linked{}
	first := &node{}
	list.head.Store(first)
	list.tail.Store(first)
	list.link = func(last, added *node) bool {
		fifobench.Point()
		return last.next.CompareAndSwap(nil, added)
	}
	list.moveHead = func(first, following *node) bool {
		fifobench.Point()
		return list.head.CompareAndSwap(first, following)
	}
	return list
}

// Fault: the node is stored after a look, without a compare-and-swap.
func storedNext() fifobench.Queue {
	list := newLinked()
	list.link = func(last, added *node) bool {
		fifobench.Point()
		if last.next.Load() != nil {
			return false
		}
		fifobench.Point()
		last.next.Store(added)
		return true
	}
	return list
}

// Fault: the head is stored after a look, without a compare-and-swap.
func storedHead() fifobench.Queue {
	list := newLinked()
	list.moveHead = func(first, following *node) bool {
		fifobench.Point()
		if list.head.Load() != first {
			return false
		}
		fifobench.Point()
		list.head.Store(following)
		return true
	}
	return list
}

func (list *linked) Enqueue(value uint64) bool {
	added := &node{value: value}
	for {
		fifobench.Point()
		last := list.tail.Load()
		fifobench.Point()
		following := last.next.Load()
		fifobench.Point()
		if following != nil {
			list.tail.CompareAndSwap(last, following)
		} else if list.link(last, added) {
			fifobench.Point()
			list.tail.CompareAndSwap(last, added)
			return true
		}
	}
}

func (list *linked) Dequeue() (uint64, bool) {
	for {
		fifobench.Point()
		first := list.head.Load()
		fifobench.Point()
		last := list.tail.Load()
		fifobench.Point()
		following := first.next.Load()
		if following == nil {
			return 0, false
		}
		if first == last {
			fifobench.Point()
			list.tail.CompareAndSwap(last, following)
		} else if list.moveHead(first, following) {
			return following.value, true
		}
	}
}

type slot struct {
	sequence atomic.Uint64
	value    atomic.Uint64
}

const size = 8

// A ring whose slots have sequences, as Vyukov's; it isn't empty while an earlier enqueue is pending.
type ring struct {
	slots                            [size]slot
	head, tail                       atomic.Uint64
	isEarly, isFreedEarly, saysEmpty bool
}

func newRing() *ring {
	ring := &ring{}
	for place := range ring.slots {
		ring.slots[place].sequence.Store(uint64(place))
	}
	return ring
}

func (ring *ring) Enqueue(value uint64) bool {
	for {
		fifobench.Point()
		at := ring.tail.Load()
		slot := &ring.slots[at%size]
		fifobench.Point()
		lag := int64(slot.sequence.Load() - at)
		fifobench.Point()
		if lag == 0 && ring.tail.CompareAndSwap(at, at+1) {
			ring.set(slot, at, value)
			return true
		}
		if lag < 0 && at == ring.tail.Load() && at-ring.head.Load() >= size {
			return false
		}
		if lag < 0 {
			fifobench.Relax()
		}
	}
}

func (ring *ring) set(slot *slot, at, value uint64) {
	// Fault: the sequence is set before the value.
	if ring.isEarly {
		slot.sequence.Store(at + 1)
		fifobench.Point()
		slot.value.Store(value)
		return
	}
	fifobench.Point()
	slot.value.Store(value)
	fifobench.Point()
	slot.sequence.Store(at + 1)
}

func (ring *ring) Dequeue() (uint64, bool) {
	for {
		fifobench.Point()
		at := ring.head.Load()
		slot := &ring.slots[at%size]
		fifobench.Point()
		lag := int64(slot.sequence.Load() - (at + 1))
		fifobench.Point()
		if lag == 0 && ring.head.CompareAndSwap(at, at+1) {
			return ring.take(slot, at), true
		}
		// Fault: a later enqueue may have returned though this slot's is pending.
		if lag < 0 && (ring.saysEmpty || ring.tail.Load() == at) {
			return 0, false
		}
		if lag < 0 {
			fifobench.Relax()
		}
	}
}

func (ring *ring) take(slot *slot, at uint64) uint64 {
	fifobench.Point()
	// Fault: the slot is freed before its value is read.
	if ring.isFreedEarly {
		slot.sequence.Store(at + size)
		fifobench.Point()
		return slot.value.Load()
	}
	value := slot.value.Load()
	fifobench.Point()
	slot.sequence.Store(at + size)
	return value
}

// A list under a lock.
type locked struct {
	lock   fifobench.Mutex
	values []uint64
}

func (list *locked) Enqueue(value uint64) bool {
	list.lock.Lock()
	defer list.lock.Unlock()
	list.values = append(list.values, value)
	return true
}

func (list *locked) Dequeue() (uint64, bool) {
	list.lock.Lock()
	defer list.lock.Unlock()
	if len(list.values) == 0 {
		return 0, false
	}
	value := list.values[0]
	list.values = list.values[1:]
	return value, true
}

// Fault: the length is counted beside the list.
type counted struct {
	locked
	count atomic.Int64
}

func (list *counted) Enqueue(value uint64) bool {
	list.locked.Enqueue(value)
	fifobench.Point()
	list.count.Add(1)
	return true
}

func (list *counted) Dequeue() (uint64, bool) {
	fifobench.Point()
	if list.count.Load() <= 0 {
		return 0, false
	}
	value, found := list.locked.Dequeue()
	if found {
		list.count.Add(-1)
	}
	return value, found
}

// Fault: the first value is looked at under the lock, and taken under it once more.
type peeked struct {
	locked
}

func (list *peeked) Dequeue() (uint64, bool) {
	list.lock.Lock()
	if len(list.values) == 0 {
		list.lock.Unlock()
		return 0, false
	}
	value := list.values[0]
	list.lock.Unlock()
	list.locked.Dequeue()
	return value, true
}

// Fault: a place is claimed by a load and a store.
type splitClaim struct {
	values     [1 << 10]atomic.Uint64 // a value and 1
	head, tail atomic.Uint64
}

func (places *splitClaim) Enqueue(value uint64) bool {
	fifobench.Point()
	at := places.tail.Load()
	places.values[at].Store(value + 1)
	fifobench.Point()
	places.tail.Store(at + 1)
	return true
}

func (places *splitClaim) Dequeue() (uint64, bool) {
	for {
		fifobench.Point()
		at := places.head.Load()
		fifobench.Point()
		if at >= places.tail.Load() {
			return 0, false
		}
		value := places.values[at].Load()
		fifobench.Point()
		if places.head.CompareAndSwap(at, at+1) {
			return value - 1, true
		}
	}
}

// Two locks, taken in two orders.
type deadlocked struct {
	locked
	second fifobench.Mutex
}

func (list *deadlocked) Enqueue(value uint64) bool {
	list.second.Lock()
	defer list.second.Unlock()
	return list.locked.Enqueue(value)
}

func (list *deadlocked) Dequeue() (uint64, bool) {
	list.lock.Lock()
	defer list.lock.Unlock()
	list.second.Lock()
	defer list.second.Unlock()
	if len(list.values) == 0 {
		return 0, false
	}
	value := list.values[0]
	list.values = list.values[1:]
	return value, true
}

// A dequeue waits in a loop, under the lock, for a value.
type livelocked struct {
	locked
}

func (list *livelocked) Dequeue() (uint64, bool) {
	list.lock.Lock()
	defer list.lock.Unlock()
	for len(list.values) == 0 {
		fifobench.Relax()
	}
	value := list.values[0]
	list.values = list.values[1:]
	return value, true
}

// A lock that doesn't give way, with a point under it.
type blocking struct {
	lock sync.Mutex
	locked
}

func (list *blocking) Enqueue(value uint64) bool {
	list.lock.Lock()
	defer list.lock.Unlock()
	fifobench.Point()
	return list.locked.Enqueue(value)
}

type entry struct {
	name, kind, fault string
	make              func() fifobench.Queue
}

var entries = []entry{
	{"linked", "right", "", func() fifobench.Queue { return newLinked() }},
	{"ring", "right", "", func() fifobench.Queue { return newRing() }},
	{"locked", "right", "", func() fifobench.Queue { return &locked{} }},
	{"stored-next", "wrong", "the node is stored after a look, without a compare-and-swap", storedNext},
	{"stored-head", "wrong", "the head is stored after a look, without a compare-and-swap", storedHead},
	{"early-sequence", "wrong", "the sequence is set before the value", func() fifobench.Queue {
		ring := newRing()
		ring.isEarly = true
		return ring
	}},
	{"early-free", "wrong", "the slot is freed before its value is read", func() fifobench.Queue {
		ring := newRing()
		ring.isFreedEarly = true
		return ring
	}},
	{"empty-early", "wrong", "empty while the first enqueue is pending, though a later one has returned",
		func() fifobench.Queue {
			ring := newRing()
			ring.saysEmpty = true
			return ring
		}},
	{"counted", "wrong", "the length is counted beside the list", func() fifobench.Queue { return &counted{} }},
	{"peeked", "wrong", "the first value is looked at, and taken later", func() fifobench.Queue { return &peeked{} }},
	{"split-claim", "wrong", "a place is claimed by a load and a store", func() fifobench.Queue { return &splitClaim{} }},
	{"deadlock", "hung", "two locks in two orders", func() fifobench.Queue { return &deadlocked{} }},
	{"livelock", "hung", "a loop under a lock", func() fifobench.Queue { return &livelocked{} }},
	{"blocking", "hung", "a sync.Mutex with a point under it", func() fifobench.Queue { return &blocking{} }},
}

func set(options *fifobench.Options, schedule *fifobench.Schedule, name, word string) error {
	number, err := strconv.ParseUint(word, 10, 32)
	switch name {
	case "--seed":
		options.Seed = number
	case "--runs":
		options.Runs = number
	case "--ops":
		options.Operations = int(number)
	case "--timeout":
		options.Timeout = time.Duration(number) * time.Second
	case "--strategy":
		schedule.Strategy, err = word, nil
	case "--folder":
		options.Folder, err = word, nil
	default:
		err = fmt.Errorf("no option %q", name)
	}
	return err
}

func status(words []string) (fifobench.Answer, error) {
	if len(words) == 1 && words[0] == "--list" {
		for _, one := range entries {
			fmt.Printf("%s\t%s\t%s\n", one.name, one.kind, one.fault)
		}
		return fifobench.NoViolation, nil
	}
	options, schedule := fifobench.Defaults(), &fifobench.Schedule{}
	options.Schedule = schedule
	for place := 1; place+1 < len(words); place += 2 {
		if err := set(&options, schedule, words[place], words[place+1]); err != nil {
			return fifobench.Wrong, err
		}
	}
	for _, one := range entries {
		if len(words)%2 == 1 && one.name == words[0] {
			return fifobench.Search(options, one.make), nil
		}
	}
	return fifobench.Wrong, fmt.Errorf("a name of --list, and options with their values")
}

func main() {
	status, err := status(os.Args[1:])
	if err != nil {
		fmt.Fprintln(os.Stderr, "queues:", err)
	}
	os.Exit(int(status))
}
