// Queues of several kinds, as they are, and how the recorder calls each. The status is 0 if none shows a violation.
package main

import (
	"container/list"
	"errors"
	"os"
	"sync"

	"fifobench"
)

// An error means empty, and what is in it are pointers. Its threads register.
type items struct {
	lock       sync.Mutex
	list       list.List
	registered map[int]bool
}

type item struct{ number uint64 }

var errEmpty = errors.New("the queue is empty")

func (items *items) remove() (*item, error) {
	items.lock.Lock()
	defer items.lock.Unlock()
	if items.list.Len() == 0 {
		return nil, errEmpty
	}
	return items.list.Remove(items.list.Front()).(*item), nil
}

// The number of an item stands for the pointer to it.
func (items *items) Enqueue(value uint64) bool {
	items.lock.Lock()
	defer items.lock.Unlock()
	items.list.PushBack(&item{number: value})
	return true
}

func (items *items) Dequeue() (uint64, bool) {
	found, err := items.remove()
	if errors.Is(err, errEmpty) {
		return 0, false
	}
	return found.number, true
}

func (items *items) Enter(thread int) {
	items.lock.Lock()
	defer items.lock.Unlock()
	items.registered[thread] = true
}

func (items *items) Leave(thread int) {
	items.lock.Lock()
	defer items.lock.Unlock()
	delete(items.registered, thread)
}

// A channel whose calls wait: they have no answer "full" or "empty".
type blocking chan uint64

func (values blocking) Enqueue(value uint64) bool {
	values <- value
	return true
}

func (values blocking) Dequeue() (uint64, bool) {
	return <-values, true
}

func main() {
	options := fifobench.Defaults()
	options.Runs, options.Initial = 20, 10
	answer := fifobench.Search(options, func() fifobench.Queue { return &items{registered: map[int]bool{}} })
	// As many producers as consumers, so that each dequeue finds a value, and no drain, which would wait.
	options.Initial, options.Pattern, options.Drain = 0, fifobench.Roles, false
	answers := []fifobench.Answer{answer}
	for _, threads := range []int{2, 4} {
		options.Threads = threads
		answers = append(answers, fifobench.Search(options, func() fifobench.Queue { return make(blocking, 16) }))
	}
	for _, answer := range answers {
		if answer != fifobench.NoViolation {
			os.Exit(int(answer))
		}
	}
}
