// A queue that ends a run early: see run, which says what a search of it has to say.
//
//	queue ORDER END FOLDER
//
// ORDER is fifo or lifo. END is what the second dequeue does: lock, wait, throw, kill, or fine;
// or, with late, what the 250th does: it waits.
package main

import (
	"os"
	"strings"
	"sync"
	"syscall"
	"time"

	"fifobench"
)

type queue struct {
	order, end string
	values     []uint64
	dequeues   int
	lock       sync.Mutex
}

func (queue *queue) Enqueue(value uint64) bool {
	queue.values = append(queue.values, value)
	return true
}

func (queue *queue) Dequeue() (uint64, bool) {
	queue.dequeues++
	if queue.dequeues == map[bool]int{true: 250, false: 2}[queue.end == "late"] {
		queue.endEarly()
	}
	if len(queue.values) == 0 {
		return 0, false
	}
	place := 0
	if queue.order == "lifo" {
		place = len(queue.values) - 1
	}
	value := queue.values[place]
	queue.values = append(queue.values[:place], queue.values[place+1:]...)
	return value, true
}

func (queue *queue) endEarly() {
	switch queue.end {
	case "lock":
		queue.lock.Lock()
		queue.lock.Lock()
	case "wait", "late":
		<-make(chan bool)
	case "throw":
		panic("no value today")
	case "kill":
		// The journal has the call that is pending.
		for text := ""; !strings.HasSuffix(text, "\n52 0 call-deq\n"); time.Sleep(time.Millisecond) {
			bytes, _ := os.ReadFile(os.Args[3] + "/3.pending")
			text = string(bytes)
		}
		_ = syscall.Kill(os.Getpid(), syscall.SIGKILL)
	}
}

func main() {
	if len(os.Args) != 4 {
		os.Exit(3)
	}
	options := fifobench.Defaults()
	options.Threads, options.Operations, options.Seed = 1, 60, 3 // bursts, the first of 25
	if os.Args[2] == "late" {
		options.Operations, options.Seed = 600, 1 // alternate
	}
	options.Runs = 1
	if strings.Contains("lock wait late", os.Args[2]) {
		options.Timeout = time.Second
	}
	options.Folder, options.Journal = os.Args[3], os.Args[2] == "kill"
	answer := fifobench.Search(options, func() fifobench.Queue { return &queue{order: os.Args[1], end: os.Args[2]} })
	os.Exit(int(answer))
}
