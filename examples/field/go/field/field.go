// Package field is what the Go programs of this folder share: a search over one of their queues.
//
//	PROGRAM QUEUE SIZE THREADS PRODUCERS OPERATIONS RUNS INITIAL DRAIN FOLDER
//
// SIZE is the capacity of a bounded queue. The others are settings of the recorder; DRAIN is 0 or 1.
package field

import (
	"fmt"
	"os"
	"strings"

	"fifobench"
)

// Queues have a name each, and are made of their capacity.
type Queues map[string]func(size int) fifobench.Queue

// Calls is a queue by its two calls.
type Calls struct {
	Put  func(value uint64) bool
	Take func() (uint64, bool)
}

func (calls Calls) Enqueue(value uint64) bool { return calls.Put(value) }

func (calls Calls) Dequeue() (uint64, bool) { return calls.Take() }

// Run searches, and ends the program with the status of the search; 2 if the arguments are wrong.
func Run(queues Queues) {
	options := fifobench.Defaults()
	options.First, options.Keep = 1, true // values are 1 and more, as in the other languages
	var name string
	var size, drain int
	_, err := fmt.Sscan(strings.Join(os.Args[1:], " "), &name, &size, &options.Threads, &options.Producers,
		&options.Operations, &options.Runs, &options.Initial, &drain, &options.Folder)
	if err != nil || queues[name] == nil {
		fmt.Fprintln(os.Stderr, "field: no such queue, or fewer than nine arguments")
		os.Exit(int(fifobench.Wrong))
	}
	options.Drain = drain == 1
	os.Exit(int(fifobench.Search(options, func() fifobench.Queue { return queues[name](size) })))
}
