// Queues of Go and its standard library.
package main

import (
	"container/list"
	"runtime"
	"sync"

	"field"
	"fifobench"
)

// The two calls of a channel that never wait.
func tries(channel chan uint64) fifobench.Queue {
	return field.Calls{
		Put: func(value uint64) bool {
			select {
			case channel <- value:
				return true
			default:
				return false
			}
		},
		Take: func() (uint64, bool) {
			select {
			case value := <-channel:
				return value, true
			default:
				return 0, false
			}
		},
	}
}

func waits(channel chan uint64) fifobench.Queue {
	return field.Calls{
		Put:  func(value uint64) bool { channel <- value; return true },
		Take: func() (uint64, bool) { return <-channel, true },
	}
}

// A send that never waits finds a receiver that does, or is tried again.
func meets(channel chan uint64) fifobench.Queue {
	try := tries(channel)
	return field.Calls{
		Put: func(value uint64) bool {
			for !try.Enqueue(value) {
				runtime.Gosched()
			}
			return true
		},
		Take: waits(channel).Dequeue,
	}
}

func locked(int) fifobench.Queue {
	var lock sync.Mutex
	values := list.New()
	return field.Calls{
		Put: func(value uint64) bool {
			lock.Lock()
			defer lock.Unlock()
			values.PushBack(value)
			return true
		},
		Take: func() (uint64, bool) {
			lock.Lock()
			defer lock.Unlock()
			if values.Len() == 0 {
				return 0, false
			}
			return values.Remove(values.Front()).(uint64), true
		},
	}
}

func pool(int) fifobench.Queue {
	values := &sync.Pool{}
	return field.Calls{
		Put: func(value uint64) bool { values.Put(value); return true },
		Take: func() (uint64, bool) {
			value, isFound := values.Get().(uint64)
			return value, isFound
		},
	}
}

func main() {
	field.Run(field.Queues{
		"go-channel":            func(size int) fifobench.Queue { return tries(make(chan uint64, size)) },
		"go-channel-waits":      func(size int) fifobench.Queue { return waits(make(chan uint64, size)) },
		"go-unbuffered":         func(int) fifobench.Queue { return waits(make(chan uint64)) },
		"go-unbuffered-select":  func(int) fifobench.Queue { return meets(make(chan uint64)) },
		"go-list-under-a-mutex": locked,
		"go-sync-pool":          pool,
	})
}
