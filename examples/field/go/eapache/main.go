// Channels and the queue of eapache.
package main

import (
	"sync"

	"field"
	"fifobench"

	"gopkg.in/eapache/channels.v1"
	"gopkg.in/eapache/queue.v1"
)

// A goroutine of the channel's own moves values from one end to the other.
func ends(channel channels.Channel) fifobench.Queue {
	return field.Calls{
		Put: func(value uint64) bool { channel.In() <- value; return true },
		Take: func() (uint64, bool) {
			select {
			case value := <-channel.Out():
				return value.(uint64), true
			default:
				return 0, false
			}
		},
	}
}

// The queue isn't made for threads.
func locked(int) fifobench.Queue {
	var lock sync.Mutex
	values := queue.New()
	return field.Calls{
		Put: func(value uint64) bool {
			lock.Lock()
			defer lock.Unlock()
			values.Add(value)
			return true
		},
		Take: func() (uint64, bool) {
			lock.Lock()
			defer lock.Unlock()
			if values.Length() == 0 {
				return 0, false
			}
			value := values.Peek().(uint64)
			values.Remove()
			return value, true
		},
	}
}

func main() {
	field.Run(field.Queues{
		"eapache-infinite": func(int) fifobench.Queue { return ends(channels.NewInfiniteChannel()) },
		"eapache-ring": func(size int) fifobench.Queue {
			return ends(channels.NewRingChannel(channels.BufferCap(size)))
		},
		"eapache-queue-under-a-mutex": locked,
	})
}
