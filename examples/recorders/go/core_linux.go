package fifobench

// The core of a goroutine, by system calls of Linux. Beside recorder.go; without this file goroutines wait on any core.

import (
	"runtime"
	"syscall"
	"unsafe"
)

func init() {
	stayOnCore = stayOnCoreOfLinux
}

// Cores as bits.
type cores [128]byte

// Sets or gets the cores on which the calling thread may run. Returns whether that was possible.
func (cores *cores) call(number uintptr) bool {
	_, _, fault := syscall.RawSyscall(number, 0, unsafe.Sizeof(*cores), uintptr(unsafe.Pointer(cores)))
	return fault == 0
}

// Returns the numbers of the cores.
func (cores *cores) list() []int {
	var list []int
	for core := 0; core < 8*len(cores); core++ {
		if cores[core/8]>>(core%8)&1 == 1 {
			list = append(list, core)
		}
	}
	return list
}

// Keeps the calling goroutine on a thread and a core of its own until it calls what is returned: goroutine 0 on the
// first core that it may run on, and so on.
func stayOnCoreOfLinux(number int) func() {
	runtime.LockOSThread()
	var before, one cores
	isKnown := before.call(syscall.SYS_SCHED_GETAFFINITY)
	if list := before.list(); isKnown && len(list) > 1 {
		core := list[number%len(list)]
		one[core/8] = 1 << (core % 8)
		one.call(syscall.SYS_SCHED_SETAFFINITY)
	}
	return func() {
		if isKnown {
			before.call(syscall.SYS_SCHED_SETAFFINITY)
		}
		runtime.UnlockOSThread()
	}
}
