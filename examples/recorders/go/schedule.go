package fifobench

// Chooses how the goroutines of a recorded run interleave, so that a seed fixes the run and not its plan alone. Beside
// recorder.go, with schedule_search.go; FIFOBENCH_SCHEDULE=1 in the environment, or Options.Schedule = Schedule{}.
//
// One goroutine runs at a time. At a point another one may go on: between two operations, and where the queue calls
//
//	fifobench.Point()     before an access to what goroutines share
//	fifobench.Relax()     in a loop that waits for another goroutine
//	fifobench.Mutex       in place of sync.Mutex: who can't lock it lets others go on
//
// These do nothing, and the mutex is a sync.Mutex, in a run without chosen schedules. Without any of them operations
// run whole, in an order by chance. The seed draws a strategy, its rates, and the number of operations, at most 100 of
// each goroutine:
//
//	naps    operations run whole, in an order by chance; now and then a goroutine is stopped at a point, and sleeps
//	        until 1 to 32 operations of others have ended
//	walk    at 1 point of 3 to 300, by chance, another goroutine goes on
//	pct     goroutines have priorities by chance, and at depth - 1 points of a round the running one becomes the last
//	        (Burckhardt, Kothari, Musuvathi, Nagarakatte, ASPLOS 2010, here in rounds of some operations)
//
// If no goroutine can run the run is a deadlock; if a bound of points passes without an operation that ends, it is a
// livelock. Not covered: what blocks otherwise within a call (sync.Mutex, channels, WaitGroup) while another goroutine
// was stopped at a point inside; such a run is given up after Options.Timeout, with a line that says where it blocks.
// Goroutines that the queue starts run free. Orders of maps and of select are drawn by the runtime, not by the seed.

import (
	"bytes"
	"fmt"
	"os"
	"path/filepath"
	"runtime"
	"strconv"
	"strings"
	"sync"
	"sync/atomic"
	"time"
	"unsafe"
)

// Schedule has the settings of chosen schedules. Zero: drawn from the seed, or as the environment says.
type Schedule struct {
	Strategy   string // naps, walk or pct
	OneIn      int    // of walk: another goroutine goes on at 1 point of this number
	Depth      int    // of pct
	Operations int    // of each goroutine
	Patience   int    // points without an operation that ends, after which a run is a livelock; 100,000
}

// Point is a point at which another goroutine may go on, before an access to what goroutines share.
func Point() {
	if scheduler := now.Load(); scheduler != nil {
		scheduler.point()
	}
}

// Relax is a point in a loop that waits for another goroutine.
func Relax() {
	if scheduler := now.Load(); scheduler == nil {
		runtime.Gosched()
	} else if seat := scheduler.current(); seat != nil {
		seat.relaxes = true
		scheduler.leaveTurn(seat, spins)
	}
}

// Mutex is a sync.Mutex, but a goroutine of a run that can't lock it lets others go on.
type Mutex struct {
	mutex sync.Mutex
}

// Lock locks it.
func (mutex *Mutex) Lock() {
	scheduler := now.Load()
	if scheduler == nil {
		mutex.mutex.Lock()
		return
	}
	seat := scheduler.current()
	if seat == nil {
		scheduler.hasForeign.Store(true)
		mutex.mutex.Lock()
		return
	}
	scheduler.point()
	for !mutex.mutex.TryLock() {
		seat.waitsFor = mutex
		scheduler.leaveTurn(seat, waits)
	}
}

// TryLock tries to lock it, and says whether it did.
func (mutex *Mutex) TryLock() bool {
	Point()
	return mutex.mutex.TryLock()
}

// Unlock unlocks it.
func (mutex *Mutex) Unlock() {
	mutex.mutex.Unlock()
	if scheduler := now.Load(); scheduler != nil && scheduler.current() != nil {
		scheduler.released(mutex)
	}
}

const (
	mostOperations = 100
	mostNap        = 6    // a nap lasts until at most 2^5 operations of others have ended
	mostSpins      = 200  // points of one goroutine within an operation after which others have their turn
	replaySpins    = 1000 // the same while given switches are made again
	mostQuota      = 8    // operations in a round of pct
	patience       = 100_000
)

// The scheduler of the run that goes on.
var now atomic.Pointer[scheduler]

// Why a goroutine stopped.
type reason int

const (
	atPoint reason = iota
	between
	spins
	waits
	leaves
)

// Which operation of a goroutine, and the point within it; 0 is before its call.
type key struct {
	thread, operation, point int
}

// A switch: one goroutine stopped at its point, and another went on.
type change struct {
	key
	to     int
	why    reason
	where  string
	ticket uint64 // of the event that came next
}

// What is known of one goroutine.
type seat struct {
	number     int
	gate       chan struct{}
	operation  int
	point      int
	seen       int // points of the operation that are counted
	since      int // the point at which it went on
	stopAt     int
	hasEnded   bool
	relaxes    bool
	dozes      bool // of naps: it spins
	waitsFor   any
	wakesAt    int
	priority   int64
	quota      int
	id         uint64
	low, high  uintptr // where its stack was seen
	hasEntered atomic.Bool
}

// What the seed has drawn.
type drawn struct {
	strategy   string
	oneIn      int
	depth      int
	operations int
}

var rates = [...]int{3, 5, 10, 20, 50, 100, 300}

func (settings *Schedule) draw(seed uint64, operations int) drawn {
	words := words(^seed * MaxThreads) // no goroutine's plan begins there
	strategy := [...]string{"naps", "naps", "naps", "naps", "walk", "walk", "pct", "pct"}[words.next()%8]
	found := drawn{strategy, rates[words.next()%7], 2 + int(words.next()%9), operations}
	if operations == 0 || operations > mostOperations {
		found.operations = mostOperations
	}
	// 1/8, 1/4, 1/2 or all of the most.
	if share := found.operations >> (words.next() % 4); share >= 4 {
		found.operations = share
	}
	for _, set := range []struct{ to, by *int }{
		{&found.oneIn, &settings.OneIn}, {&found.depth, &settings.Depth}, {&found.operations, &settings.Operations}} {
		if *set.by != 0 {
			*set.to = *set.by
		}
	}
	if settings.Strategy != "" {
		found.strategy = settings.Strategy
	}
	return found
}

// settingsOf gives the settings of chosen schedules; false if none are asked for.
func settingsOf(options *Options) (Schedule, bool, error) {
	settings, isAsked := options.Schedule.(Schedule)
	if pointer, ok := options.Schedule.(*Schedule); ok {
		settings, isAsked = *pointer, true
	}
	if word := os.Getenv("FIFOBENCH_SCHEDULE"); options.Schedule == nil && word != "" && word != "0" {
		isAsked = true
	}
	if settings.Strategy == "" {
		settings.Strategy = os.Getenv("FIFOBENCH_STRATEGY")
	}
	if number, err := strconv.Atoi(os.Getenv("FIFOBENCH_PATIENCE")); err == nil && settings.Patience == 0 {
		settings.Patience = number
	}
	if settings.Patience == 0 {
		settings.Patience = patience
	}
	switch settings.Strategy {
	case "", "naps", "walk", "pct":
		return settings, isAsked, nil
	}
	return settings, isAsked, fmt.Errorf("no strategy %q: naps, walk or pct", settings.Strategy)
}

// The schedule of one run.
type scheduler struct {
	settings   Schedule
	words      words
	seats      []*seat
	running    atomic.Pointer[seat]
	tickets    *atomic.Uint64
	steps      int
	ended      int
	progress   int // steps when an operation last ended
	strategy   strategy
	isReplay   bool
	mostSpins  int
	made       []change
	outcome    string // deadlock or livelock
	places     map[int]string
	isOver     atomic.Bool
	hasForeign atomic.Bool
	skipped    map[key]bool // operations that aren't made
}

// Who goes on at a stop, and how many points there are until the next.
type strategy interface {
	gap(seat *seat) int
	next(seat *seat, why reason) *seat
}

func newScheduler(settings Schedule, found drawn, seed uint64, threads int, replay []change) *scheduler {
	scheduler := &scheduler{settings: settings, words: words(^seed*MaxThreads + 1), mostSpins: mostSpins}
	for number := 0; number < threads; number++ {
		scheduler.seats = append(scheduler.seats, &seat{number: number, gate: make(chan struct{}, 1), quota: 1})
	}
	switch {
	case replay != nil:
		scheduler.isReplay, scheduler.mostSpins = true, replaySpins
		scheduler.strategy = newReplay(scheduler, replay)
	case found.strategy == "naps":
		scheduler.strategy = &naps{scheduler, []int{1, 2, 4}[scheduler.below(3)]}
	case found.strategy == "walk":
		scheduler.strategy = &walk{scheduler, found.oneIn}
	case found.strategy == "pct":
		scheduler.strategy = newPct(scheduler, found.depth)
	default:
		scheduler.strategy = newFew(scheduler)
	}
	return scheduler
}

func (scheduler *scheduler) below(bound int) int {
	return int(scheduler.words.next() % uint64(bound))
}

// The seat of the goroutine that calls; nil if it isn't one of the run's.
func (scheduler *scheduler) current() *seat {
	if scheduler.isOver.Load() {
		scheduler.leaveRun()
		return nil
	}
	seat := scheduler.running.Load()
	if seat == nil {
		return nil
	}
	var here byte
	at := uintptr(unsafe.Pointer(&here))
	if at-seat.low <= seat.high-seat.low {
		return seat
	}
	// A stack may have moved, and another goroutine may call. Its number is slow to find, so where it was seen is kept.
	if goroutine() != seat.id {
		return nil
	}
	const near = 1 << 14
	if at-seat.high < near {
		seat.high = at
	} else if seat.low-at < near {
		seat.low = at
	} else {
		seat.low, seat.high = at, at
	}
	return seat
}

// Ends a goroutine of the run, once that is over. Its deferred calls are made, and may come here again.
func (scheduler *scheduler) leaveRun() {
	id := goroutine()
	for _, one := range scheduler.seats {
		if one.hasEntered.Load() && one.id == id {
			runtime.Goexit()
		}
	}
}

// The number of the goroutine that calls: "goroutine 7 [running]".
func goroutine() uint64 {
	var text [64]byte
	words := bytes.Fields(text[:runtime.Stack(text[:], false)])
	number, err := strconv.ParseUint(string(words[1]), 10, 64)
	if err != nil {
		panic("fifobench: no number of a goroutine: " + err.Error())
	}
	return number
}

func (scheduler *scheduler) point() {
	seat := scheduler.current()
	if seat == nil {
		return
	}
	seat.point++
	if seat.point >= seat.stopAt {
		scheduler.stop(seat)
	}
}

// A point at which the strategy may let another goroutine go on.
func (scheduler *scheduler) stop(seat *seat) {
	scheduler.count(seat)
	why := atPoint
	if seat.point-seat.since >= scheduler.mostSpins {
		why = spins
	}
	scheduler.goOn(seat, scheduler.strategy.next(seat, why), why)
	scheduler.setStop(seat)
}

func (scheduler *scheduler) setStop(seat *seat) {
	gap := scheduler.strategy.gap(seat)
	if rest := seat.since + scheduler.mostSpins - seat.point; gap > rest {
		gap = rest
	}
	seat.stopAt = seat.point + gap
}

func (scheduler *scheduler) count(seat *seat) {
	scheduler.steps += seat.point - seat.seen
	seat.seen = seat.point
	if scheduler.isOver.Load() {
		runtime.Goexit()
	}
	if scheduler.steps-scheduler.progress > scheduler.settings.Patience {
		scheduler.end("livelock", seat)
	}
}

// Those that can go on. The seat itself is among them if it may stay, or if no other is.
func (scheduler *scheduler) candidates(self *seat, mayStay bool) []*seat {
	able := scheduler.those(func(one *seat) bool { return !one.relaxes && (mayStay || one != self) })
	if len(able) == 0 {
		able = scheduler.those(func(one *seat) bool { return one != self })
	}
	if len(able) == 0 {
		able = scheduler.those(func(*seat) bool { return true })
	}
	return able
}

func (scheduler *scheduler) those(are func(one *seat) bool) []*seat {
	var found []*seat
	for _, one := range scheduler.seats {
		if !one.hasEnded && one.waitsFor == nil && are(one) {
			found = append(found, one)
		}
	}
	return found
}

// Who goes on; nil if nobody can. A goroutine of the queue's own may unlock what the others wait for.
func (scheduler *scheduler) next(self *seat, why reason) *seat {
	other := scheduler.strategy.next(self, why)
	for other == nil && scheduler.hasForeign.Load() && !scheduler.isOver.Load() {
		time.Sleep(50 * time.Microsecond)
		for _, one := range scheduler.seats {
			if _, isMutex := one.waitsFor.(*Mutex); isMutex {
				one.waitsFor = nil
			}
		}
		other = scheduler.strategy.next(self, why)
	}
	return other
}

// The goroutine can't go on now, or lets others go first.
func (scheduler *scheduler) leaveTurn(seat *seat, why reason) {
	seat.point++
	scheduler.count(seat)
	other := scheduler.next(seat, why)
	if other == nil {
		scheduler.end("deadlock", seat)
	}
	scheduler.goOn(seat, other, why)
	seat.relaxes = false
	scheduler.setStop(seat)
}

func (scheduler *scheduler) released(what any) {
	for _, one := range scheduler.seats {
		if one.waitsFor == what {
			one.waitsFor = nil
		}
	}
}

func (scheduler *scheduler) goOn(seat, other *seat, why reason) {
	if other == seat {
		if why == spins {
			seat.since = seat.point
		}
		return
	}
	scheduler.note(seat, other, why)
	if !seat.relaxes {
		for _, one := range scheduler.seats {
			one.relaxes = false
		}
	}
	other.gate <- struct{}{}
	scheduler.take(seat)
}

func (scheduler *scheduler) note(seat, other *seat, why reason) {
	where := ""
	if why != between && why != leaves {
		where = place()
	}
	at := key{seat.number, seat.operation, seat.point}
	scheduler.made = append(scheduler.made, change{at, other.number, why, where, scheduler.tickets.Load()})
}

// Stays until it is the goroutine's turn.
func (scheduler *scheduler) take(seat *seat) {
	<-seat.gate
	if scheduler.isOver.Load() {
		runtime.Goexit()
	}
	scheduler.running.Store(seat)
	seat.since = seat.point
}

// Ends a run in which no goroutine gets on.
func (scheduler *scheduler) end(outcome string, seat *seat) {
	scheduler.outcome = outcome
	scheduler.places = scheduler.findPlaces()
	scheduler.abandon(seat)
	if seat != nil {
		runtime.Goexit()
	}
}

// Ends the goroutines that wait for their turn.
func (scheduler *scheduler) abandon(running *seat) {
	scheduler.isOver.Store(true)
	for _, one := range scheduler.seats {
		if one != running && !one.hasEnded {
			select {
			case one.gate <- struct{}{}:
			default:
			}
		}
	}
}

// Called as the goroutine begins; returns when it is its turn.
func (scheduler *scheduler) enter(seat *seat) {
	seat.id = goroutine()
	seat.hasEntered.Store(true)
	scheduler.take(seat)
	scheduler.setStop(seat)
}

// Between two operations.
func (scheduler *scheduler) operationEnded(seat *seat) {
	scheduler.count(seat)
	scheduler.ended++
	scheduler.progress = scheduler.steps
	seat.operation++
	seat.point, seat.seen, seat.since = 0, 0, 0
	for _, one := range scheduler.seats {
		one.dozes = false
	}
	scheduler.goOn(seat, scheduler.strategy.next(seat, between), between)
	scheduler.setStop(seat)
}

// Stays until all other goroutines have left.
func (scheduler *scheduler) waitForOthers(seat *seat) {
	for _, one := range scheduler.seats {
		if one != seat && !one.hasEnded {
			seat.waitsFor = scheduler
			scheduler.leaveTurn(seat, leaves)
		}
	}
}

// The goroutine has made its last step.
func (scheduler *scheduler) leave(seat *seat) {
	seat.hasEnded = true
	if scheduler.isOver.Load() {
		return
	}
	stay, wait := 0, 0
	for _, one := range scheduler.seats {
		if !one.hasEnded {
			stay++
			if one.waitsFor == scheduler {
				wait++
			}
		}
	}
	if stay == wait {
		scheduler.released(scheduler)
	}
	scheduler.running.Store(nil)
	if stay == 0 {
		return
	}
	seat.point++
	other := scheduler.next(seat, leaves)
	if other == nil {
		scheduler.end("deadlock", nil)
		return
	}
	scheduler.note(seat, other, leaves)
	other.gate <- struct{}{}
}

// This file and the recorder's.
var own = func() string {
	_, file, _, _ := runtime.Caller(0)
	return filepath.Dir(file)
}()

func isOwn(file string) bool {
	if filepath.Dir(file) != own {
		return strings.HasPrefix(file, runtime.GOROOT())
	}
	name := filepath.Base(file)
	return name == "recorder.go" || strings.HasPrefix(name, "schedule")
}

// The innermost line of the queue's that the goroutine is in.
func place() string {
	var counters [32]uintptr
	frames := runtime.CallersFrames(counters[:runtime.Callers(2, counters[:])])
	for {
		frame, more := frames.Next()
		if !isOwn(frame.File) {
			return told(frame.File, frame.Line, frame.Function)
		}
		if !more {
			return ""
		}
	}
}

func told(file string, line int, function string) string {
	return fmt.Sprintf("%s:%d (%s)", filepath.Base(file), line, function[strings.LastIndexByte(function, '.')+1:])
}

// Where each goroutine is, from the text of all stacks.
func (scheduler *scheduler) findPlaces() map[int]string {
	text := make([]byte, 1<<20)
	text = text[:runtime.Stack(text, true)]
	places := map[int]string{}
	for _, stack := range strings.Split(string(text), "\n\n") {
		var id uint64
		if _, err := fmt.Sscanf(stack, "goroutine %d ", &id); err != nil {
			continue
		}
		for _, one := range scheduler.seats {
			if one.hasEntered.Load() && one.id == id {
				places[one.number] = placeIn(stack)
			}
		}
	}
	return places
}

// The innermost line of a stack's text that is the queue's.
func placeIn(stack string) string {
	lines := strings.Split(stack, "\n")
	for at := 1; at+1 < len(lines); at += 2 {
		file, rest, _ := strings.Cut(strings.TrimSpace(lines[at+1]), ".go:")
		number, _, _ := strings.Cut(rest, " ")
		if line, err := strconv.Atoi(number); err == nil && !isOwn(file+".go") {
			function := lines[at]
			if end := strings.LastIndexByte(function, '('); end > 0 {
				function = function[:end]
			}
			return told(file+".go", line, function)
		}
	}
	return "the recorder's call"
}
