// Package fifobench records what goroutines do with a FIFO queue, and searches for a run that no FIFO queue can have
// made. Go 1.19 or later with its standard library: copy this file, judge.go and, on Linux, core_linux.go into a folder
// fifobench of your module. In a test:
//
//	func TestMyQueue(t *testing.T) {
//		answer := fifobench.Search(fifobench.Defaults(), func() fifobench.Queue { return NewMyQueue() })
//		if answer != fifobench.NoViolation {
//			t.Fatal(answer)
//		}
//	}
//
// With the environment variable FIFOBENCH=/path/to/fifobench, `go test -count=1 -v` makes 100 short runs, each over a
// fresh queue, judges each, and prints how many operations overlap. Without -count=1, `go test ./...` repeats an
// earlier answer. A loop of your own is recorded by Record. docs/RECORDING.md has the rules that this package keeps.
package fifobench

import (
	"bufio"
	"bytes"
	"errors"
	"fmt"
	"io"
	"os"
	"runtime"
	"sort"
	"strings"
	"sync"
	"sync/atomic"
	"time"
)

const (
	MaxThreads    = 64
	MaxOperations = 1_000_000
	MaxEvents     = 2_000_000
	MaxInitial    = 100_000
)

// Queue is a queue that is tested.
type Queue interface {
	// Enqueue says whether the queue took the value: false if it was full.
	Enqueue(value uint64) bool
	// Dequeue gives the value that the queue gave, or false if it said that it is empty.
	Dequeue() (uint64, bool)
}

// A Preloader is a queue that takes initial values otherwise than by Enqueue, before the goroutines start.
type Preloader interface {
	Preload(value uint64) bool
}

// A Registrar is a queue whose threads register: Enter is called in each goroutine before the common start, and Leave
// after its last operation.
type Registrar interface {
	Enter(thread int)
	Leave(thread int)
}

// Pattern says which operations a thread makes.
type Pattern string

const (
	// Turns is the pattern of no name: the four take turns by seed.
	Turns Pattern = ""
	// Alternate is enqueue, dequeue, enqueue, ..
	Alternate Pattern = "alternate"
	// Mix takes each operation by chance, Options.Percent of a hundred of them enqueues.
	Mix Pattern = "mix"
	// Bursts is 1 to 32 enqueues, by chance, and then as many dequeues.
	Bursts Pattern = "bursts"
	// Roles lets threads of even number enqueue and the others dequeue; one thread alone alternates.
	Roles Pattern = "roles"
)

var patterns = [4]Pattern{Alternate, Mix, Bursts, Roles}

// Condition is what a history has to meet. docs/RECORDING.md says which queues promise no more than the weaker ones.
type Condition string

const (
	Linearizable Condition = "linearizable"
	// Local: the values of each producer alone are in order.
	Local Condition = "local"
	// WeakEmpty: an empty dequeue promises nothing.
	WeakEmpty Condition = "weak-empty"
	Both      Condition = "both"
)

// The flags of each condition.
var flags = map[Condition]string{Linearizable: "", Local: " --local", WeakEmpty: " --weak-empty",
	Both: " --local --weak-empty"}

// Options are the settings of a run and of a search. Begin with Defaults.
type Options struct {
	Threads    int // 1 to 64
	Operations int // of each thread; 0: by the seed, 500, 100 or 2,500
	Pattern    Pattern
	Producers  int                               // threads 0 to Producers-1 enqueue, the others dequeue; 0: by Pattern
	Percent    uint64                            // enqueues of a hundred operations, for Mix
	Seed       uint64                            // of the run, or of the first run of a search
	Runs       uint64                            // how many a search makes at most; 0: 100, or 300 with chosen schedules
	Timeout    time.Duration                     // a run without an event for so long is given up
	Value      func(thread int, n uint64) uint64 // of a thread's operation n; values have to differ
	First      uint64                            // added to n; 1 for a queue that takes 0 for "nothing"
	Initial    int                               // values that the queue is given before: those of a thread 64
	Drain      bool                              // take values out at the end, until the queue says that it is empty
	Folder     string                            // where histories and reports are kept
	Program    string                            // if empty, that of the variable FIFOBENCH, else that on the PATH
	Schedule   any                               // with schedule.go a Schedule; nil: if FIFOBENCH_SCHEDULE=1
	Journal    bool                              // events reach Folder/SEED.pending while the run goes on
	Keep       bool                              // a search keeps the histories without a violation too
	Condition  Condition                         // what a history has to meet
	// More values that one dequeue overtakes are a violation; below 0 by the condition alone.
	OvertakenAtMost int64
	isQuiet         bool              // what was said once isn't said again
	tellAgain       func(kind string) // the last lines of a verdict, with chosen schedules
}

// Makes a search, if chosen schedules are asked for. Set by schedule.go, if that is beside this file.
var chosenSearch = func(*Options, func() Queue) (answer Answer, isChosen bool, err error) {
	return Wrong, os.Getenv("FIFOBENCH_SCHEDULE") == "1", errors.New("FIFOBENCH_SCHEDULE=1, but there is no schedule.go")
}

// Defaults gives the settings that a search has as a rule.
func Defaults() Options {
	return Options{
		Threads: 4,
		Percent: 50,
		Seed:    1,
		Timeout: 30 * time.Second,
		Value:   func(thread int, n uint64) uint64 { return uint64(thread)<<32 + n },
		Drain:   true,
		Folder:  "fifobench-runs",

		Condition:       Linearizable,
		OvertakenAtMost: -1,
	}
}

// PatternOf gives the pattern of a seed.
func (options *Options) PatternOf(seed uint64) Pattern {
	if options.Pattern != Turns {
		return options.Pattern
	}
	if options.Producers > 0 {
		return Roles
	}
	return patterns[(seed+3)%4]
}

// OperationsOf gives the number of operations of each thread for a seed: unless it is set, 500 for seeds 1 to 4, 100
// for 5 to 8, 500 for 9 to 12 and 2,500 for 13 to 16, which let a ring of 1,024 places go round; and so on.
func (options *Options) OperationsOf(seed uint64) int {
	if options.Operations != 0 {
		return options.Operations
	}
	return [...]int{2_500, 500, 100, 500}[(seed+3)/4%4]
}

// InitialValues gives the values that the queue holds first. Before a loop of your own you put them in, in this order.
func (options *Options) InitialValues() []uint64 {
	var values []uint64
	for place := 0; place < options.Initial; place++ {
		values = append(values, options.Value(MaxThreads, uint64(place)))
	}
	return values
}

// Gives the settings of the run of a seed.
func (options Options) ofRun(seed uint64) Options {
	options.Seed, options.Operations = seed, options.OperationsOf(seed)
	return options
}

// Check says which setting is out of its range.
func (options *Options) Check() error {
	if options.Threads < 1 || options.Threads > MaxThreads {
		return fmt.Errorf("1 to %d threads", MaxThreads)
	}
	if options.Operations < 0 || options.OperationsOf(options.Seed) > MaxOperations/options.Threads {
		return fmt.Errorf("at most %d operations of all threads", MaxOperations)
	}
	hasRoles := options.Producers == 0 || options.PatternOf(0) == Roles
	if options.Producers < 0 || options.Producers >= options.Threads || !hasRoles {
		return errors.New("fewer producers than threads, with the pattern roles")
	}
	if options.Percent > 100 {
		return errors.New("at most 100 percent are enqueues")
	}
	if options.Initial < 0 || options.Initial > MaxInitial {
		return fmt.Errorf("at most %d initial values", MaxInitial)
	}
	if _, isOne := flags[options.Condition]; !isOne {
		return fmt.Errorf("no condition %q: linearizable, local, weak-empty or both", options.Condition)
	}
	for _, pattern := range patterns {
		if options.PatternOf(0) == pattern {
			return nil
		}
	}
	return fmt.Errorf("no pattern %q: alternate, mix, bursts or roles", options.Pattern)
}

// Answer is what a search found; its number is the status that a program ends with.
type Answer int

const (
	NoViolation Answer = iota
	Violation
	// Wrong: no program, a refused history, a hang, a panic. What is wrong is said on standard error.
	Wrong
)

func (answer Answer) String() string {
	return [...]string{"no violation", "violation", "something is wrong"}[answer]
}

// The words of the events, as a history text has them.
const (
	callEnq  = "call-enq"
	retEnq   = "ret-enq"
	retNot   = "ret-not"
	callDeq  = "call-deq"
	retDeq   = "ret-deq"
	retEmpty = "ret-empty"
)

type event struct {
	ticket uint64
	value  uint64 // of callEnq and retDeq
	thread int
	what   string
}

func (event *event) isCall() bool {
	return event.what == callEnq || event.what == callDeq
}

// Thread is what one goroutine records. Only that goroutine may use it.
type Thread struct {
	run    *run
	number int
	asked  uint64
	events []event
	used   int
	// What others may read: the count first, and then as many events.
	count atomic.Int64
	read  atomic.Pointer[[]event]
}

// Number is the thread's number, from 0.
func (thread *Thread) Number() int {
	return thread.number
}

// Enqueue calls call with a value that no other call has. It says whether the queue took the value: false if the queue
// was full.
func (thread *Thread) Enqueue(call func(value uint64) bool) bool {
	value := thread.run.options.Value(thread.number, thread.asked+thread.run.options.First)
	thread.asked++
	thread.note(callEnq, value)
	taken := call(value)
	if taken {
		thread.note(retEnq, 0)
	} else {
		thread.note(retNot, 0)
	}
	return taken
}

// Dequeue calls call, which gives the value that the queue gave, or false if the queue said that it is empty.
func (thread *Thread) Dequeue(call func() (uint64, bool)) (uint64, bool) {
	thread.asked++
	thread.note(callDeq, 0)
	value, found := call()
	if found {
		thread.note(retDeq, value)
	} else {
		thread.note(retEmpty, 0)
	}
	return value, found
}

// The ticket is drawn first: of a call that is before the queue is asked, of a return after it has answered. What came
// before a return is seen by every call that has a greater ticket, since Go's atomics are sequentially consistent.
func (thread *Thread) note(what string, value uint64) {
	ticket := thread.run.tickets.Add(1) - 1
	if ticket >= MaxEvents {
		panic(fmt.Sprintf("a history has at most %d events", MaxEvents))
	}
	if thread.used == len(thread.events) {
		thread.makeRoom(2 * thread.used)
	}
	thread.events[thread.used] = event{ticket: ticket, value: value, thread: thread.number, what: what}
	thread.used++
	thread.count.Store(int64(thread.used))
}

func (thread *Thread) makeRoom(places int) {
	events := make([]event, places)
	copy(events, thread.events)
	thread.events = events
	thread.read.Store(&events)
}

// Keeps the calling goroutine on a core of its own until it calls what is returned. Set by core_linux.go, if that is
// beside this file.
var stayOnCore = func(number int) (letGo func()) { return func() {} }

// The common start: goroutines wait, for a bounded time, until all are there and two are seen to run at once. Where
// they can, each waits on a core of its own; then all begin, on any core.
type start struct {
	threads int64
	arrived atomic.Int64
	lastBy  atomic.Int64
	isOpen  atomic.Bool
}

const (
	looks       = 1_000
	passes      = 64
	arrivalTime = time.Second
	runningTime = 100 * time.Millisecond
)

func (start *start) meet(number int64) {
	letGo := stayOnCore(int(number))
	defer letGo()
	start.arrived.Add(1)
	if start.turns(arrivalTime, 1, func() bool { return start.arrived.Load() >= start.threads }) && start.threads > 1 {
		start.turns(runningTime, passes, func() bool { return start.lastBy.Swap(number) != number })
	}
	start.isOpen.Store(true)
}

// Takes turns of looks until the start is open, or what is looked for was seen so often in one turn. False if the time
// is used up.
func (start *start) turns(bound time.Duration, often int, isSeen func() bool) bool {
	for begin := time.Now(); time.Since(begin) < bound; runtime.Gosched() {
		if start.isSeenInTurn(often, isSeen) {
			return true
		}
	}
	return false
}

func (start *start) isSeenInTurn(often int, isSeen func() bool) bool {
	seen := 0
	for look := 0; look < looks && seen < often && !start.isOpen.Load(); look++ {
		if isSeen() {
			seen++
		}
	}
	return start.isOpen.Load() || seen >= often
}

// History is what was recorded: the events of all threads, by ticket.
type History struct {
	events   []event
	initial  []uint64
	failures []string
	ending   string // "", or how the run ended early: hang, panic, deadlock, livelock
	answer   Answer // what was said of a run that hung
}

// IsComplete says whether every call has its return. If one has none, Write writes a pending text.
func (history *History) IsComplete() bool {
	return len(history.openCalls()) == 0
}

// IsGivenUp says whether the run hung. What there was is kept in the folder; standard error says where.
func (history *History) IsGivenUp() bool {
	return history.ending == "hang"
}

// Failures says what went wrong: panics, or that the run hung.
func (history *History) Failures() []string {
	return history.failures
}

func (history *History) openCalls() []event {
	var last [MaxThreads]*event
	for place := range history.events {
		last[history.events[place].thread] = &history.events[place]
	}
	var calls []event
	for _, event := range last {
		if event != nil && event.isCall() {
			calls = append(calls, *event)
		}
	}
	return calls
}

// Write writes the text of the history.
func (history *History) Write(to io.Writer) error {
	out := bufio.NewWriter(to)
	name := "fifo-history"
	if !history.IsComplete() {
		name = "fifo-pending"
	}
	writeHead(out, name, history.initial)
	for place := range history.events {
		fmt.Fprintln(out, history.events[place].line()...)
	}
	if !history.IsComplete() {
		fmt.Fprintln(out, "open", len(history.openCalls()))
	}
	fmt.Fprintln(out, "end", len(history.events))
	// A write that failed above is kept by the writer, and told here.
	return out.Flush()
}

// Writes what stands before the events.
func writeHead(to io.Writer, name string, initial []uint64) {
	if len(initial) == 0 {
		fmt.Fprintln(to, name, 1)
	} else {
		fmt.Fprintf(to, "%s 2\ninitial %d\n", name, len(initial))
	}
	for _, value := range initial {
		fmt.Fprintln(to, value)
	}
}

// Returns the fields of the event's line.
func (event *event) line() []any {
	if event.what == callEnq || event.what == retDeq {
		return []any{event.ticket, event.thread, event.what, event.value}
	}
	return []any{event.ticket, event.thread, event.what}
}

func (history *History) text() []byte {
	var text bytes.Buffer
	_ = history.Write(&text) // a buffer takes each write
	return text.Bytes()
}

// How many operations overlap another. Threads are bits.
func (history *History) overlapping() int {
	var open, met uint64
	overlapping := 0
	for place := range history.events {
		thread := uint64(1) << history.events[place].thread
		if history.events[place].isCall() {
			if open != 0 {
				met |= open | thread
			}
			open |= thread
			continue
		}
		if met&thread != 0 {
			overlapping++
		}
		met &^= thread
		open &^= thread
	}
	return overlapping
}

func (history *History) count(what string) int {
	count := 0
	for _, event := range history.events {
		if event.what == what {
			count++
		}
	}
	return count
}

// One run: its threads, and what went wrong.
type run struct {
	options   Options
	initial   []uint64
	tickets   atomic.Uint64
	threads   []*Thread
	start     start
	ended     atomic.Int64
	hasFailed atomic.Bool
	lock      sync.Mutex
	failures  []string // under the lock
}

func newRun(options Options, initial []uint64) *run {
	run := &run{options: options, initial: initial, start: start{threads: int64(options.Threads)}}
	for number := 0; number < options.Threads; number++ {
		thread := &Thread{run: run, number: number}
		thread.makeRoom(2*options.Operations + 64)
		run.threads = append(run.threads, thread)
	}
	return run
}

// What one goroutine does; the first one drains when all have ended.
func (run *run) makeSteps(thread *Thread, work func(thread *Thread), queue Queue) {
	isOver := false
	defer func() {
		if !isOver {
			run.fail(fmt.Sprintf("panic: thread %d panicked: %v", thread.number, recover()))
		}
	}()
	registrar, registers := queue.(Registrar)
	if registers {
		registrar.Enter(thread.number)
	}
	run.start.meet(int64(thread.number))
	work(thread)
	run.ended.Add(1)
	if thread.number == 0 && queue != nil && run.options.Drain && run.haveAllEnded() {
		run.drain(queue)
	}
	if registers {
		registrar.Leave(thread.number)
	}
	isOver = true
}

func (run *run) fail(told string) {
	run.hasFailed.Store(true)
	run.lock.Lock()
	defer run.lock.Unlock()
	run.failures = append(run.failures, told)
}

// Stays until all threads have made their operations; false if one failed.
func (run *run) haveAllEnded() bool {
	for run.ended.Load() < int64(len(run.threads)) && !run.hasFailed.Load() {
		time.Sleep(50 * time.Microsecond)
	}
	return !run.hasFailed.Load()
}

// Runs the goroutines, and waits until they have ended or hang. Those that hang are left.
func (run *run) execute(work func(thread *Thread), queue Queue) *History {
	var running sync.WaitGroup
	running.Add(len(run.threads))
	for _, thread := range run.threads {
		go func(thread *Thread) {
			defer running.Done()
			run.makeSteps(thread, work, queue)
		}(thread)
	}
	over := make(chan struct{})
	go func() {
		running.Wait()
		close(over)
	}()
	if run.endsWith(over) {
		return run.history("")
	}
	run.fail(run.toldHang())
	return run.endHung()
}

func (run *run) toldHang() string {
	return fmt.Sprintf("hang: no event for %g s", run.options.Timeout.Seconds())
}

// Judges at once what there is of a run that hangs: its goroutines go on.
func (run *run) endHung() *History {
	history := run.history("hang")
	history.answer = history.endEarly(&run.options)
	return history
}

// Stays until the run is over; false if no ticket is drawn for the time of the options.
func (run *run) endsWith(over <-chan struct{}) bool {
	journal := newJournal(run)
	defer journal.remove()
	look := time.NewTicker(journal.often())
	defer look.Stop()
	seen, since := uint64(0), time.Now()
	for {
		select {
		case <-over:
			return true
		case <-look.C:
			journal.write()
			drawn := run.tickets.Load()
			if drawn != seen {
				seen, since = drawn, time.Now()
			} else if time.Since(since) >= run.options.Timeout {
				return false
			}
		}
	}
}

// While goroutines run, the events up to the first that isn't there yet.
func (run *run) history(ending string) *History {
	var events []event
	for _, thread := range run.threads {
		count := thread.count.Load()
		events = append(events, (*thread.read.Load())[:count]...)
	}
	sort.Slice(events, func(one, other int) bool { return events[one].ticket < events[other].ticket })
	// Tickets are drawn from 0 on, so a ticket is its event's place.
	whole := 0
	for whole < len(events) && events[whole].ticket == uint64(whole) {
		whole++
	}
	run.lock.Lock()
	defer run.lock.Unlock()
	failures := append([]string(nil), run.failures...)
	if ending == "" && len(failures) > 0 {
		ending = "panic"
	}
	return &History{events: events[:whole], initial: run.initial, failures: failures, ending: ending}
}

// Takes out what is left, until the queue says that it is empty or has given more values than went in.
func (run *run) drain(queue Queue) {
	history := run.history("")
	left := len(run.initial) + history.count(retEnq) - history.count(retDeq)
	if left < 0 {
		left = 0
	}
	room := MaxOperations - len(history.events)/2
	for n := 0; n < left+1 && n < room; n++ {
		if _, found := run.threads[0].Dequeue(queue.Dequeue); !found {
			return
		}
	}
	told := "the queue gave more values than went in"
	if room <= left {
		told = fmt.Sprintf("a history has at most %d events, and the drain stopped there", MaxEvents)
	}
	if !run.options.isQuiet {
		say("seed %d: %s", run.options.Seed, told)
	}
}

func say(format string, words ...any) {
	eraseProgress()
	fmt.Fprintf(os.Stderr, "fifobench: "+format+"\n", words...)
}

func toldCalls(calls []event) string {
	var told []string
	for _, call := range calls {
		kind := "dequeue"
		if call.what == callEnq {
			kind = fmt.Sprintf("enqueue of %d", call.value)
		}
		told = append(told, fmt.Sprintf("thread %d is inside %s", call.thread, kind))
	}
	if told == nil {
		return "no thread is inside a call"
	}
	return strings.Join(told, ", ")
}

// Record runs work in each of the goroutines, which begin together, and gives what they recorded. Memory is taken
// ahead for this number of operations of each; more are recorded too, and take memory as they come.
//
// If a call panics, its goroutine ends and the others go on; if no event comes for 30 seconds, what there is is kept
// in the folder fifobench-runs, and the goroutines that hang are left. In both cases the history has failures. An
// error is that a number is out of its range.
func Record(threads, operations int, work func(thread *Thread)) (*History, error) {
	options := Defaults()
	options.Threads, options.Operations = threads, operations
	return RecordWith(options, work)
}

// RecordWith is Record with more settings; there is no drain and no pattern. With initial values the history says that
// the queue holds Options.InitialValues first: put them in before.
func RecordWith(options Options, work func(thread *Thread)) (*History, error) {
	if err := options.Check(); err != nil {
		return nil, err
	}
	return newRun(options.ofRun(options.Seed), options.InitialValues()).execute(work, nil), nil
}

// Run makes one run over this queue, by the pattern of the seed. An error is that a setting is out of its range, or
// that the queue has no room for an initial value.
func Run(options Options, queue Queue) (*History, error) {
	if err := options.Check(); err != nil {
		return nil, err
	}
	preload := queue.Enqueue
	if preloader, ok := queue.(Preloader); ok {
		preload = preloader.Preload
	}
	options = options.ofRun(options.Seed)
	initial := options.InitialValues()
	for _, value := range initial {
		if !preload(value) {
			return nil, fmt.Errorf("the queue has no room for the initial value %d", value)
		}
	}
	work := func(thread *Thread) {
		for _, isEnqueue := range options.plan(thread.number) {
			if isEnqueue {
				thread.Enqueue(queue.Enqueue)
			} else {
				thread.Dequeue(queue.Dequeue)
			}
		}
	}
	return newRun(options, initial).execute(work, queue), nil
}

// The state of SplitMix64.
type words uint64

func (words *words) next() uint64 {
	*words += 0x9e3779b97f4a7c15
	z := uint64(*words)
	z = (z ^ z>>30) * 0xbf58476d1ce4e5b9
	z = (z ^ z>>27) * 0x94d049bb133111eb
	return z ^ z>>31
}

// What one thread does: true is an enqueue.
func (options *Options) plan(thread int) []bool {
	words := words(options.Seed*MaxThreads + uint64(thread))
	plan := make([]bool, options.Operations)
	pattern := options.PatternOf(options.Seed)
	length, burst := 1, 0
	for n := range plan {
		if burst == 0 {
			if pattern == Bursts {
				length = 1 + int(words.next()%32)
			}
			burst = 2 * length
		}
		plan[n] = burst > length
		if pattern == Mix {
			plan[n] = words.next()%100 < options.Percent
		} else if pattern == Roles && options.Producers > 0 {
			plan[n] = thread < options.Producers
		} else if pattern == Roles && options.Threads > 1 {
			plan[n] = thread%2 == 0
		}
		burst--
	}
	return plan
}

// Search makes runs from the first seed on, each over a fresh queue, and judges each with `fifobench check`, until one
// is a violation.
//
// What it found is said on standard output. The first violation is kept in the folder: the history, and the report of
// `fifobench shrink`. If no program is found, nothing is judged, and every history is kept.
func Search(options Options, makeQueue func() Queue) Answer {
	answer, err := search(options, makeQueue)
	if err != nil {
		say("%v", err)
		return Wrong
	}
	return answer
}

func search(options Options, makeQueue func() Queue) (Answer, error) {
	if err := options.Check(); err != nil {
		return Wrong, err
	}
	if answer, isChosen, err := chosenSearch(&options, makeQueue); isChosen {
		return answer, err
	}
	if options.Runs == 0 {
		options.Runs = 100
	}
	options.nameKilled()
	found := found{isJudged: options.isFound()}
	made, answer, progress := uint64(0), NoViolation, newProgress()
	for ; made < options.Runs && answer == NoViolation; made++ {
		progress.show(made, options.Runs-made)
		ofRun := options.ofRun(options.Seed + made)
		var err error
		if answer, err = found.answer(&ofRun, makeQueue); err != nil {
			return Wrong, err
		}
	}
	if answer == NoViolation {
		answer = options.tellNone(found.isJudged, found.told())
	}
	options.tellKept(answer, found.isJudged, made, found.events)
	return answer, nil
}
