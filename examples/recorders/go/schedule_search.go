package fifobench

// Searches with chosen schedules, and traces a violation to the few switches that it needs. Beside schedule.go.

import (
	"bytes"
	"fmt"
	"os"
	"path/filepath"
	"runtime"
	"sort"
	"strconv"
	"strings"
	"sync"
)

const (
	mostRuns      = 300 // of a search, unless its options say more or fewer
	mostReplays   = 150 // in each of four rounds in which operations or switches are left out
	mostLivelocks = 10  // the same of a livelock, which takes long
	mostSwitches  = 6   // a trace with more is tried to be had with fewer
	mostFew       = 200 // tries
)

func init() {
	chosenSearch = func(options *Options, makeQueue func() Queue) (Answer, bool, error) {
		settings, isChosen, err := settingsOf(options)
		if !isChosen || err != nil {
			return Wrong, isChosen, err
		}
		answer, err := (&searching{*options, settings, makeQueue}).answer()
		return answer, true, err
	}
}

// RunScheduled makes one run with a chosen schedule over a fresh queue, by the pattern of the seed, with as many
// operations as the options say.
func RunScheduled(options Options, makeQueue func() Queue) (*History, error) {
	settings, _, err := settingsOf(&options)
	if err == nil {
		err = options.Check()
	}
	if err != nil {
		return nil, err
	}
	settings.Operations = options.OperationsOf(options.Seed)
	made, err := (&searching{options, settings, makeQueue}).make(options.Seed, variant{})
	if err != nil {
		return nil, err
	}
	return made.history, nil
}

// One run at a time may have its schedule chosen.
var oneRun sync.Mutex

// Runs the goroutines of a run, one at a time.
func (scheduler *scheduler) execute(run *run, queue Queue) *History {
	oneRun.Lock()
	defer oneRun.Unlock()
	scheduler.tickets = &run.tickets
	now.Store(scheduler)
	defer now.Store(nil)
	var running sync.WaitGroup
	for _, thread := range run.threads {
		running.Add(1)
		go func(thread *Thread) {
			defer running.Done()
			scheduler.makeSteps(run, thread, queue)
		}(thread)
	}
	for _, one := range scheduler.seats {
		for !one.hasEntered.Load() {
			runtime.Gosched()
		}
	}
	first := scheduler.strategy.next(nil, leaves)
	scheduler.made = append(scheduler.made, change{key: key{-1, 0, 0}, to: first.number, why: leaves})
	first.gate <- struct{}{}
	return scheduler.waitForEnd(run, &running)
}

func (scheduler *scheduler) waitForEnd(run *run, running *sync.WaitGroup) *History {
	over := make(chan struct{})
	go func() {
		running.Wait()
		close(over)
	}()
	if run.endsWith(over) {
		if scheduler.outcome != "" {
			run.fail(scheduler.toldOutcome(run.history("").openCalls()))
		}
		return run.history(scheduler.outcome)
	}
	var told []string
	for number, place := range scheduler.findPlaces() {
		if seat := scheduler.running.Load(); seat != nil && seat.number == number {
			told = append(told, fmt.Sprintf("thread %d at %s", number, place))
		}
	}
	scheduler.abandon(nil)
	run.fail(fmt.Sprintf("%s: blocked outside of the schedule, as by sync.Mutex or a channel: %s", run.toldHang(),
		strings.Join(told, ", ")))
	return run.endHung()
}

// What one goroutine does; the first one drains when all others have left.
func (scheduler *scheduler) makeSteps(run *run, thread *Thread, queue Queue) {
	seat := scheduler.seats[thread.number]
	isOver := false
	defer func() {
		if failure := recover(); !isOver && !scheduler.isOver.Load() {
			run.fail(fmt.Sprintf("panic: thread %d panicked: %v", thread.number, failure))
		}
		scheduler.leave(seat)
	}()
	scheduler.enter(seat)
	registrar, registers := queue.(Registrar)
	if registers {
		registrar.Enter(thread.number)
	}
	scheduler.makeOperations(thread, queue)
	if thread.number == 0 && run.options.Drain {
		scheduler.waitForOthers(seat)
		if !run.hasFailed.Load() {
			run.drain(queue)
		}
	}
	if registers {
		registrar.Leave(thread.number)
	}
	isOver = true
}

// The sentence on a deadlock or a livelock, with the place of each goroutine.
func (scheduler *scheduler) toldOutcome(calls []event) string {
	why := "no thread can run"
	if scheduler.outcome == "livelock" {
		why = fmt.Sprintf("no operation ends in %d points", scheduler.settings.Patience)
	}
	var told []string
	for place := range calls {
		inside := toldCalls(calls[place : place+1])
		told = append(told, fmt.Sprintf("%s at %s", inside, scheduler.places[calls[place].thread]))
	}
	return fmt.Sprintf("%s: %s: %s", scheduler.outcome, why, strings.Join(told, ", "))
}

// One search: the runs of its seeds, and the same runs with given switches.
type searching struct {
	options   Options
	settings  Schedule
	makeQueue func() Queue
}

// A run that was made.
type made struct {
	options Options
	*scheduler
	history *History
	wanted  map[key]bool // switches that were left
}

func (search *searching) answer() (Answer, error) {
	options := &search.options
	if seed, err := strconv.ParseUint(os.Getenv("FIFOBENCH_SEED"), 10, 64); err == nil {
		options.Seed = seed
	}
	if runs, err := strconv.ParseUint(os.Getenv("FIFOBENCH_RUNS"), 10, 64); err == nil && options.Runs == 0 {
		options.Runs = runs
	}
	if options.Runs == 0 {
		options.Runs = mostRuns
	}
	number, events := uint64(0), 0
	answer, isJudged, progress := NoViolation, options.isFound(), newProgress()
	for ; number < options.Runs && answer == NoViolation; number++ {
		progress.show(number, options.Runs-number)
		made, err := search.make(options.Seed+number, variant{})
		if err == nil {
			answer, err = search.judge(made, isJudged)
		}
		if err != nil {
			return Wrong, err
		}
		events += len(made.history.events)
	}
	if answer == NoViolation {
		answer = options.tellNone(isJudged, ", with chosen schedules")
	}
	options.tellKept(answer, isJudged, number, events)
	return answer, nil
}

// Another run than that of the seed: with given switches or a schedule of few, or without some operations.
type variant struct {
	switches []change
	few      uint64 // a number from 1 on
	skipped  map[key]bool
	isAgain  bool
}

func (search *searching) make(seed uint64, variant variant) (*made, error) {
	options := search.options
	found := search.settings.draw(seed, options.Operations)
	options.Seed, options.Operations = seed, found.operations
	if variant.few != 0 {
		found.strategy, seed = "few", variant.few
	}
	queue := search.makeQueue()
	initial, err := options.fill(queue)
	if err != nil {
		return nil, err
	}
	scheduler := newScheduler(search.settings, found, seed, options.Threads, variant.switches)
	scheduler.skipped = variant.skipped
	options.isQuiet = variant.isAgain
	history := scheduler.execute(newRun(options, initial), queue)
	return &made{options: options, scheduler: scheduler, history: history}, nil
}

// Puts the initial values in.
func (options *Options) fill(queue Queue) ([]uint64, error) {
	preload := queue.Enqueue
	if preloader, ok := queue.(Preloader); ok {
		preload = preloader.Preload
	}
	var initial []uint64
	for place := 0; place < options.Initial; place++ {
		initial = append(initial, options.Value(MaxThreads, uint64(place)))
		if !preload(initial[place]) {
			return nil, fmt.Errorf("the queue has no room for the initial value %d", initial[place])
		}
	}
	return initial, nil
}

// Makes the operations of the plan, but for those that are left out.
func (scheduler *scheduler) makeOperations(thread *Thread, queue Queue) {
	seat := scheduler.seats[thread.number]
	for n, isEnqueue := range thread.run.options.plan(thread.number) {
		if scheduler.skipped[key{thread.number, n, 0}] {
			thread.asked++
			seat.operation++
			continue
		}
		if isEnqueue {
			thread.Enqueue(queue.Enqueue)
		} else {
			thread.Dequeue(queue.Dequeue)
		}
		scheduler.operationEnded(seat)
	}
}

func (search *searching) judge(made *made, isJudged bool) (Answer, error) {
	history := made.history
	if !isJudged && len(history.failures) == 0 {
		_, err := made.options.keep("history", history.text())
		return NoViolation, err
	}
	var told error
	if isJudged {
		made.options.tellAgain = func(kind string) { told = search.tellAgain(made, kind) }
	}
	answer, err := made.options.answer(history, isJudged)
	if err == nil {
		err = told
	}
	return answer, err
}

// What is wrong with a run, in few words; YES if nothing is.
func (made *made) kind() (string, error) {
	switch {
	case made.outcome != "":
		return made.outcome, nil
	case made.history.IsGivenUp():
		return "a hang", nil
	case len(made.history.failures) > 0:
		return "a panic", nil
	}
	return made.options.verdict(made.history.text(), false)
}

// Makes the run again, leaves out operations and switches, and prints what is left.
func (search *searching) tellAgain(first *made, kind string) error {
	seed := first.options.Seed
	again, err := search.make(seed, variant{isAgain: true})
	if err != nil {
		return err
	}
	if !bytes.Equal(again.history.text(), first.history.text()) {
		fmt.Printf("  again:   seed %d made another run the second time: something but the schedule plays a part, as "+
			"clocks, orders of maps and of select, input, or goroutines of the queue's own\n", seed)
		return nil
	}
	small := smallest{search: search, kind: kind, waiting: first.waiting(), best: first, switches: first.scheduler.made,
		most: mostReplays}
	if kind == "livelock" {
		small.most = mostLivelocks
	}
	small.leaveOut()
	if len(small.switches) > mostSwitches && kind != "livelock" {
		small.tryFew()
	}
	lines, err := small.best.trace(kind)
	if small.err != nil {
		err = small.err
	}
	if err != nil {
		return err
	}
	path := filepath.Join(first.options.Folder, fmt.Sprintf("%d.trace", seed))
	if err := os.WriteFile(path, []byte(strings.Join(lines, "\n")+"\n"), 0o666); err != nil {
		return err
	}
	fmt.Printf("  trace:   %s\n    %s\n", path, strings.Join(lines, "\n    "))
	fmt.Printf("  again:   FIFOBENCH_SEED=%d in the environment, or --seed %d replays this very run\n", seed, seed)
	return nil
}

// Leaves out operations and switches of a run, while the same kind of violation is left.
type smallest struct {
	search     *searching
	kind       string
	waiting    string
	best       *made
	operations []key
	switches   []change
	most, left int // replays of a round
	err        error
}

func (small *smallest) leaveOut() {
	for round := 0; round < 2; round++ {
		fixed, free := small.best.operations(small.waiting)
		left := fewest(free, func(some []key) bool {
			skipped := without(small.best.planned(), append(some[:len(some):len(some)], fixed...))
			return small.shows(variant{switches: small.switches, skipped: skipped})
		}, small.round())
		small.operations = append(left[:len(left):len(left)], fixed...)
		skipped := without(small.best.planned(), small.operations)
		small.switches = fewest(small.best.scheduler.made, func(some []change) bool {
			return small.shows(variant{switches: some, skipped: skipped})
		}, small.round())
	}
	small.best.wanted = map[key]bool{}
	for _, one := range small.switches {
		small.best.wanted[one.key] = true
	}
}

// The replays that are left, at the beginning of a round.
func (small *smallest) round() *int {
	small.left = small.most
	return &small.left
}

// Tries schedules of few switches over the operations that are left, and takes the first that shows it.
func (small *smallest) tryFew() {
	best, switches := small.best, small.switches
	skipped := without(best.planned(), small.operations)
	for number := uint64(1); number <= mostFew; number++ {
		if small.shows(variant{few: number, skipped: skipped}) {
			small.switches = small.best.scheduler.made
			small.leaveOut()
			break
		}
	}
	if len(small.switches) > len(switches) {
		small.best, small.switches = best, switches
	}
}

func (small *smallest) shows(variant variant) bool {
	small.left--
	variant.isAgain = true
	if variant.few == 0 && variant.switches == nil {
		variant.switches = []change{}
	}
	made, err := small.search.make(small.best.options.Seed, variant)
	if err != nil {
		small.err = err
		return false
	}
	kind, err := made.kind()
	if err != nil {
		small.err = err
	}
	if kind != small.kind || made.waiting() != small.waiting {
		return false
	}
	small.best = made
	return true
}

// Leaves out items from the last to the first, many at once and then fewer.
func fewest[T any](items []T, shows func(some []T) bool, left *int) []T {
	if shows(nil) {
		return nil
	}
	for size := len(items); size > 0; size /= 2 {
		for end := len(items); end > 0 && *left > 0; end -= size {
			begin := end - size
			if begin < 0 {
				begin = 0
			}
			rest := append(append([]T(nil), items[:begin]...), items[end:]...)
			if len(rest) > 0 && shows(rest) {
				items = rest
			}
		}
	}
	return items
}

func without(all, some []key) map[key]bool {
	left := map[key]bool{}
	for _, one := range all {
		left[one] = true
	}
	for _, one := range some {
		delete(left, one)
	}
	return left
}

func (made *made) planned() []key {
	var all []key
	for thread := 0; thread < made.options.Threads; thread++ {
		for n := 0; n < made.options.Operations; n++ {
			all = append(all, key{thread, n, 0})
		}
	}
	return all
}

// The kinds of the calls that are open if no goroutine gets on; two runs that show the same have the same kinds.
func (made *made) waiting() string {
	isOpen := map[string]bool{}
	for _, call := range made.history.openCalls() {
		isOpen[call.what] = made.outcome != ""
	}
	switch {
	case isOpen[callEnq] && isOpen[callDeq]:
		return "both"
	case isOpen[callEnq]:
		return callEnq
	case isOpen[callDeq]:
		return callDeq
	}
	return ""
}

// The planned operations of a run by the tickets of their calls. A drain's aren't planned. Where dequeues alone wait,
// each enqueue is fixed, and the other way round: else a run would be left in which they wait for nothing.
func (made *made) operations(waiting string) (fixed, free []key) {
	var counts [MaxThreads]int
	for place := range made.history.events {
		event := &made.history.events[place]
		if !event.isCall() {
			continue
		}
		for made.scheduler.skipped[key{event.thread, counts[event.thread], 0}] {
			counts[event.thread]++
		}
		at := key{event.thread, counts[event.thread], 0}
		if at.operation < made.options.Operations && (waiting == callEnq || waiting == callDeq) && event.what != waiting {
			fixed = append(fixed, at)
		} else if at.operation < made.options.Operations {
			free = append(free, at)
		}
		counts[event.thread]++
	}
	return fixed, free
}

// A line of a trace, by ticket; a switch comes before the event of its ticket.
type line struct {
	ticket  uint64
	isEvent bool
	text    string
}

// The switches of a run as sentences, between the calls and returns of the operations that `shrink` keeps.
func (made *made) trace(kind string) ([]string, error) {
	events, err := made.keptEvents()
	if err != nil {
		return nil, err
	}
	var lines []line
	first, last := uint64(0), ^uint64(0)
	for _, event := range events {
		lines = append(lines, line{event.ticket, true, toldEvent(&event)})
	}
	if len(events) > 0 {
		first = events[0].ticket
		if made.history.IsComplete() {
			last = events[len(events)-1].ticket
		}
	}
	count := 0
	for _, change := range made.busySwitches() {
		if made.wanted[change.key] || first < change.ticket && change.ticket <= last {
			lines = append(lines, line{change.ticket, false, toldChange(&change)})
			if change.why != leaves {
				count++
			}
		}
	}
	sort.SliceStable(lines, func(one, other int) bool {
		return lines[one].ticket < lines[other].ticket ||
			lines[one].ticket == lines[other].ticket && !lines[one].isEvent && lines[other].isEvent
	})
	operations := (len(made.history.events) + 1) / 2
	told := []string{fmt.Sprintf("%s with %s, in a run of %d operations that is left of seed %d:", kind,
		plural(count, "switch"), operations, made.options.Seed)}
	for _, line := range lines {
		told = append(told, "  "+line.text)
	}
	return told, nil
}

func plural(count int, word string) string {
	if count == 1 {
		return "1 " + word
	}
	return fmt.Sprintf("%d %ses", count, word)
}

// The events of the operations that `shrink` keeps; of a run without an end the calls that have no return.
func (made *made) keptEvents() ([]event, error) {
	if !made.history.IsComplete() {
		calls := made.history.openCalls()
		sort.Slice(calls, func(one, other int) bool { return calls[one].ticket < calls[other].ticket })
		return calls, nil
	}
	report, _, err := made.options.ask("shrink", made.history.text())
	if err != nil {
		return nil, err
	}
	var events []event
	for _, line := range strings.Split(string(report), "\n") {
		words := strings.Fields(line)
		if len(words) > 0 && words[0] == "end" {
			break
		}
		if len(words) < 3 {
			continue
		}
		ticket, err := strconv.ParseUint(words[0], 10, 64)
		if err != nil || int(ticket) >= len(made.history.events) {
			continue
		}
		events = append(events, made.history.events[ticket])
	}
	return events, nil
}

// The switches, without those to and from goroutines that make no operation.
func (made *made) busySwitches() []change {
	var isBusy [MaxThreads]bool
	for _, event := range made.history.events {
		isBusy[event.thread] = true
	}
	var kept []change
	var from *change
	for place := range made.scheduler.made {
		one := made.scheduler.made[place]
		if one.thread >= 0 && isBusy[one.thread] {
			from = &one
		}
		if from != nil && isBusy[one.to] {
			from.to = one.to
			if from.to != from.thread {
				kept = append(kept, *from)
			}
			from = nil
		}
	}
	return kept
}

func toldEvent(event *event) string {
	told := map[string]string{callDeq: "calls dequeue", retEnq: "returns: the value is enqueued",
		retNot: "returns: the enqueue has failed", retEmpty: "returns: the queue is empty"}[event.what]
	if event.what == callEnq {
		told = fmt.Sprintf("calls enqueue of %d", event.value)
	} else if event.what == retDeq {
		told = fmt.Sprintf("returns: %d is dequeued", event.value)
	}
	return fmt.Sprintf("thread %d %s", event.thread, told)
}

func toldChange(change *change) string {
	does := map[reason]string{between: "is between two operations", leaves: "has made its operations",
		atPoint: "stops before ", spins: "spins at ", waits: "waits at "}[change.why]
	return fmt.Sprintf("thread %d %s%s: thread %d goes on", change.thread, does, change.where, change.to)
}
