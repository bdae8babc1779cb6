package fifobench

// What a search asks of the program, and the files of a run: histories, reports, and the texts of runs that end early.
// Beside recorder.go.

import (
	"bufio"
	"bytes"
	"errors"
	"fmt"
	"os"
	"os/exec"
	"path/filepath"
	"regexp"
	"strconv"
	"strings"
	"sync/atomic"
	"time"
)

const maxDrawn = 400 // operations or initial values in a picture

// How far a search is, on a terminal: from two seconds on, until something else is printed.
type progress struct {
	next time.Time
}

var progressIsShown atomic.Bool

func newProgress() *progress {
	return &progress{next: time.Now().Add(2 * time.Second)}
}

func (progress *progress) show(done, left uint64) {
	info, err := os.Stderr.Stat()
	isTerminal := err == nil && info.Mode()&os.ModeCharDevice != 0
	if isTerminal && time.Now().After(progress.next) {
		progress.next = time.Now().Add(200 * time.Millisecond)
		progressIsShown.Store(true)
		fmt.Fprintf(os.Stderr, "\rfifobench: %d runs done, %d left, 0 found\033[K", done, left)
	}
}

func eraseProgress() {
	if progressIsShown.Swap(false) {
		fmt.Fprint(os.Stderr, "\r\033[K")
	}
}

// What the runs of a search have shown: of each seed the last one that was made.
type found struct {
	isJudged              bool
	events, overlapping   int
	withoutOverlap, again uint64
}

// Gives the answer to the run of a seed. Threads that haven't met have shown little, so a run without overlap is made
// again: three times, and in a search no more often than it has runs.
func (found *found) answer(options *Options, makeQueue func() Queue) (Answer, error) {
	for left := 3; ; left-- {
		history, err := Run(*options, makeQueue())
		if err != nil {
			return Wrong, err
		}
		answer, err := options.answer(history, found.isJudged)
		overlapping, isLast := history.overlapping(), options.Threads == 1 || left == 0 || found.again == options.Runs
		if err != nil || answer != NoViolation || overlapping > 0 || isLast {
			found.events += len(history.events)
			found.overlapping += overlapping
			if overlapping == 0 {
				found.withoutOverlap++
			}
			return answer, err
		}
		found.again++
	}
}

func (found *found) told() string {
	share := 0
	if found.events > 0 {
		share = 200 * found.overlapping / found.events // an operation has two events
	}
	return fmt.Sprintf("; %d of 100 operations overlap another; runs without overlap: %d", share, found.withoutOverlap)
}

// Says that no run is a violation, and what else there is to say.
func (options *Options) tellNone(isJudged bool, more string) Answer {
	eraseProgress()
	told, answer := "no violation in", NoViolation
	if !isJudged {
		told, answer = "nothing judged in", Wrong
	}
	last := options.Seed + options.Runs - 1
	fmt.Printf("%s %d runs (seeds %d to %d)%s%s\n", told, options.Runs, options.Seed, last, options.toldCondition(), more)
	return answer
}

func (options *Options) tellKept(answer Answer, isJudged bool, made uint64, events int) {
	if options.Keep && isJudged && answer != Wrong {
		fmt.Printf("  kept:    %d judged runs with %d events in %s\n", made, events, options.Folder)
	}
}

func (options *Options) answer(history *History, isJudged bool) (Answer, error) {
	if history.IsGivenUp() {
		return history.answer, nil
	}
	if len(history.failures) > 0 {
		return history.endEarly(options), nil
	}
	if !isJudged || options.Keep {
		if _, err := options.keep("history", history.text()); err != nil || !isJudged {
			return NoViolation, err
		}
	}
	return options.judge(history.text(), false)
}

func (options *Options) program() string {
	if options.Program != "" {
		return options.Program
	}
	if named := os.Getenv("FIFOBENCH"); named != "" {
		return named
	}
	return "fifobench"
}

// Whether the program can be started; if it can't, a line says so.
func (options *Options) isFound() bool {
	var ended *exec.ExitError
	err := exec.Command(options.program(), "help").Run()
	if err == nil || errors.As(err, &ended) {
		return true
	}
	say("no program '%s': nothing is judged; the histories are kept in %s", options.program(), options.Folder)
	return false
}

// The condition of a search and its bound, as its answer has them; empty if they are the default.
func (options *Options) toldCondition() string {
	told := ""
	if options.Condition != Linearizable {
		told = fmt.Sprintf(", condition %s", options.Condition)
	}
	if options.OvertakenAtMost >= 0 {
		told += fmt.Sprintf(", overtaken-at-most %d", options.OvertakenAtMost)
	}
	return told
}

// Returns a command, with the flags that are the condition of the options.
func (options *Options) withFlags(command string) string {
	switch strings.Fields(command)[0] {
	case "check", "shrink", "draw":
		return command + flags[options.Condition]
	}
	return command
}

// Returns what the program writes about this text, and its status.
func (options *Options) ask(command string, text []byte) ([]byte, int, error) {
	judge := exec.Command(options.program(), strings.Fields(options.withFlags(command))...)
	judge.Stdin = bytes.NewReader(text)
	told, err := judge.Output()
	var ended *exec.ExitError
	if err != nil && !errors.As(err, &ended) {
		return nil, 0, err
	}
	return told, judge.ProcessState.ExitCode(), nil
}

func firstLine(text []byte) string {
	line, _, _ := strings.Cut(string(text), "\n")
	return line
}

// Returns what `check` says of a history, by the condition of the options, and unless it completes pending calls by
// their bound on overtaking: YES, or NO and what is violated. A bound judges the order of values in place of `check`,
// but for that of each producer's own. An error is that the program says something else.
func (options *Options) verdict(text []byte, isCompleted bool) (string, error) {
	said, status, err := options.ask("check", text)
	verdict := firstLine(said)
	if err == nil && status != 0 && status != 1 {
		err = fmt.Errorf("%s says '%s' of %s", options.program(), verdict, options.path("history"))
	}
	isLocal := options.Condition == Local || options.Condition == Both
	isOrdered := status == 1 && (isLocal || verdict != "NO VOrd")
	if err != nil || options.OvertakenAtMost < 0 || isCompleted || isOrdered {
		return verdict, err
	}
	stats, _, err := options.ask("stats", text)
	if err != nil {
		return "", err
	}
	_, after, isThere := strings.Cut("\n"+string(stats), "\novertaken-at-most ")
	most, err := strconv.ParseInt(firstLine([]byte(after)), 10, 64)
	if !isThere || err != nil {
		return "", fmt.Errorf("%s has no overtaken-at-most in stats, which a later version has", options.program())
	}
	if most > options.OvertakenAtMost {
		return fmt.Sprintf("NO overtaken-at-most %d", options.OvertakenAtMost), nil
	}
	return "YES", nil
}

// Judges a history, which may be a completion of pending calls, and says of a violation where it is kept.
func (options *Options) judge(text []byte, isCompleted bool) (Answer, error) {
	verdict, err := options.verdict(text, isCompleted)
	if err == nil && verdict == "YES" {
		return NoViolation, nil
	}
	if told := options.toldCondition(); err == nil && isCompleted && told != "" {
		return Wrong, fmt.Errorf("%s of one completion%s: another one may be a YES", verdict, told)
	}
	kept, failed := options.keep("history", text)
	if failed != nil {
		return Wrong, failed
	}
	if err != nil {
		return Wrong, err
	}
	seen, err := options.toldViolation(text, verdict, kept)
	if err != nil {
		return Wrong, err
	}
	seed, pattern, why := options.Seed, options.PatternOf(options.Seed), ""
	if isCompleted {
		why = ": the queue is wrong, whatever the pending calls do"
	}
	eraseProgress()
	fmt.Printf("%s: seed %d, %s%s\n  history: %s\n%s", verdict, seed, pattern, why, kept, seen)
	if options.tellAgain != nil {
		options.tellAgain(verdict)
		return Violation, nil
	}
	fmt.Printf("  again:   seed %d, pattern %s: the same plan, though threads may meet in another way\n", seed, pattern)
	return Violation, nil
}

// Returns the lines of a violation after its history: the report and pictures, or the dequeue that overtakes most.
func (options *Options) toldViolation(text []byte, verdict, kept string) (string, error) {
	program := options.program()
	if strings.HasPrefix(verdict, "NO overtaken-at-most ") {
		stats, _, err := options.ask("stats --overtakes", text)
		return fmt.Sprintf("  dequeue: %s\n  see it:  %s stats --overtakes < %s\n", toldOvertaking(stats, program), program,
			kept), err
	}
	shrunk, _, err := options.ask("shrink", text)
	if err != nil {
		return "", err
	}
	report, err := options.keep("report", shrunk)
	return fmt.Sprintf("  report:  %s\n  see it:  %s %s < %s\n%s", report, program, options.withFlags("draw --text"),
		report, options.drawnIn(text, kept)), err
}

// Returns the dequeue that overtakes most, of the lines of `stats --overtakes`.
func toldOvertaking(stats []byte, program string) string {
	told, most := "not named by "+program, uint64(0)
	for _, row := range regexp.MustCompile(`(?m)^([0-9]+) ([0-9]+) ([0-9]+)$`).FindAllSubmatch(stats, -1) {
		if count, err := strconv.ParseUint(string(row[1]), 10, 64); err == nil && count > most {
			told = fmt.Sprintf("that of %s, called at ticket %s, overtakes %s values", row[3], row[2], row[1])
			most = count
		}
	}
	return told
}

// Returns the second command of `see it:`, which draws the violation with what runs beside it: the report leaves that
// out. `draw` refuses more than 400 operations; then there is none.
func (options *Options) drawnIn(text []byte, kept string) string {
	for _, command := range []string{"draw --text --around 20", "draw --text"} {
		if _, status, err := options.ask(command, text); err == nil && status == 0 {
			return fmt.Sprintf("           %s %s < %s\n", options.program(), options.withFlags(command), kept)
		}
	}
	return ""
}

func (options *Options) path(kind string) string {
	return filepath.Join(options.Folder, fmt.Sprintf("%d.%s", options.Seed, kind))
}

// Writes a text into the folder, and gives its path.
func (options *Options) keep(kind string, text []byte) (string, error) {
	if err := os.MkdirAll(options.Folder, 0o777); err != nil {
		return "", err
	}
	return options.path(kind), os.WriteFile(options.path(kind), text, 0o666)
}

// Keeps what there is of a run that ended early, says how it ended, and judges it.
func (history *History) endEarly(options *Options) Answer {
	told := strings.Join(history.failures, "; ")
	if history.ending == "hang" || history.ending == "panic" { // else said by thread, with the places
		told += "; " + toldCalls(history.openCalls())
	}
	say("seed %d: %s", options.Seed, told)
	pending, err := options.keep("pending", history.text())
	answer := Wrong
	if err == nil {
		fmt.Fprintf(os.Stderr, "  pending: %s\n", pending)
		answer, err = options.judgePending(history, pending)
	}
	if err != nil {
		say("%v", err)
	}
	return answer
}

// Judges the completion of a pending text, or prints the command that does.
func (options *Options) judgePending(history *History, pending string) (Answer, error) {
	program := options.program()
	told, status, err := options.ask("complete", history.text())
	if err == nil && status == 0 {
		answer, err := options.judge(told, true)
		if err != nil || answer == Violation {
			return answer, err
		}
		promise := "to return"
		if history.ending == "panic" {
			promise = "not to panic"
		}
		fmt.Fprintf(os.Stderr, "YES: a right queue can have behaved so until then. If the queue promises %s, ", promise)
		fmt.Fprintf(os.Stderr, "the %s itself is the fault.\n", history.ending)
		see := program + " draw --text < " + pending
		if len(history.events)+len(history.openCalls()) > 2*maxDrawn || len(history.initial) > maxDrawn {
			see = "tail -n 40 < " + pending
		}
		fmt.Fprintf(os.Stderr, "  see it:  %s\n", see)
		if options.tellAgain != nil {
			options.tellAgain(history.ending)
		}
		return Wrong, nil
	}
	if err == nil && strings.HasPrefix(firstLine(told), "REFUSED ") {
		say("%s says '%s' of %s", program, firstLine(told), pending)
	} else if err == nil {
		say("%s has no command complete, which a later version has", program)
	}
	fmt.Fprintf(os.Stderr, "  judge:   %s complete < %s | %s %s\n", program, pending, program, options.withFlags("check"))
	return Wrong, nil
}

// A journal has the events of a run a few milliseconds after they are noted, so that a killed run leaves them. There is
// none if it is nil.
type journal struct {
	run    *run
	file   *os.File
	places []int // the next event of each thread
	ticket uint64
}

func newJournal(run *run) *journal {
	if !run.options.Journal {
		return nil
	}
	var head bytes.Buffer
	writeHead(&head, "fifo-pending", run.initial)
	path, err := run.options.keep("pending", head.Bytes())
	var file *os.File
	if err == nil {
		file, err = os.OpenFile(path, os.O_APPEND|os.O_WRONLY, 0)
	}
	if err != nil {
		say("%v", err)
		return nil
	}
	return &journal{run: run, file: file, places: make([]int, len(run.threads))}
}

// Returns the time between two looks at a run.
func (journal *journal) often() time.Duration {
	if journal == nil {
		return 50 * time.Millisecond
	}
	return 5 * time.Millisecond
}

// Returns the next event, or nil if it isn't published. Tickets have no gap, so some thread has it next.
func (journal *journal) next() *event {
	for number, thread := range journal.run.threads {
		place := journal.places[number]
		if place >= int(thread.count.Load()) {
			continue
		}
		if event := &(*thread.read.Load())[place]; event.ticket == journal.ticket {
			journal.places[number]++
			journal.ticket++
			return event
		}
	}
	return nil
}

func (journal *journal) write() {
	if journal == nil {
		return
	}
	out := bufio.NewWriter(journal.file)
	for event := journal.next(); event != nil; event = journal.next() {
		fmt.Fprintln(out, event.line()...)
	}
	_ = out.Flush() // a journal that can't be written is cut, as that of a killed run
}

func (journal *journal) remove() {
	if journal != nil {
		journal.file.Close()
		os.Remove(journal.file.Name())
	}
}

// Names the texts that killed runs of an earlier search have left: they lack the last line.
func (options *Options) nameKilled() {
	for number := uint64(0); number < options.Runs; number++ {
		stem := filepath.Join(options.Folder, fmt.Sprint(options.Seed+number))
		text, err := os.ReadFile(stem + ".pending")
		lines := bytes.Split(bytes.TrimSuffix(text, []byte("\n")), []byte("\n"))
		isWhole := bytes.HasSuffix(text, []byte("\n")) && bytes.HasPrefix(lines[len(lines)-1], []byte("end "))
		if err != nil || isWhole || os.Rename(stem+".pending", stem+".killed") != nil {
			continue
		}
		say("seed %d was killed in an earlier search", options.Seed+number)
		fmt.Fprintf(os.Stderr, "  judge:   %s complete --cut < %s.killed | %s %s\n", options.program(), stem,
			options.program(), options.withFlags("check"))
	}
}
