package fifobench

import "sort"

// The seat that a number by chance names among some; nil if there are none.
func (scheduler *scheduler) any(of []*seat) *seat {
	if len(of) == 0 {
		return nil
	}
	return of[scheduler.below(len(of))]
}

type naps struct {
	*scheduler
	factor int
}

// Points until a goroutine falls asleep: on average once in this many operations.
func (naps *naps) gap(*seat) int {
	oneIn := naps.factor * naps.steps / (naps.ended + 1)
	if oneIn < 4 {
		oneIn = 4
	}
	return 1 + naps.below(2*oneIn)
}

func (naps *naps) next(seat *seat, why reason) *seat {
	if why == between && naps.below(2) != 0 {
		return seat
	}
	if why == atPoint {
		seat.wakesAt = naps.ended + 1 + naps.below(1<<naps.below(mostNap))
	} else if why == spins {
		seat.dozes = true
	}
	return naps.awake(naps.candidates(seat, why == between))
}

// One that is awake; if all sleep, the one that wakes up first, and those that spin last.
func (naps *naps) awake(candidates []*seat) *seat {
	var awake []*seat
	var first *seat
	for _, one := range candidates {
		if one.dozes {
			continue
		}
		if one.wakesAt <= naps.ended {
			awake = append(awake, one)
		} else if first == nil || one.wakesAt < first.wakesAt {
			first = one
		}
	}
	if len(awake) > 0 {
		return naps.any(awake)
	}
	if first != nil {
		first.wakesAt = 0
		return first
	}
	for _, one := range candidates {
		one.dozes = false
	}
	return naps.any(candidates)
}

// Goroutines make all their operations one after another, but for 1 to 3 naps: for a trace that a person can read.
type few struct {
	naps
	left, length int
}

func newFew(scheduler *scheduler) *few {
	left := 1 + scheduler.below(3)
	return &few{naps{scheduler, 1}, left, 1 + scheduler.below(1<<(2+scheduler.below(9)))}
}

func (few *few) gap(*seat) int {
	if few.left == 0 {
		return mostSpins
	}
	return 1 + few.below(few.length)
}

func (few *few) next(seat *seat, why reason) *seat {
	isOver := false
	for _, one := range few.seats {
		isOver = isOver || one.wakesAt > 0 && one.wakesAt <= few.ended && !one.hasEnded
	}
	if why == atPoint && few.left == 0 || why == between && !isOver {
		return seat
	}
	if why == atPoint {
		few.left--
	} else if why == between {
		why = waits
	}
	for _, one := range few.seats {
		if one.wakesAt <= few.ended {
			one.wakesAt = 0
		}
	}
	return few.naps.next(seat, why)
}

type walk struct {
	*scheduler
	oneIn int
}

func (walk *walk) gap(*seat) int {
	return 1 + walk.below(2*walk.oneIn-1)
}

func (walk *walk) next(seat *seat, why reason) *seat {
	if why == between && walk.below(walk.oneIn) != 0 {
		return seat
	}
	return walk.any(walk.candidates(seat, why == between))
}

// Priorities in rounds, in which each goroutine makes 1 to 8 operations.
type pct struct {
	*scheduler
	depth   int
	began   int
	lowest  int64
	length  int
	changes []int
}

func newPct(scheduler *scheduler, depth int) *pct {
	pct := &pct{scheduler: scheduler, depth: depth, length: 10 * mostQuota * len(scheduler.seats)}
	pct.begin()
	return pct
}

// A round as long as the last one, by guess.
func (pct *pct) begin() {
	if pct.steps > pct.began {
		pct.length = pct.steps - pct.began
	}
	pct.began = pct.steps
	for _, one := range pct.seats {
		one.priority = int64(pct.below(1 << 30))
		one.quota = 1 + pct.below(mostQuota)
	}
	pct.changes = pct.changes[:0]
	for n := 1; n < pct.depth; n++ {
		pct.changes = append(pct.changes, pct.began+1+pct.below(pct.length))
	}
	sort.Ints(pct.changes)
}

func (pct *pct) gap(*seat) int {
	if len(pct.changes) == 0 {
		return mostSpins
	}
	if rest := pct.changes[0] - pct.steps; rest > 1 {
		return rest
	}
	return 1
}

func (pct *pct) next(seat *seat, why reason) *seat {
	if why == atPoint && (len(pct.changes) == 0 || pct.changes[0] > pct.steps) {
		return seat
	}
	if why == atPoint || why == spins {
		for len(pct.changes) > 0 && pct.changes[0] <= pct.steps {
			pct.changes = pct.changes[1:]
		}
		pct.lowest--
		seat.priority = pct.lowest
	} else if why == between {
		seat.quota--
	}
	candidates := pct.candidates(seat, why == between || why == atPoint)
	best := pct.best(candidates)
	if best == nil && len(candidates) > 0 {
		pct.begin()
		best = pct.best(candidates)
	}
	return best
}

func (pct *pct) best(candidates []*seat) *seat {
	var best *seat
	for _, one := range candidates {
		if one.quota > 0 && (best == nil || one.priority > best.priority) {
			best = one
		}
	}
	return best
}

// Makes given switches again. Where a goroutine can't go on and none is given, the next one by number does.
type replay struct {
	*scheduler
	to     map[key]int
	points map[key][]int // of an operation, whose point is 0 here
}

func newReplay(scheduler *scheduler, changes []change) *replay {
	replay := &replay{scheduler, map[key]int{}, map[key][]int{}}
	for _, change := range changes {
		replay.to[change.key] = change.to
		operation := key{change.thread, change.operation, 0}
		replay.points[operation] = append(replay.points[operation], change.point)
	}
	for _, points := range replay.points {
		sort.Ints(points)
	}
	return replay
}

func (replay *replay) gap(seat *seat) int {
	for _, point := range replay.points[key{seat.number, seat.operation, 0}] {
		if point > seat.point {
			return point - seat.point
		}
	}
	return replaySpins
}

func (replay *replay) next(self *seat, why reason) *seat {
	at, after := key{-1, 0, 0}, -1
	if self != nil {
		at, after = key{self.number, self.operation, self.point}, self.number
	}
	wanted, isGiven := replay.to[at]
	isFree := why == atPoint || why == between
	if !isGiven && isFree {
		return self
	}
	var next, first *seat
	for _, one := range replay.candidates(self, isFree || isGiven && why == spins) {
		if isGiven && one.number == wanted {
			return one
		}
		if first == nil {
			first = one
		}
		if next == nil && one.number > after {
			next = one
		}
	}
	if isFree {
		return self
	}
	if next == nil {
		return first
	}
	return next
}
