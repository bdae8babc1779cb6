//! A plain checker of histories, nothing proved, that `check` is measured beside: it reads the same text, finds the same faults
//! and gives the same verdict, by the rules of docs/FORMATS.md. It is made to be fast: tickets are replaced by the places of
//! their events, so after reading every list by ticket is a pass and nothing is sorted. Values that a queue holds first are
//! enqueued by operations before all others, at places of their own.

use std::collections::{HashMap, VecDeque};
use std::fmt::{self, Display};
use std::hash::{BuildHasherDefault, Hasher};
use std::io::{self, Read, Write};

const MAX_EVENTS: u32 = 2_000_000;
const MAX_INITIAL: u64 = 100_000;
const MAX_TICKET: u64 = 999_999_999_999;
const MAX_LINE: usize = 80;
const NONE: u32 = u32::MAX;
const BUFFER: usize = 1 << 16;

enum Fault {
    Read,
    Header,
    Line(u32),
    Number(u32),
    Limit(u32),
    Count,
    Cut,
    Trailing,
    InitialTwice(u32),
    TicketOrder(u32),
    CallWhilePending(u32),
    ReturnWithoutCall(u32),
    WrongReturn(u32),
    DuplicateValue(u32),
    Pending(u64),
}

impl Display for Fault {
    fn fmt(&self, f: &mut fmt::Formatter) -> fmt::Result {
        match self {
            Fault::Read => write!(f, "Read"),
            Fault::Header => write!(f, "Header"),
            Fault::Line(line) => write!(f, "Line {line}"),
            Fault::Number(line) => write!(f, "Number {line}"),
            Fault::Limit(line) => write!(f, "Limit {line}"),
            Fault::Count => write!(f, "Count"),
            Fault::Cut => write!(f, "Cut"),
            Fault::Trailing => write!(f, "Trailing"),
            Fault::InitialTwice(place) => write!(f, "InitialTwice {place}"),
            Fault::TicketOrder(event) => write!(f, "TicketOrder {event}"),
            Fault::CallWhilePending(event) => write!(f, "CallWhilePending {event}"),
            Fault::ReturnWithoutCall(event) => write!(f, "ReturnWithoutCall {event}"),
            Fault::WrongReturn(event) => write!(f, "WrongReturn {event}"),
            Fault::DuplicateValue(event) => write!(f, "DuplicateValue {event}"),
            Fault::Pending(ticket) => write!(f, "Pending {ticket}"),
        }
    }
}

#[derive(Clone, Copy, PartialEq, Eq)]
enum What {
    CallEnq,
    RetEnq,
    RetNot,
    CallDeq,
    RetDeq,
    RetEmpty,
}

#[derive(Clone, Copy, PartialEq, Eq)]
enum Kind {
    Enq,
    Deq,
    Empty,
    Not,
}

/// Its call and return are places of events. The mate of an enqueue is its value's dequeue, and the other way round.
#[derive(Clone, Copy)]
struct Operation {
    value: u64,
    call: u32,
    ret: u32,
    mate: u32,
    thread: u8,
    kind: Kind,
}

/// A hash of one multiplication, for values that are names.
#[derive(Default)]
struct Multiply(u64);

impl Hasher for Multiply {
    fn write(&mut self, _: &[u8]) {
        unreachable!()
    }
    fn write_u64(&mut self, value: u64) {
        let product = u128::from(value ^ 0x51_7c_c1_b7_27_22_0a_95) * 0x9e37_79b9_7f4a_7c15;
        self.0 = (product >> 64) as u64 ^ product as u64;
    }
    fn finish(&self) -> u64 {
        self.0
    }
}

/// The tickets by place: the first, while they are consecutive, else all.
#[derive(Default)]
struct Tickets {
    first: u64,
    last: u64,
    count: u32,
    all: Vec<u64>,
}

impl Tickets {
    /// False where the ticket isn't above the one before.
    #[inline(always)]
    fn push(&mut self, ticket: u64) -> bool {
        if self.count == 0 {
            self.first = ticket;
        } else if ticket <= self.last {
            return false;
        } else if !self.all.is_empty() {
            self.all.push(ticket);
        } else if ticket != self.last + 1 {
            self.all = (self.first..=self.last).collect();
            self.all.push(ticket);
        }
        self.last = ticket;
        self.count += 1;
        true
    }

    #[inline(always)]
    fn at(&self, place: u32) -> u64 {
        if self.all.is_empty() { self.first + u64::from(place) } else { self.all[place as usize] }
    }
}

struct History {
    /// How many values the queue holds first: as many operations, at twice as many places.
    initial: u32,
    tickets: Tickets,
    operations: Vec<Operation>,
    by_return: Vec<u32>,
    pending: [u32; 64],
    of_thread: Vec<Vec<u32>>,
    unnamed: HashMap<u64, u32, BuildHasherDefault<Multiply>>,
    fresh: u32,
    repeat: Option<(u32, u32)>,
    fault: Option<Fault>,
}

impl History {
    fn new() -> Self {
        History {
            initial: 0,
            tickets: Tickets::default(),
            operations: Vec::new(),
            by_return: Vec::new(),
            pending: [NONE; 64],
            of_thread: vec![Vec::new(); 64],
            unnamed: HashMap::default(),
            fresh: NONE,
            repeat: None,
            fault: None,
        }
    }

    /// A value that the queue holds first.
    fn fill(&mut self, value: u64) {
        let place = self.initial;
        if self.unnamed.insert(value, place).is_some() && self.fault.is_none() {
            self.fault = Some(Fault::InitialTwice(place));
        }
        self.operations.push(Operation { value, call: 2 * place, ret: 2 * place + 1, mate: NONE, thread: 0, kind: Kind::Enq });
        self.by_return.push(place);
        self.initial += 1;
    }

    /// The ticket of a place behind those of the values that the queue holds first.
    #[inline(always)]
    fn ticket(&self, place: u32) -> u64 {
        self.tickets.at(place - 2 * self.initial)
    }

    /// The enqueue of a value: first where a recorder's name would have it.
    #[inline(always)]
    fn enqueue_of(&self, value: u64) -> u32 {
        let named = self.of_thread.get((value >> 32) as usize).and_then(|list| list.get(value as u32 as usize));
        if let Some(&place) = named {
            let operation = &self.operations[place as usize];
            if operation.value == value && matches!(operation.kind, Kind::Enq | Kind::Not) {
                return place;
            }
        }
        if self.unnamed.is_empty() { NONE } else { self.unnamed.get(&value).copied().unwrap_or(NONE) }
    }

    #[inline(always)]
    fn add(&mut self, ticket: u64, thread: u8, what: What, value: u64) {
        if self.fault.is_some() {
            return;
        }
        let event = self.tickets.count;
        let place = 2 * self.initial + event;
        let fault = if !self.tickets.push(ticket) {
            Some(Fault::TicketOrder(event))
        } else if matches!(what, What::CallEnq | What::CallDeq) {
            self.call(place, thread, what, value)
        } else {
            self.answer(place, thread, what, value)
        };
        if fault.is_some() {
            self.fault = fault;
        }
    }

    #[inline(always)]
    fn call(&mut self, place: u32, thread: u8, what: What, value: u64) -> Option<Fault> {
        if self.pending[thread as usize] != NONE {
            return Some(Fault::CallWhilePending(place - 2 * self.initial));
        }
        let operation = self.operations.len() as u32;
        let kind = if what == What::CallEnq { Kind::Enq } else { Kind::Deq };
        if kind == Kind::Enq {
            if self.enqueue_of(value) != NONE {
                return Some(Fault::DuplicateValue(place - 2 * self.initial));
            }
            if value != u64::from(thread) << 32 | self.of_thread[thread as usize].len() as u64 {
                self.unnamed.insert(value, operation);
            }
        }
        self.pending[thread as usize] = operation;
        self.of_thread[thread as usize].push(operation);
        self.operations.push(Operation { value, call: place, ret: 0, mate: NONE, thread, kind });
        None
    }

    #[inline(always)]
    fn answer(&mut self, place: u32, thread: u8, what: What, value: u64) -> Option<Fault> {
        let pending = self.pending[thread as usize];
        if pending == NONE {
            return Some(Fault::ReturnWithoutCall(place - 2 * self.initial));
        }
        let operation = &mut self.operations[pending as usize];
        if matches!(what, What::RetEnq | What::RetNot) != (operation.kind == Kind::Enq) {
            return Some(Fault::WrongReturn(place - 2 * self.initial));
        }
        operation.ret = place;
        self.pending[thread as usize] = NONE;
        self.by_return.push(pending);
        match what {
            What::RetNot => {
                operation.kind = Kind::Not;
                let dequeue = operation.mate;
                self.note_fresh(dequeue);
            }
            What::RetEmpty => operation.kind = Kind::Empty,
            What::RetDeq => {
                operation.value = value;
                self.match_dequeue(pending, value);
            }
            _ => {}
        }
        None
    }

    #[inline(always)]
    fn match_dequeue(&mut self, dequeue: u32, value: u64) {
        let enqueue = self.enqueue_of(value);
        if enqueue == NONE || self.operations[enqueue as usize].kind == Kind::Not {
            return self.note_fresh(dequeue);
        }
        let first = self.operations[enqueue as usize].mate;
        if first == NONE {
            self.operations[enqueue as usize].mate = dequeue;
            self.operations[dequeue as usize].mate = enqueue;
        } else if self.repeat.is_none() {
            self.repeat = Some((first, dequeue));
        }
    }

    /// Of the dequeues of values that were not there the one that returns first.
    fn note_fresh(&mut self, dequeue: u32) {
        let returns = |place: u32| self.operations[place as usize].ret;
        if dequeue != NONE && (self.fresh == NONE || returns(dequeue) < returns(self.fresh)) {
            self.fresh = dequeue;
        }
    }

    fn finish(mut self) -> Result<Self, Fault> {
        if let Some(fault) = self.fault.take() {
            return Err(fault);
        }
        if let Some(first) = self.pending.iter().filter(|&&operation| operation != NONE).min() {
            return Err(Fault::Pending(self.ticket(self.operations[*first as usize].call)));
        }
        self.of_thread = Vec::new();
        Ok(self)
    }
}

/// As many bytes as a well-formed event line has at most, and some more: a quick look goes no further.
const AHEAD: usize = 96;

fn eight_bytes(text: &[u8; AHEAD], at: usize) -> u64 {
    u64::from_le_bytes(text[at..at + 8].try_into().expect("eight bytes"))
}

/// The number at a place, and the place after it, eight digits at a time. None where none is there, or one that is rare: with a
/// leading zero, or of 20 digits and more.
#[inline(always)]
fn quick_number(text: &[u8; AHEAD], at: usize) -> Option<(u64, usize)> {
    const POWERS: [u64; 9] = [1, 10, 100, 1_000, 10_000, 100_000, 1_000_000, 10_000_000, 100_000_000];
    let (mut value, mut length) = (0u64, 0);
    loop {
        let word = eight_bytes(text, at + length) ^ 0x3030_3030_3030_3030;
        let others = (word.wrapping_add(0x7676_7676_7676_7676) | word) & 0x8080_8080_8080_8080;
        let digits = (others.trailing_zeros() / 8) as usize;
        if digits > 0 {
            // Digits are moved to the end of the word, and added up in pairs, in fours, and all.
            let word = word << (64 - 8 * digits);
            let pairs = word.wrapping_mul(10).wrapping_add(word >> 8) & 0x00ff_00ff_00ff_00ff;
            let fours = pairs.wrapping_mul(100).wrapping_add(pairs >> 16) & 0x0000_ffff_0000_ffff;
            let all = fours.wrapping_mul(10_000).wrapping_add(fours >> 32) & 0xffff_ffff;
            value = value.wrapping_mul(POWERS[digits]).wrapping_add(all);
        }
        length += digits;
        if digits < 8 || length > 19 {
            break;
        }
    }
    let is_plain = (1..20).contains(&length) && (text[at] != b'0' || length == 1);
    is_plain.then_some((value, at + length))
}

/// A well-formed event line at the front, and its length with the line feed; None says nothing of the line.
#[inline(always)]
fn quick_event(text: &[u8; AHEAD]) -> Option<(u64, u8, What, u64, usize)> {
    let (ticket, at) = quick_number(text, 0)?;
    if ticket > MAX_TICKET || text[at] != b' ' {
        return None;
    }
    let (thread, at) = quick_number(text, at + 1)?;
    if thread > 63 || text[at] != b' ' {
        return None;
    }
    let at = at + 1;
    let (what, at) = match &eight_bytes(text, at).to_le_bytes() {
        b"ret-enq\n" => return Some((ticket, thread as u8, What::RetEnq, 0, at + 8)),
        b"ret-not\n" => return Some((ticket, thread as u8, What::RetNot, 0, at + 8)),
        b"call-deq" if text[at + 8] == b'\n' => return Some((ticket, thread as u8, What::CallDeq, 0, at + 9)),
        b"ret-empt" if text[at + 8..at + 10] == *b"y\n" => return Some((ticket, thread as u8, What::RetEmpty, 0, at + 10)),
        b"call-enq" if text[at + 8] == b' ' => (What::CallEnq, at + 9),
        b"ret-deq " => (What::RetDeq, at + 8),
        _ => return None,
    };
    let (value, at) = quick_number(text, at)?;
    (text[at] == b'\n').then_some((ticket, thread as u8, what, value, at + 1))
}

fn number(field: &[u8], most: u64, line: u32) -> Result<u64, Fault> {
    let is_number = !field.is_empty() && field.iter().all(u8::is_ascii_digit) && (field[0] != b'0' || field.len() == 1);
    if !is_number {
        return Err(Fault::Number(line));
    }
    let value = field.iter().try_fold(0u64, |value, &digit| value.checked_mul(10)?.checked_add(u64::from(digit - b'0')));
    value.filter(|&value| value <= most).ok_or(Fault::Limit(line))
}

/// An event line judged in full.
fn event(text: &[u8], line: u32) -> Result<(u64, u8, What, u64), Fault> {
    let fields: Vec<&[u8]> = text.split(|&byte| byte == b' ').collect();
    let (what, count) = match fields.get(2).copied() {
        Some(b"call-enq") => (What::CallEnq, 4),
        Some(b"ret-enq") => (What::RetEnq, 3),
        Some(b"ret-not") => (What::RetNot, 3),
        Some(b"call-deq") => (What::CallDeq, 3),
        Some(b"ret-deq") => (What::RetDeq, 4),
        Some(b"ret-empty") => (What::RetEmpty, 3),
        _ => return Err(Fault::Line(line)),
    };
    if fields.len() != count {
        return Err(Fault::Line(line));
    }
    let ticket = number(fields[0], MAX_TICKET, line)?;
    let thread = number(fields[1], 63, line)? as u8;
    let value = if count == 4 { number(fields[3], u64::MAX, line)? } else { 0 };
    Ok((ticket, thread, what, value))
}

/// What stands in the source, in a buffer that always has the whole line to be judged.
struct Lines<R> {
    source: R,
    buffer: Vec<u8>,
    from: usize,
    to: usize,
}

impl<R: Read> Lines<R> {
    fn new(source: R) -> Self {
        Lines { source, buffer: vec![0; BUFFER], from: 0, to: 0 }
    }

    /// The place after the next line feed, once it is there.
    fn next(&mut self, too_long: Fault) -> Result<&[u8], Fault> {
        loop {
            let seen = &self.buffer[self.from..self.to.min(self.from + MAX_LINE + 1)];
            if let Some(length) = seen.iter().position(|&byte| byte == b'\n') {
                let start = self.from;
                self.from += length + 1;
                return Ok(&self.buffer[start..start + length]);
            }
            if seen.len() > MAX_LINE {
                return Err(too_long);
            }
            self.buffer.copy_within(self.from..self.to, 0);
            (self.from, self.to) = (0, self.to - self.from);
            match self.source.read(&mut self.buffer[self.to..]) {
                Ok(0) => return Err(Fault::Cut),
                Ok(count) => self.to += count,
                Err(_) => return Err(Fault::Read),
            }
        }
    }

    /// What comes next, where there is enough for a quick look.
    #[inline(always)]
    fn ahead(&self) -> Option<&[u8; AHEAD]> {
        self.buffer[self.from..self.to].first_chunk()
    }

    fn end(&mut self) -> Result<(), Fault> {
        if self.from < self.to {
            return Err(Fault::Trailing);
        }
        match self.source.read(&mut [0]) {
            Ok(0) => Ok(()),
            Ok(_) => Err(Fault::Trailing),
            Err(_) => Err(Fault::Read),
        }
    }
}

/// The values that the queue holds first, in the lines from the second on; gives how many they are.
fn read_initial(lines: &mut Lines<impl Read>, history: &mut History) -> Result<u32, Fault> {
    let count = match lines.next(Fault::Line(2))?.strip_prefix(b"initial ") {
        Some(told) if !told.contains(&b' ') => number(told, MAX_INITIAL, 2)? as u32,
        _ => return Err(Fault::Line(2)),
    };
    for line in 3..count + 3 {
        let text = lines.next(Fault::Line(line))?;
        if text.is_empty() || text.contains(&b' ') {
            return Err(Fault::Line(line));
        }
        history.fill(number(text, u64::MAX, line)?);
    }
    Ok(count)
}

fn read(source: impl Read) -> Result<History, Fault> {
    let mut lines = Lines::new(source);
    let mut history = History::new();
    let before = match lines.next(Fault::Header)? {
        b"fifo-history 1" => 2,
        b"fifo-history 2" => 3 + read_initial(&mut lines, &mut history)?,
        _ => return Err(Fault::Header),
    };
    let mut count = 0;
    loop {
        while let Some(text) = lines.ahead().filter(|_| count < MAX_EVENTS) {
            let Some((ticket, thread, what, value, length)) = quick_event(text) else { break };
            history.add(ticket, thread, what, value);
            lines.from += length;
            count += 1;
        }
        let line = count + before;
        let text = lines.next(Fault::Line(line))?;
        if let Some(told) = text.strip_prefix(b"end ") {
            return match number(told, count.into(), line) {
                Ok(told) if told == u64::from(count) => lines.end().and_then(|()| history.finish()),
                Err(Fault::Number(line)) => Err(Fault::Number(line)),
                _ => Err(Fault::Count),
            };
        }
        if count == MAX_EVENTS {
            return Err(Fault::Limit(line));
        }
        let (ticket, thread, what, value) = event(text, line)?;
        history.add(ticket, thread, what, value);
        count += 1;
    }
}

/// The verdict's first line, and the places of the operations that it lists.
type Verdict = (&'static str, Vec<u32>);

/// What one pass over the events finds.
#[derive(Default)]
struct Sweep {
    order: Option<(u32, u32)>,
    covered: Option<u32>,
    /// Empty dequeues and failed enqueues, each with its gap.
    singles: Vec<(u32, u32)>,
    /// Enqueues by the lesser of their return and their dequeue's, and by their dequeue's return.
    by_end: Vec<u32>,
    by_dequeue: Vec<u32>,
}

impl History {
    #[inline(always)]
    fn operation(&self, place: u32) -> &Operation {
        &self.operations[place as usize]
    }

    /// Call and return of the dequeue of an enqueue's value, or `NONE`.
    #[inline(always)]
    fn dequeue(&self, enqueue: &Operation) -> (u32, u32) {
        match enqueue.mate {
            NONE => (NONE, NONE),
            mate => (self.operation(mate).call, self.operation(mate).ret),
        }
    }

    fn sweep(&self) -> Sweep {
        let mut found = Sweep::default();
        let (mut least, mut longest) = (NONE, (0, NONE));
        let (mut values_in, mut waiting) = (0u32, Vec::new());
        let (mut calls, mut returns) = (0, self.by_return.iter());
        for at in 0..2 * self.initial + self.tickets.count {
            if let Some(operation) = self.operations.get(calls).filter(|operation| operation.call == at) {
                let place = calls as u32;
                calls += 1;
                match operation.kind {
                    Kind::Enq => {
                        let (_, left) = self.dequeue(operation);
                        if left < longest.0 && left < least {
                            least = left;
                            found.order = Some((longest.1, place));
                        }
                    }
                    Kind::Deq if self.operation(operation.mate).ret < at => {
                        values_in -= 1;
                        if values_in == 0 {
                            waiting.sort_unstable();
                            found.singles.extend(waiting.drain(..).map(|empty| (at, empty)));
                        }
                    }
                    Kind::Empty if values_in > 0 => waiting.push(place),
                    Kind::Empty | Kind::Not => found.singles.push((at, place)),
                    Kind::Deq => {}
                }
                continue;
            }
            let place = *returns.next().expect("each event is a call or a return");
            let operation = self.operation(place);
            match operation.kind {
                Kind::Enq => {
                    let (called, left) = self.dequeue(operation);
                    if called > longest.0 {
                        longest = (called, place);
                    }
                    values_in += u32::from(called > at);
                    if left > at {
                        found.by_end.push(place);
                    }
                }
                Kind::Deq => {
                    if self.operation(operation.mate).ret > at {
                        found.by_end.push(operation.mate);
                    }
                    found.by_dequeue.push(operation.mate);
                }
                Kind::Empty if found.covered.is_none() && waiting.contains(&place) => found.covered = Some(place),
                _ => {}
            }
            if operation.kind == Kind::Empty {
                waiting.retain(|&other| other != place);
            }
        }
        found
    }

    /// The values that take over from one another while a dequeue that answered empty was under way.
    fn cover(&self, empty: u32) -> Vec<u32> {
        let mut lines = vec![empty];
        let (mut frontier, mut longest) = (self.operation(empty).call, (0, NONE));
        let mut returns = self.by_return.iter().peekable();
        loop {
            while let Some(&place) = returns.next_if(|&&place| self.operation(place).ret < frontier) {
                let operation = self.operation(place);
                if operation.kind == Kind::Enq && self.dequeue(operation).0 > longest.0 {
                    longest = (self.dequeue(operation).0, place);
                }
            }
            lines.push(longest.1);
            lines.extend(Some(self.operation(longest.1).mate).filter(|&mate| mate != NONE));
            frontier = longest.0;
            if frontier > self.operation(empty).ret {
                return lines;
            }
        }
    }

    /// The chosen order. Keys are gaps with a class: a dequeue of a value from an earlier gap, a single, an enqueue, a dequeue.
    fn order(&self, found: &Sweep) -> Vec<u32> {
        let mut order = Vec::with_capacity(self.operations.len());
        let mut taken = vec![false; self.operations.len()];
        let mut singles = found.singles.iter().map(|&(gap, place)| ((gap, 1), place)).peekable();
        let mut dequeues: VecDeque<((u32, u8), u32)> = VecDeque::new();
        let (mut ends, mut lefts) = (found.by_end.iter().peekable(), found.by_dequeue.iter().peekable());
        let mut reach = 0;
        // Everything that stands before a key.
        let mut put_before = |key: (u32, u8), order: &mut Vec<u32>, dequeues: &mut VecDeque<((u32, u8), u32)>| loop {
            let single = singles.peek().filter(|single| single.0 < key);
            match (dequeues.front().filter(|dequeue| dequeue.0 < key), single) {
                (Some(dequeue), single) if single.map_or(true, |single| dequeue.0 < single.0) => {
                    order.push(dequeue.1);
                    dequeues.pop_front();
                }
                (_, Some(single)) => {
                    order.push(single.1);
                    singles.next();
                }
                _ => break,
            }
        };
        loop {
            while ends.next_if(|&&value| taken[value as usize]).is_some() {}
            while lefts.next_if(|&&value| taken[value as usize]).is_some() {}
            let Some(&&a) = ends.peek() else { break };
            let bounds = |value: u32| {
                let operation = self.operation(value);
                let (called, left) = self.dequeue(operation);
                (operation.ret.min(left), called.max(operation.call), left)
            };
            let (end, a_start, _) = bounds(a);
            let value = lefts.peek().map(|&&b| b).filter(|&b| bounds(b).2 < a_start).unwrap_or(a);
            put_before((end - 1, 2), &mut order, &mut dequeues);
            order.push(value);
            taken[value as usize] = true;
            if self.operation(value).mate != NONE {
                reach = bounds(value).1.max(reach);
                let key = if reach > end - 1 { (reach, 0) } else { (end - 1, 3) };
                dequeues.push_back((key, self.operation(value).mate));
            }
        }
        put_before((NONE, 4), &mut order, &mut dequeues);
        order
    }

    fn decide(&self) -> Verdict {
        if self.fresh != NONE {
            let value = self.operation(self.fresh).value;
            let is_its_enqueue = |operation: &Operation| matches!(operation.kind, Kind::Enq | Kind::Not) && operation.value == value;
            let enqueue = self.operations.iter().position(is_its_enqueue);
            return ("NO VFresh", [self.fresh].into_iter().chain(enqueue.map(|place| place as u32)).collect());
        }
        if let Some((first, second)) = self.repeat {
            return ("NO VRepeat", vec![self.operation(first).mate, first, second]);
        }
        let found = self.sweep();
        if let Some((a, b)) = found.order {
            let last = Some(self.operation(a).mate).filter(|&mate| mate != NONE);
            return ("NO VOrd", [a, b, self.operation(b).mate].into_iter().chain(last).collect());
        }
        match found.covered {
            Some(empty) => ("NO VWit", self.cover(empty)),
            None => ("YES", self.order(&found)),
        }
    }

    fn write(&self, (answer, places): &Verdict, mut to: impl Write) -> io::Result<()> {
        let mut text = vec![0; BUFFER];
        let mut at = put(&mut text, 0, answer.as_bytes());
        at = put(&mut text, at, b"\n");
        let middles = middles();
        for &place in places {
            if at > BUFFER - 2 * MAX_LINE {
                to.write_all(&text[..at])?;
                at = 0;
            }
            let operation = self.operation(place);
            if place < self.initial {
                if *answer != "YES" {
                    at = put(&mut text, at, b"init ");
                    at = put_number(&mut text, at, operation.value);
                    at = put(&mut text, at, b"\n");
                }
                continue;
            }
            at = put_number(&mut text, at, self.ticket(operation.call));
            text[at] = b' ';
            at = put_number(&mut text, at + 1, self.ticket(operation.ret));
            at = put(&mut text, at, &middles[operation.kind as usize * 64 + operation.thread as usize]);
            if operation.kind != Kind::Empty {
                at = put_number(&mut text, at, operation.value);
            }
            text[at] = b'\n';
            at += 1;
        }
        to.write_all(&text[..at])
    }
}

/// What stands between an operation's tickets and its value, by kind and thread.
fn middles() -> Vec<Vec<u8>> {
    let words = ["enq ", "deq ", "empty", "not "];
    words.iter().flat_map(|word| (0..64).map(move |thread| format!(" {thread} {word}").into_bytes())).collect()
}

/// Puts bytes at a place, and gives the place after them.
#[inline(always)]
fn put(text: &mut [u8], at: usize, bytes: &[u8]) -> usize {
    text[at..at + bytes.len()].copy_from_slice(bytes);
    at + bytes.len()
}

/// The digits of a number below 10^8, one to a byte, the first in the lowest.
#[inline(always)]
fn eight_digits(value: u32) -> u64 {
    let fours = u64::from(value / 10_000) | u64::from(value % 10_000) << 32;
    let hundreds = (fours * 10_486 >> 20) & 0x0000_007f_0000_007f;
    let pairs = hundreds | (fours - hundreds * 100) << 16;
    let tens = (pairs * 103 >> 10) & 0x000f_000f_000f_000f;
    tens | (pairs - tens * 10) << 8
}

/// The number without leading zeros, eight digits at a time.
fn put_number(text: &mut [u8], at: usize, value: u64) -> usize {
    const EIGHT: u64 = 100_000_000;
    if value >= EIGHT {
        let at = put_number(text, at, value / EIGHT);
        let digits = eight_digits((value % EIGHT) as u32) | 0x3030_3030_3030_3030;
        return put(text, at, &digits.to_le_bytes());
    }
    let digits = eight_digits(value as u32);
    let zeros = (digits | 1 << 56).trailing_zeros() / 8;
    let shown = (digits | 0x3030_3030_3030_3030) >> (8 * zeros);
    put(text, at, &shown.to_le_bytes()) - zeros as usize
}

fn main() {
    // Standard output as it is, since its lines are gathered here.
    let output = std::mem::ManuallyDrop::new(unsafe { <std::fs::File as std::os::fd::FromRawFd>::from_raw_fd(1) });
    let (status, written) = match read(io::stdin().lock()) {
        Ok(history) => {
            let verdict = history.decide();
            (i32::from(verdict.0 != "YES"), history.write(&verdict, &*output))
        }
        Err(Fault::Read) => (3, (&*output).write_all(b"FAULT Read\n")),
        Err(fault) => (2, (&*output).write_all(format!("REFUSED {fault}\n").as_bytes())),
    };
    std::process::exit(if written.is_ok() { status } else { 3 });
}
