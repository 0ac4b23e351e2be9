//! What `cspwatch check` does, in plain Rust made for speed: each term once, with a number; each set of states once, with a
//! number, and with it what comes of each event and the least sets that it offers at rest. What is remembered is never
//! dropped. The history and the journal's text are kept in memory; each reply is one write.
//!
//! rustc --edition 2024 -O check_peer.rs; check_peer TERMS < lines
//!
//! The file TERMS has the names of the events in its first line, and then a line for each definition: its name, and its body
//! with each operator before its parts (`STOP`, `SKIP`, `> event T`, `[] T T`, `|~| T T`, `||| T T`, `; T T`, a name).
//! The first definition is the root. No script is read, and memory that runs out ends the program.
use std::collections::{HashMap, HashSet};
use std::fs::File;
use std::io::{self, Read, Write};
use std::os::fd::AsFd;

const MOST_STATES: usize = 4096;
const MOST_DEPTH: u32 = 1000;
const PIECE: usize = 8192;

#[derive(Clone, Copy, PartialEq, Eq, Hash)]
enum Node {
    Stop,
    Skip,
    Prefix(u16, u32),
    External(u32, u32),
    Internal(u32, u32),
    Beside(u32, u32),
    Then(u32, u32),
    Name(u32),
}
use Node::*;

/// A set of events, 64 to a word; tick is the event after the last one.
type Events = Vec<u64>;

fn has(set: &[u64], event: usize) -> bool {
    set[event / 64] >> (event % 64) & 1 == 1
}

fn shares(one: &[u64], other: &[u64]) -> bool {
    one.iter().zip(other).any(|(left, right)| left & right != 0)
}

fn is_within(one: &[u64], other: &[u64]) -> bool {
    one.iter().zip(other).all(|(left, right)| left & !right == 0)
}

/// What is known of a term.
struct Facts {
    node: Node,
    depth: u32,
    ends: bool,
    rests: bool,
    offers: Events,
    hidden: Option<Vec<u32>>,
}

/// What is known of a set of states.
struct Known {
    members: Vec<u32>,
    next: Vec<Option<Option<u32>>>,
    least: Vec<Events>,
    ends: bool,
}

struct Monitor {
    tick: usize,
    bodies: Vec<u32>,
    numbers: HashMap<Node, u32>,
    terms: Vec<Facts>,
    sets: Vec<Known>,
    places: HashMap<Vec<u32>, u32>,
}

impl Monitor {
    fn number(&mut self, node: Node) -> u32 {
        if let Some(&number) = self.numbers.get(&node) {
            return number;
        }
        let mut offers = vec![0; self.tick / 64 + 1];
        let (mut depth, mut ends, mut rests) = (1, false, false);
        match node {
            Stop => rests = true,
            Skip => ends = true,
            Prefix(event, rest) => {
                offers[event as usize / 64] |= 1 << (event % 64);
                (depth, rests) = (self.terms[rest as usize].depth + 1, true);
            }
            Name(_) => {}
            External(left, right) | Internal(left, right) | Beside(left, right) | Then(left, right) => {
                let (one, other) = (&self.terms[left as usize], &self.terms[right as usize]);
                depth = one.depth.max(other.depth) + 1;
                let both = one.rests && other.rests;
                match node {
                    External(..) => (ends, rests) = (one.ends || other.ends, both),
                    Beside(..) => {
                        ends = one.node == Skip && other.node == Skip;
                        rests = (one.rests || one.node == Skip) && (other.rests || other.node == Skip) && !ends;
                    }
                    Then(..) => rests = one.rests && !one.ends,
                    _ => {}
                }
                for (word, offered) in offers.iter_mut().enumerate() {
                    *offered = match node {
                        Internal(..) => 0,
                        Then(..) => one.offers[word],
                        _ => one.offers[word] | other.offers[word],
                    };
                }
            }
        }
        let number = self.terms.len() as u32;
        self.terms.push(Facts { node, depth, ends, rests, offers, hidden: None });
        self.numbers.insert(node, number);
        number
    }

    fn with_parts(&mut self, parts: Vec<u32>, whole: impl Fn(u32) -> Node) -> Vec<u32> {
        parts.into_iter().map(|part| self.number(whole(part))).collect()
    }

    /// The targets of the hidden steps of a term, found once.
    fn hidden(&mut self, term: u32) -> Vec<u32> {
        if let Some(known) = &self.terms[term as usize].hidden {
            return known.clone();
        }
        let found = match self.terms[term as usize].node {
            Stop | Skip | Prefix(..) => vec![],
            Name(number) => vec![self.bodies[number as usize]],
            Internal(left, right) => vec![left, right],
            External(left, right) => self.either(left, right, External),
            Beside(left, right) => {
                let mut found = self.either(left, right, Beside);
                let skip = self.number(Skip);
                if self.terms[left as usize].ends && left != skip {
                    found.push(self.number(Beside(skip, right)));
                }
                if self.terms[right as usize].ends && right != skip {
                    found.push(self.number(Beside(left, skip)));
                }
                found
            }
            Then(left, right) => {
                let steps = self.hidden(left);
                let mut found = self.with_parts(steps, |part| Then(part, right));
                if self.terms[left as usize].ends {
                    found.push(right);
                }
                found
            }
        };
        self.terms[term as usize].hidden = Some(found.clone());
        found
    }

    fn either(&mut self, left: u32, right: u32, whole: fn(u32, u32) -> Node) -> Vec<u32> {
        let (first, second) = (self.hidden(left), self.hidden(right));
        let mut found = self.with_parts(first, |part| whole(part, right));
        found.extend(self.with_parts(second, |part| whole(left, part)));
        found
    }

    /// The targets of the steps of a term by an event.
    fn after(&mut self, term: u32, event: usize) -> Vec<u32> {
        if event != self.tick && !has(&self.terms[term as usize].offers, event) {
            return vec![];
        }
        match self.terms[term as usize].node {
            _ if event == self.tick => if self.terms[term as usize].ends { vec![self.number(Stop)] } else { vec![] },
            Prefix(_, rest) => vec![rest],
            External(left, right) => [self.after(left, event), self.after(right, event)].concat(),
            Beside(left, right) => {
                let (first, second) = (self.after(left, event), self.after(right, event));
                let mut found = self.with_parts(first, |part| Beside(part, right));
                found.extend(self.with_parts(second, |part| Beside(left, part)));
                found
            }
            Then(left, right) => {
                let steps = self.after(left, event);
                self.with_parts(steps, |part| Then(part, right))
            }
            Stop | Skip | Internal(..) | Name(_) => vec![],
        }
    }

    /// The set of these states and of all that they reach by hidden steps.
    fn closed(&mut self, begun: Vec<u32>) -> u32 {
        let (mut seen, mut members, mut waiting) = (HashSet::new(), vec![], begun);
        while let Some(term) = waiting.pop() {
            if seen.insert(term) {
                let depth = self.terms[term as usize].depth;
                assert!(seen.len() <= MOST_STATES && depth <= MOST_DEPTH, "a limit is met");
                members.push(term);
                waiting.extend(self.hidden(term));
            }
        }
        members.sort_unstable();
        if let Some(&place) = self.places.get(&members) {
            return place;
        }
        let place = self.sets.len() as u32;
        self.places.insert(members.clone(), place);
        let known = self.known(members);
        self.sets.push(known);
        place
    }

    fn known(&self, members: Vec<u32>) -> Known {
        let facts = || members.iter().map(|&term| &self.terms[term as usize]);
        let ends = facts().any(|one| one.ends);
        let mut least: Vec<Events> = vec![];
        for one in facts().filter(|one| one.rests && !one.ends) {
            if !least.iter().any(|other| is_within(other, &one.offers)) {
                least.retain(|other| !is_within(&one.offers, other));
                least.push(one.offers.clone());
            }
        }
        Known { next: vec![None; self.tick + 1], least, ends, members }
    }

    fn advance(&mut self, set: u32, event: usize) -> Option<u32> {
        if let Some(known) = self.sets[set as usize].next[event] {
            return known;
        }
        let members = self.sets[set as usize].members.clone();
        let begun: Vec<u32> = members.into_iter().flat_map(|term| self.after(term, event)).collect();
        let answer = if begun.is_empty() { None } else { Some(self.closed(begun)) };
        self.sets[set as usize].next[event] = Some(answer);
        answer
    }

    fn refuses(&self, set: u32, refused: &[u64]) -> bool {
        let known = &self.sets[set as usize];
        (known.ends && !has(refused, self.tick)) || known.least.iter().any(|offered| !shares(offered, refused))
    }
}

/// Reads the terms: the names of the events, and the monitor with its definitions.
fn read_terms(text: &str) -> (Vec<String>, Monitor) {
    let mut lines = text.lines();
    let names: Vec<String> = lines.next().unwrap_or_default().split(' ').map(String::from).collect();
    let definitions: Vec<Vec<&str>> = lines.map(|line| line.split(' ').collect()).collect();
    let called: HashMap<&str, u32> = definitions.iter().zip(0..).map(|(words, number)| (words[0], number)).collect();
    let events: HashMap<&str, u16> = names.iter().zip(0..).map(|(name, number)| (name.as_str(), number)).collect();
    let mut monitor = Monitor {
        tick: names.len(),
        bodies: vec![],
        numbers: HashMap::new(),
        terms: vec![],
        sets: vec![],
        places: HashMap::new(),
    };
    for words in &definitions {
        let body = body(&mut monitor, &mut words[1..].iter(), &events, &called);
        monitor.bodies.push(body);
    }
    (names, monitor)
}

fn body<'t>(
    monitor: &mut Monitor,
    words: &mut impl Iterator<Item = &'t &'t str>,
    events: &HashMap<&str, u16>,
    called: &HashMap<&str, u32>,
) -> u32 {
    let word = *words.next().expect("a term ends too early");
    let node = match word {
        "STOP" => Stop,
        "SKIP" => Skip,
        ">" => {
            let event = events[*words.next().expect("a prefix has an event")];
            Prefix(event, body(monitor, words, events, called))
        }
        "[]" | "|~|" | "|||" | ";" => {
            let left = body(monitor, words, events, called);
            let right = body(monitor, words, events, called);
            match word {
                "[]" => External(left, right),
                "|~|" => Internal(left, right),
                "|||" => Beside(left, right),
                _ => Then(left, right),
            }
        }
        name => Name(called[name]),
    };
    monitor.number(node)
}

/// What answers the lines: the present set, the history, and the text of the journal.
struct Session {
    monitor: Monitor,
    events: HashMap<Vec<u8>, usize>,
    present: u32,
    history: Vec<(Report, bool)>,
    journal: Vec<u8>,
}

enum Report {
    Event(usize),
    Refusal(Events),
}

impl Session {
    fn report_of(&self, line: &[u8]) -> Option<Report> {
        if let Some(name) = line.strip_prefix(b"E ") {
            return self.events.get(name).map(|&event| Report::Event(event));
        }
        let names = line.strip_prefix(b"R ")?;
        let mut refused = vec![0; self.monitor.tick / 64 + 1];
        for name in names.split(|&byte| byte == b' ') {
            let event = *self.events.get(name)?;
            refused[event / 64] |= 1 << (event % 64);
        }
        Some(Report::Refusal(refused))
    }

    fn judge(&mut self, report: Report) -> bool {
        let verdict = match &report {
            Report::Event(event) => match self.monitor.advance(self.present, *event) {
                Some(next) => {
                    self.present = next;
                    true
                }
                None => false,
            },
            Report::Refusal(refused) => self.monitor.refuses(self.present, refused),
        };
        self.record(&report, verdict);
        self.history.push((report, verdict));
        verdict
    }

    fn record(&mut self, report: &Report, verdict: bool) {
        let (letter, places): (char, Vec<usize>) = match report {
            Report::Event(event) => ('E', vec![*event]),
            Report::Refusal(refused) => ('R', (0..=self.monitor.tick).filter(|&event| has(refused, event)).collect()),
        };
        let word = if verdict { "OK" } else { "NO" };
        write!(self.journal, "+1 {} {word} {letter}", self.history.len() + 1).expect("memory is ample");
        for place in places {
            write!(self.journal, " {}", place + 1).expect("memory is ample");
        }
        self.journal.push(b'\n');
    }

    fn answer(&mut self, line: &[u8], reply: &mut Vec<u8>) -> io::Result<()> {
        reply.clear();
        match self.report_of(line) {
            None => reply.extend_from_slice(b"ERR 11 event\n"),
            Some(report) => {
                let word = if self.judge(report) { "OK" } else { "NO" };
                writeln!(reply, "{word} {}", self.history.len())?;
            }
        }
        Ok(())
    }
}

fn main() -> io::Result<()> {
    let text = std::fs::read_to_string(std::env::args().nth(1).expect("check_peer TERMS"))?;
    let (names, mut monitor) = read_terms(&text);
    let root = monitor.number(Name(0));
    let present = monitor.closed(vec![root]);
    let mut events: HashMap<Vec<u8>, usize> = names.into_iter().map(String::into_bytes).zip(0..).collect();
    events.insert(b"_tick".to_vec(), monitor.tick);
    let mut session = Session { monitor, events, present, history: vec![], journal: vec![] };
    let mut input = File::from(io::stdin().as_fd().try_clone_to_owned()?);
    let mut output = File::from(io::stdout().as_fd().try_clone_to_owned()?);
    let (mut piece, mut begun, mut reply) = (vec![0; PIECE], Vec::new(), Vec::with_capacity(64));
    loop {
        let count = input.read(&mut piece)?;
        if count == 0 {
            return Ok(());
        }
        let mut left = &piece[..count];
        while let Some(end) = left.iter().position(|&byte| byte == b'\n') {
            let line = if begun.is_empty() { &left[..end] } else { begun.extend_from_slice(&left[..end]); &begun[..] };
            session.answer(line, &mut reply)?;
            output.write_all(&reply)?;
            begun.clear();
            left = &left[end + 1..];
        }
        begun.extend_from_slice(left);
    }
}
