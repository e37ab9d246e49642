//! A model of the carrier: it brings the messages of a split job from part to part, late, again, too early, to the wrong part or damaged, with refused calls
//! between, by a schedule at random, and holds each answer to document 01. Messages are bytes that the calls under test make: of them it reads kind, sender,
//! receiver and count alone, as docs/PARTS.md has them. What is in them, and how many there are, it does not know.

use crate::random::Random;
use std::collections::{BTreeMap, VecDeque};

/// The length of a message of the kind 1, 2, 3, 4.
pub const LENGTHS: [usize; 4] = [8, 9, 8, 5];

#[derive(Clone, Copy, Debug, PartialEq)]
pub enum Stage {
    Running,
    Done,
    /// Done with 8 or 9.
    Ended(u8),
}

/// The calls under test on the stores of one split. An answer is 0 or a refusal's number; parts are from 1.
pub trait Stores {
    fn start(&mut self, part: u8, marks: &[u8]) -> u8;
    fn step(&mut self, part: u8) -> u8;
    fn fetch(&mut self, part: u8) -> Result<Option<Vec<u8>>, u8>;
    fn hand(&mut self, part: u8, bytes: &[u8]) -> u8;
    fn stage(&mut self, part: u8) -> Result<Stage, u8>;
    /// The refusal of reading what a part holds, and of merging all; 0 where it is accepted.
    fn held(&mut self, part: u8) -> u8;
    fn merge(&mut self) -> u8;
    /// Keeps the part's store for `unchanged`.
    fn remember(&mut self, part: u8);
    fn unchanged(&self, part: u8) -> bool;
}

type Pair = (u8, u8);

#[derive(Default)]
struct Mail {
    waiting: VecDeque<Vec<u8>>,
    taken: Vec<Vec<u8>>,
}

/// What a run met.
#[derive(Clone, Debug, Default)]
pub struct Report {
    /// The calls that moved the exchange on.
    pub moves: usize,
    pub messages: usize,
    /// How often a call of this name was answered so.
    pub answers: BTreeMap<(&'static str, u8), usize>,
    /// How many of the refused calls were compared with the store before.
    pub compared: usize,
    /// The result: 0, 8 or 9.
    pub result: u8,
}

struct Carrier<'a, S: Stores> {
    stores: &'a mut S,
    r: &'a mut Random,
    parts: u8,
    marks: &'a [Vec<u8>],
    mail: BTreeMap<Pair, Mail>,
    started: Vec<bool>,
    report: Report,
}

/// Damage that is 12 whatever the message says: another length, an unknown kind, a wrong sender or receiver.
pub fn damaged(message: &[u8], how: usize, parts: u8) -> Vec<u8> {
    let mut bytes = message.to_vec();
    match how % 8 {
        0 => {
            bytes.pop();
        }
        1 => bytes.push(0),
        2 => bytes[0] = 0,
        3 => bytes[0] = 5,
        4 => bytes[0] = 255,
        5 => bytes[1] = 0,
        6 => bytes[1] = parts + 1,
        _ => bytes[1] = bytes[2],
    }
    bytes
}

/// How a schedule is.
#[derive(Clone, Copy, Debug)]
pub struct Style {
    /// This part acts seldom; 0 for none.
    pub slow_part: u8,
    /// Messages of this pair wait long.
    pub slow_pair: Option<Pair>,
    /// Parts up to this number start as late as can be.
    pub late: u8,
    /// One call in so many is one to be refused.
    pub refused: usize,
    /// One refused call in so many is compared with the store before.
    pub compared: usize,
}

pub fn style(r: &mut Random, parts: u8) -> Style {
    let any = |r: &mut Random| 1 + r.below(parts as usize) as u8;
    Style {
        slow_part: if r.once_in(3) { any(r) } else { 0 },
        slow_pair: if r.once_in(3) { Some((any(r), any(r))) } else { None },
        late: if r.once_in(3) { any(r) } else { 0 },
        refused: *r.pick(&[2, 4, 10]),
        compared: 50,
    }
}

/// Carries an exchange to its end by a schedule at random. Err where an answer is not that of document 01, or the exchange stands still.
pub fn carry<S: Stores>(r: &mut Random, stores: &mut S, marks: &[Vec<u8>], style: Style) -> Result<Report, String> {
    let parts = marks.len() as u8;
    let started = vec![false; marks.len()];
    let mut c = Carrier { stores, r, parts, marks, mail: BTreeMap::new(), started, report: Report::default() };
    let mut idle = 0;
    loop {
        if c.r.once_in(style.refused) {
            c.refused_call(style)?;
            continue;
        }
        if idle > 6 * marks.len() + 10 {
            if !c.sweep()? {
                break;
            }
            idle = 0;
            continue;
        }
        let (p, q) = (c.part(), c.part());
        let slow = p == style.slow_part && !c.r.once_in(30);
        let moved = match c.r.below(8) {
            _ if slow => false,
            0 if p > style.late => c.start(p)?,
            1 | 2 => c.step(p)?,
            3 | 4 => c.fetch(p)?,
            _ if style.slow_pair == Some((p, q)) && !c.r.once_in(50) => false,
            5 | 6 => c.deliver((p, q))?,
            _ => {
                // All that waits for a part.
                let mut any = false;
                for from in 1..=parts {
                    while c.deliver((from, q))? {
                        any = true;
                    }
                }
                any
            }
        };
        idle = if moved { 0 } else { idle + 1 };
    }
    c.end()?;
    Ok(c.report)
}

/// Carries an exchange to its end by a plain loop.
pub fn carry_plainly<S: Stores>(stores: &mut S, marks: &[Vec<u8>]) -> Result<Report, String> {
    let started = vec![false; marks.len()];
    let mut r = Random::new(0);
    let parts = marks.len() as u8;
    let mut c = Carrier { stores, r: &mut r, parts, marks, mail: BTreeMap::new(), started, report: Report::default() };
    while c.sweep()? {}
    c.end()?;
    Ok(c.report)
}

impl<S: Stores> Carrier<'_, S> {
    fn part(&mut self) -> u8 {
        1 + self.r.below(self.parts as usize) as u8
    }

    fn started(&self, part: u8) -> bool {
        self.started[part as usize - 1]
    }

    fn note(&mut self, call: &'static str, answer: u8) {
        *self.report.answers.entry((call, answer)).or_default() += 1;
    }

    /// Err unless the answer is one of these.
    fn settled(&mut self, call: &'static str, part: u8, answer: u8, may_be: &[u8]) -> Result<(), String> {
        self.note(call, answer);
        if may_be.contains(&answer) {
            Ok(())
        } else {
            Err(format!("{call} on part {part} answers {answer} and not {may_be:?}"))
        }
    }

    fn start(&mut self, part: u8) -> Result<bool, String> {
        if self.started(part) {
            return Ok(false);
        }
        let answer = self.stores.start(part, &self.marks[part as usize - 1]);
        self.settled("start", part, answer, &[0])?;
        self.started[part as usize - 1] = true;
        self.report.moves += 1;
        Ok(true)
    }

    fn step(&mut self, part: u8) -> Result<bool, String> {
        let answer = self.stores.step(part);
        let may_be: &[u8] = if self.started(part) { &[0, 16] } else { &[16] };
        self.settled("step", part, answer, may_be)?;
        self.report.moves += (answer == 0) as usize;
        Ok(answer == 0)
    }

    fn fetch(&mut self, part: u8) -> Result<bool, String> {
        let fetched = self.stores.fetch(part);
        let number = *fetched.as_ref().err().unwrap_or(&0);
        let may_be = if self.started(part) { 0 } else { 16 };
        self.settled("fetch", part, number, &[may_be])?;
        let bytes = match fetched {
            Ok(Some(bytes)) => bytes,
            _ => return Ok(false),
        };
        let right = !bytes.is_empty() && (1..=4).contains(&bytes[0]) && bytes.len() == LENGTHS[bytes[0] as usize - 1] && bytes[1] == part;
        if !right || bytes[2] == part || !(1..=self.parts).contains(&bytes[2]) {
            return Err(format!("part {part} gives the message {bytes:?}"));
        }
        let mail = self.mail.entry((part, bytes[2])).or_default();
        let count = bytes[3] as usize + 256 * bytes[4] as usize;
        if count != mail.waiting.len() + mail.taken.len() {
            return Err(format!("part {part} gives a message with the count {count}: {bytes:?}"));
        }
        mail.waiting.push_back(bytes);
        self.report.moves += 1;
        self.report.messages += 1;
        Ok(true)
    }

    /// Offers the next message of a pair to its receiver.
    fn deliver(&mut self, pair: Pair) -> Result<bool, String> {
        let bytes = match self.mail.get(&pair).and_then(|m| m.waiting.front()) {
            Some(bytes) => bytes.clone(),
            None => return Ok(false),
        };
        let answer = self.stores.hand(pair.1, &bytes);
        let may_be: &[u8] = if self.started(pair.1) { &[0, 14] } else { &[16] };
        self.settled("next message", pair.1, answer, may_be)?;
        if answer == 0 {
            let mail = self.mail.get_mut(&pair).expect("it has a message");
            let bytes = mail.waiting.pop_front().expect("the first");
            mail.taken.push(bytes);
            self.report.moves += 1;
        }
        Ok(answer == 0)
    }

    /// All starts, fetches, messages and steps that can be. False where none moved the exchange on.
    fn sweep(&mut self) -> Result<bool, String> {
        let mut any = false;
        for p in 1..=self.parts {
            any |= self.start(p)?;
            while self.fetch(p)? {
                any = true;
            }
        }
        let pairs: Vec<Pair> = self.mail.keys().copied().collect();
        for pair in pairs {
            while self.deliver(pair)? {
                any = true;
            }
        }
        for p in 1..=self.parts {
            any |= self.step(p)?;
        }
        Ok(any)
    }

    /// All are done alike, nothing is left to fetch or to take.
    fn end(&mut self) -> Result<(), String> {
        for p in 1..=self.parts {
            let result = match self.stores.stage(p) {
                Ok(Stage::Done) => 0,
                Ok(Stage::Ended(k)) => k,
                other => return Err(format!("no call moves the exchange on, and part {p} is {other:?}")),
            };
            if p > 1 && result != self.report.result {
                return Err(format!("part {p} ended with {result}, others with {}", self.report.result));
            }
            self.report.result = result;
            if let Some((&pair, mail)) = self.mail.iter().find(|(_, m)| !m.waiting.is_empty()) {
                return Err(format!("{} messages of {pair:?} are not taken", mail.waiting.len()));
            }
        }
        Ok(())
    }

    /// A call that is to be refused, now and then beside the store as it was.
    fn refused_call(&mut self, style: Style) -> Result<(), String> {
        let (p, q) = (self.part(), self.part());
        let compared = self.r.once_in(style.compared);
        let how = self.r.below(64);
        let kind = self.r.below(10);
        let on = match kind {
            0 | 1 => p,
            _ => q,
        };
        if compared {
            self.stores.remember(on);
        }
        let done = self.started(on) && self.stores.stage(on) != Ok(Stage::Running);
        match kind {
            0 if self.started(p) => {
                let answer = self.stores.start(p, &self.marks[p as usize - 1]);
                self.settled("second start", p, answer, &[16])?;
            }
            0 => {
                let mut marks = self.marks[p as usize - 1].clone();
                marks.push(0);
                let answer = self.stores.start(p, &marks);
                self.settled("start with a mark more", p, answer, &[7])?;
            }
            1 if !self.started(p) || done => {
                let answer = self.stores.step(p);
                self.settled("step when done or before the start", p, answer, &[16])?;
            }
            2 if !done => {
                let answer = self.stores.held(q);
                self.settled("held before done", q, answer, &[16])?;
                let answer = self.stores.merge();
                self.settled("merge before all are done", q, answer, &[16])?;
            }
            3 if !self.started(q) => {
                let answer = self.stores.stage(q).err().unwrap_or(0);
                self.settled("stage before the start", q, answer, &[16])?;
                let answer = self.stores.fetch(q).err().unwrap_or(0);
                self.settled("fetch before the start", q, answer, &[16])?;
            }
            4..=9 => return self.refused_message((p, q), kind, how, compared),
            _ => return Ok(()),
        }
        self.compare(on, compared)
    }

    fn compare(&mut self, part: u8, compared: bool) -> Result<(), String> {
        self.report.compared += compared as usize;
        if compared && !self.stores.unchanged(part) {
            return Err(format!("a refused call changed the store of part {part}"));
        }
        Ok(())
    }

    fn refused_message(&mut self, pair: Pair, kind: usize, how: usize, compared: bool) -> Result<(), String> {
        let mail = match self.mail.get(&pair) {
            Some(mail) => mail,
            None => return Ok(()),
        };
        let to = pair.1;
        let (next, early) = (mail.waiting.front(), mail.waiting.get(1 + how % 3));
        let again = mail.taken.get(mail.taken.len().wrapping_sub(1 + how % 5)).or_else(|| mail.taken.last());
        let other = 1 + (to as usize + how % self.parts as usize) as u8 % self.parts;
        let (call, at, bytes, number) = match (kind, next, early, again) {
            (4 | 5, _, _, Some(bytes)) => ("message offered again", to, bytes.clone(), 13),
            (6 | 7, _, Some(bytes), _) => ("message too early", to, bytes.clone(), 14),
            (8, Some(bytes), _, _) | (8, _, _, Some(bytes)) if other != to => ("message for another part", other, bytes.clone(), 12),
            (9, Some(bytes), _, _) | (9, _, _, Some(bytes)) => ("damaged message", to, damaged(bytes, how, self.parts), 12),
            _ => return Ok(()),
        };
        if at != to && compared {
            self.stores.remember(at);
        }
        let answer = self.stores.hand(at, &bytes);
        self.settled(call, at, answer, &[if self.started(at) { number } else { 16 }])?;
        self.compare(at, compared)
    }
}
