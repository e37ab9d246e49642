//! Writes the cases of the program try_parts and the lines that it must print.
//!
//!     part_cases INPUT LINES [SEED]
//!
//! A case is a header of seven u16 numbers, least byte first: how many coordinates (i32), corner numbers (u16), statuses and owners (bytes) follow it, the number
//! of parts, 1 where the table of stores is lent short by one, else 0, and how many calls follow these lists. The number 65,535 ends the input. A call is ten
//! bytes: what, the store it is on (from 0), sender and receiver of a message (from 0), two bytes more, two answers that it may give, flags (1 it has a line,
//! 2 the store is compared with that before, 4 the store is lent short) and 0.
//!
//! | what | | the two bytes |
//! |---|---|---|
//! | 1 | start | how many marks follow |
//! | 2 | part step | |
//! | 3 | fetch; the program keeps the message, at most twelve of a pair | |
//! | 4 | the next message of the pair handed to its receiver; it is kept until it is taken | |
//! | 5 | a message of the pair that waits, handed to the store, which may be another's | which, from 0 |
//! | 6 | the last message of the pair that was taken, handed to the store | |
//! | 7 | the next message of the pair handed to its receiver, damaged | 0 cut, 1 longer by one, k + 2: its byte k set; to what |
//! | 8 | bytes handed over | how many bytes follow |
//! | 9, 10, 11 | stage; what is held; merge | |
//! | 12 | merge with the table short by one | |
//! | 13, 15 | sender's and receiver's store change places; the sender's is copied over the receiver's | |
//! | 14 | the exchange is carried to its end by a plain loop, among as many parts as the receiver says | |
//! | 16 | a number of the store is set to the two answers, least byte first | which number; the receiver's byte is the highest |
//!
//! The split has a line: its refusal's number, 0 where it is accepted, and 1 where it is refused and the stores are as they were. A call that has a line: its
//! answer (20 running, 30 done, 38 and 39 done with 8 and 9) and 1 where the store is as it was, or not compared. Before that what is held has a line: how many
//! cells, how many of them ghosts, a sum over them; and a merge: how many cells, and a checksum of the whole lent table. Last of a case are how many calls
//! without a line answered otherwise than they may, and how many of them were refused and changed the store.
//!
//! How many messages there are, their order and what is in them is not known here: it is what the parts agree on. So no line tells it.

use independent::mesh::*;
use independent::parts::*;
use independent::random::*;
use independent::step::*;
use independent::trial::*;
use independent::Refusal;
use std::collections::BTreeMap;

const START: u8 = 1;
const STEP: u8 = 2;
const FETCH: u8 = 3;
const NEXT: u8 = 4;
const WAITING: u8 = 5;
const AGAIN: u8 = 6;
const DAMAGED: u8 = 7;
const BYTES: u8 = 8;
const STAGE: u8 = 9;
const HELD: u8 = 10;
const MERGE: u8 = 11;
const MERGE_SHORT: u8 = 12;
const SWAP: u8 = 13;
const FINISH: u8 = 14;
const COPY: u8 = 15;
const SET: u8 = 16;

const RUNNING: u8 = 20;
const DONE: u8 = 30;

const TOLD: u8 = 1;
const COMPARED: u8 = 2;
const SHORT: u8 = 4;

#[derive(Clone, Default)]
struct Call {
    what: u8,
    at: u8,
    from: u8,
    to: u8,
    more: [u8; 2],
    answers: [u8; 2],
    flags: u8,
    list: Vec<u8>,
}

struct Case {
    positions: Vec<i32>,
    cells: Vec<u16>,
    status: Vec<u8>,
    owners: Vec<u8>,
    parts: usize,
    short: bool,
    calls: Vec<Call>,
    lines: Vec<String>,
}

/// A split that is accepted, and the step that its parts make.
struct Job {
    old: Layout,
    owners: Vec<u8>,
    parts: u8,
    marks: Vec<u8>,
    /// What all stores hold after, and the result: 0, 8 or 9.
    after: Layout,
    owners_after: Vec<u8>,
    result: u8,
}

type Met = BTreeMap<String, usize>;

fn job(coarse: &Coarse, status: &[u8], parts: usize, owners: &[u8], marks: &[u8]) -> Job {
    let old = examine_table(coarse, status).expect("a sound table");
    assert_eq!(examine_owners(&old, parts, owners), Ok(()));
    let (after, result) = match step(coarse, status, marks) {
        Ok(new) => (examine_table(coarse, &new).expect("a sound table"), 0),
        Err(k) => (old.clone(), k),
    };
    let owners_after = if result == 0 { owners_after(&old, owners, &after) } else { owners.to_vec() };
    Job { old, owners: owners.to_vec(), parts: parts as u8, marks: marks.to_vec(), after, owners_after, result }
}

/// The refusal of a split, or 0.
fn split_answer(c: &Case) -> Refusal {
    if c.short {
        return 15;
    }
    let answer = || -> Result<(), Refusal> {
        let coarse = examine_mesh(&c.positions, &c.cells)?;
        let layout = examine_table(&coarse, &c.status)?;
        examine_owners(&layout, c.parts, &c.owners)
    };
    answer().err().unwrap_or(0)
}

// ---------------------------------------------------------------------- calls and their lines

impl Case {
    fn new(positions: &[i32], cells: &[u16], status: &[u8], parts: usize, owners: &[u8]) -> Case {
        Case {
            positions: positions.to_vec(),
            cells: cells.to_vec(),
            status: status.to_vec(),
            owners: owners.to_vec(),
            parts,
            short: false,
            calls: Vec::new(),
            lines: Vec::new(),
        }
    }

    /// A call without a line, and what it may answer.
    fn quiet(&mut self, call: Call, answers: &[u8]) {
        let answers = [answers[0], *answers.last().expect("an answer")];
        self.calls.push(Call { answers, ..call });
    }

    /// A call with a line. A refusal is compared with the store before.
    fn told(&mut self, call: Call, answer: u8) {
        let refused = answer != 0 && answer < RUNNING;
        let flags = call.flags | TOLD | if refused { COMPARED } else { 0 };
        self.calls.push(Call { flags, ..call });
        self.lines.push(format!("{answer} 1"));
    }

    fn told_on(&mut self, what: u8, at: u8, answer: u8) {
        self.told(Call { what, at, ..Call::default() }, answer);
    }

    fn bytes(&mut self, at: u8, bytes: &[u8], answer: u8) {
        self.told(Call { what: BYTES, at, more: [bytes.len() as u8, 0], list: bytes.to_vec(), ..Call::default() }, answer);
    }

    fn set(&mut self, at: u8, offset: u32, value: u16) {
        let [a, b, c, _] = offset.to_le_bytes();
        self.calls.push(Call { what: SET, at, to: c, more: [a, b], answers: value.to_le_bytes(), ..Call::default() });
        // The program takes the answer 0, as it is one of the two or not: so its line is asked for.
        self.calls.last_mut().expect("a call").flags = TOLD;
        self.lines.push("0 1".to_string());
    }

    fn merge_refused(&mut self, call: Call, answer: u8) {
        let length = if call.what == MERGE_SHORT { MOST_CELLS - 1 } else { MOST_CELLS };
        self.lines.push(format!("0 {}", checksum_bytes(&bytes(length))));
        self.told(call, answer);
    }

    fn merge(&mut self, table: &[u8]) {
        self.lines.push(format!("{} {}", table.len(), checksum_bytes(&over(bytes(MOST_CELLS), table))));
        self.told_on(MERGE, 0, 0);
    }

    fn held(&mut self, at: u8, held: &[Held]) {
        let ghosts = held.iter().filter(|h| h.ghost).count();
        self.lines.push(format!("{} {ghosts} {}", held.len(), rows_sum(held)));
        self.told_on(HELD, at, 0);
    }

    fn finish(&mut self, parts: u8) {
        self.told(Call { what: FINISH, to: parts, ..Call::default() }, 0);
    }

    /// All parts done: their stages, what they hold, and the merged table.
    fn end(&mut self, job: &Job) {
        for p in 0..job.parts {
            self.told_on(STAGE, p, DONE + job.result);
            self.held(p, &held(&job.after, &job.owners_after, p + 1));
        }
        self.merge(&table(&job.after));
    }

    fn input(&self) -> Vec<u8> {
        let lengths = [self.positions.len(), self.cells.len(), self.status.len()];
        assert!(lengths.iter().zip(MOST).all(|(&n, most)| n <= most) && self.owners.len() <= MOST[2]);
        let [p, c, s] = lengths;
        let mut out = Vec::new();
        for n in [p, c, s, self.owners.len(), self.parts, self.short as usize, self.calls.len()] {
            assert!(n < 65_536);
            out.extend((n as u16).to_le_bytes());
        }
        out.extend(self.positions.iter().flat_map(|x| x.to_le_bytes()));
        out.extend(self.cells.iter().flat_map(|x| x.to_le_bytes()));
        out.extend(&self.status);
        out.extend(&self.owners);
        for c in &self.calls {
            out.extend([c.what, c.at, c.from, c.to, c.more[0], c.more[1], c.answers[0], c.answers[1], c.flags, 0]);
            out.extend(&c.list);
        }
        out
    }

    fn lines(&self) -> String {
        let answer = split_answer(self);
        let mut lines = vec![format!("{answer} {}", (answer != 0) as u8)];
        lines.extend(self.lines.iter().cloned());
        lines.push("0 0".to_string());
        lines.join("\n") + "\n"
    }
}

/// A row for each: 1 for a ghost, status, level, coarse cell, ten child numbers. The squares of their checksums added, so that the order is free.
fn rows_sum(held: &[Held]) -> u64 {
    const PRIME: u64 = 2_147_483_647;
    let mut sum = 0;
    for h in held {
        let mut row: Vec<u16> = vec![h.ghost as u16, h.status as u16, h.path.len() as u16 - 1];
        row.extend(h.path.iter().map(|&x| x as u16));
        row.resize(14, 0);
        let row = checksum_words(&row) % PRIME;
        sum = (sum + row * row) % PRIME;
    }
    sum
}

fn marks_list(marks: &[u8]) -> ([u8; 2], Vec<u8>) {
    ((marks.len() as u16).to_le_bytes(), marks.to_vec())
}

fn start(at: u8, marks: &[u8]) -> Call {
    let (more, list) = marks_list(marks);
    Call { what: START, at, more, list, ..Call::default() }
}

fn start_of(job: &Job, at: u8) -> Call {
    start(at, &marks_of(&job.owners, &job.marks, at + 1))
}

// ------------------------------------------------------------------------------- the cases

/// B of document 01 on two parts, cell 0 with 1 and its family with 2, all eight marked 2: part 2 is empty after. Every refusal on the way.
fn star(cases: &mut Vec<Case>) {
    let coarse = examine_mesh(&A, &[0, 1, 2, 3]).unwrap();
    let b = [64, 0, 0, 0, 0, 0, 0, 0, 0];
    let owners = [1, 2, 2, 2, 2, 2, 2, 2, 2];
    let job = job(&coarse, &b, 2, &owners, &[0, 2, 2, 2, 2, 2, 2, 2, 2]);
    assert!(held(&job.after, &job.owners_after, 2).is_empty());
    let mut c = Case::new(&A, &[0, 1, 2, 3], &b, 2, &owners);
    let call = |what, at| Call { what, at, ..Call::default() };
    let pair = |what, from, to| Call { what, from, to, at: to, ..Call::default() };
    let short = |call: Call| Call { flags: SHORT, ..call };
    // Before the start every other call is 16, and 15 comes first.
    for p in 0..2 {
        for what in [STEP, FETCH, STAGE, HELD] {
            c.told_on(what, p, 16);
            c.told(short(call(what, p)), 15);
        }
        c.bytes(p, &[4, 2 - p, p + 1, 0, 0], 16);
        c.bytes(p, &[], 16);
    }
    c.merge_refused(call(MERGE, 0), 16);
    c.merge_refused(short(call(MERGE, 0)), 15);
    c.merge_refused(call(MERGE_SHORT, 0), 15);
    // 7: length, above 2, not 0 on a refined cell.
    for marks in [&[][..], &[0, 0], &[3], &[255], &[1], &[2]] {
        c.told(start(0, marks), 7);
    }
    for marks in [&[2; 7][..], &[2; 9], &[], &[2, 2, 2, 2, 2, 2, 2, 3]] {
        c.told(start(1, marks), 7);
    }
    c.told(short(start_of(&job, 1)), 15);
    c.told(start_of(&job, 0), 0);
    c.told(start_of(&job, 0), 16);
    c.told_on(STAGE, 0, RUNNING);
    c.told_on(STAGE, 1, 16);
    c.told_on(STEP, 0, 16);
    c.told_on(FETCH, 0, 0);
    c.told(pair(NEXT, 0, 1), 16);
    c.told(start_of(&job, 1), 0);
    c.told(start(1, &[]), 16);
    c.told_on(HELD, 0, 16);
    c.told_on(STEP, 1, 16);
    c.merge_refused(call(MERGE, 0), 16);
    // 12: no bytes, kind, length, sender, receiver, cell, edge, values.
    for bytes in [
        &[][..],
        &[0, 2, 1, 0, 0],
        &[5, 2, 1, 0, 0],
        &[255, 2, 1, 0, 0],
        &[4],
        &[4, 2, 1, 0],
        &[4, 2, 1, 0, 0, 0],
        &[1, 2, 1, 0, 0, 0, 0],
        &[2, 2, 1, 0, 0, 0, 0, 1],
        &[3, 2, 1, 0, 0, 0, 0, 0, 0],
        &[4, 0, 1, 0, 0],
        &[4, 3, 1, 0, 0],
        &[4, 1, 1, 0, 0],
        &[4, 255, 1, 0, 0],
        &[4, 2, 2, 0, 0],
        &[4, 2, 0, 0, 0],
        &[1, 2, 1, 0, 0, 1, 0, 0],
        &[1, 2, 1, 0, 0, 9, 0, 0],
        &[1, 2, 1, 0, 0, 255, 255, 0],
        &[1, 2, 1, 0, 0, 0, 0, 2],
        &[2, 2, 1, 0, 0, 6, 0, 1, 0],
        &[2, 2, 1, 0, 0, 255, 255, 1, 0],
        &[2, 2, 1, 0, 0, 0, 0, 0, 0],
        &[2, 2, 1, 0, 0, 0, 0, 1, 16],
        &[3, 2, 1, 0, 0, 2, 16, 0],
        &[3, 2, 1, 0, 0, 0, 0, 12],
    ] {
        c.bytes(0, bytes, 12);
    }
    // 14: a count above the next one, whatever the kind; 12 comes before it.
    c.bytes(0, &[4, 2, 1, 1, 0], 14);
    c.bytes(0, &[4, 2, 1, 0, 1], 14);
    c.bytes(0, &[1, 2, 1, 9, 0, 0, 0, 1], 14);
    c.bytes(0, &[1, 2, 1, 9, 0, 0, 0, 2], 12);
    // The first message is taken, then 13; damaged it is 12.
    c.told(short(pair(NEXT, 0, 1)), 15);
    for (how, value) in [(0, 0), (1, 0), (2, 0), (2, 77), (3, 0), (3, 3), (3, 2), (4, 1), (4, 3)] {
        c.told(Call { more: [how, value], ..pair(DAMAGED, 0, 1) }, 12);
    }
    c.told(Call { what: WAITING, from: 0, to: 1, at: 0, ..Call::default() }, 12);
    c.told(pair(NEXT, 0, 1), 0);
    c.told(pair(AGAIN, 0, 1), 13);
    c.told(Call { what: AGAIN, from: 0, to: 1, at: 0, ..Call::default() }, 12);
    // Part 2 goes on to the next round when part 1 has not taken its message: what it writes then is too early.
    c.told_on(STEP, 1, 0);
    c.told_on(STEP, 1, 16);
    c.told_on(FETCH, 1, 0);
    c.told_on(FETCH, 1, 0);
    c.told(Call { what: WAITING, from: 1, to: 0, at: 0, more: [1, 0], ..Call::default() }, 14);
    c.told(pair(NEXT, 1, 0), 0);
    c.told(pair(NEXT, 1, 0), 14);
    c.told(pair(AGAIN, 1, 0), 13);
    c.told_on(STEP, 0, 0);
    c.told(pair(NEXT, 1, 0), 0);
    c.finish(2);
    c.end(&job);
    // Done stays.
    for p in 0..2 {
        c.told_on(STEP, p, 16);
        c.told(start(p, &[]), 16);
        c.told(pair(AGAIN, 1 - p, p), 13);
        c.bytes(p, &[4, 2 - p, p + 1, 0, 0], 13);
        c.bytes(p, &[4, 2 - p, p + 1, 255, 255], 14);
        c.bytes(p, &[9, 2 - p, p + 1, 255, 255], 12);
        c.told(short(call(HELD, p)), 15);
        c.told(short(call(STAGE, p)), 15);
        c.told_on(STAGE, p, DONE);
    }
    // In any order, and every part once.
    c.told(pair(SWAP, 0, 1), 0);
    c.merge(&table(&job.after));
    c.merge_refused(short(call(MERGE, 0)), 15);
    c.merge_refused(call(MERGE_SHORT, 0), 15);
    c.told(pair(COPY, 0, 1), 0);
    c.merge_refused(call(MERGE, 0), 16);
    cases.push(c);
}

/// Each of the numbers that have a range outside of it: 16 from every call.
fn ranges(cases: &mut Vec<Case>) {
    let coarse = examine_mesh(&A, &[0, 1, 2, 3]).unwrap();
    let b = [64, 0, 0, 0, 0, 0, 0, 0, 0];
    let owners = [1, 2, 2, 2, 2, 2, 2, 2, 2];
    let job = job(&coarse, &b, 2, &owners, &[0, 0, 0, 0, 1, 0, 0, 0, 0]);
    // Stage, part, parts, corners, coarse cells, cells, levels, round, result, entries.
    let wrong: [&[u16]; 10] = [
        &[3, 65_535],
        &[0, 3, 17],
        &[0, 17, 65_535],
        &[3, 513],
        &[0, 257],
        &[0, 4097],
        &[0, 12],
        &[6, 65_535],
        &[1, 7, 10],
        &[4097, 65_535],
    ];
    for stage in 0..3 {
        let mut c = Case::new(&A, &[0, 1, 2, 3], &b, 2, &owners);
        let right: [u16; 10] = match stage {
            0 => [0, 2, 2, 4, 1, 9, 2, 0, 0, 0],
            1 => [1, 2, 2, 4, 1, 9, 2, 0, 0, 0],
            _ => [2, 2, 2, 4, 1, 9, 2, 5, 0, held(&job.after, &job.owners_after, 2).len() as u16],
        };
        if stage > 0 {
            c.told(start_of(&job, 0), 0);
            c.told(start_of(&job, 1), 0);
        }
        if stage == 2 {
            c.finish(2);
        }
        for (k, values) in wrong.iter().enumerate() {
            for &value in *values {
                c.set(1, k as u32, value);
                c.told(start_of(&job, 1), 16);
                for what in [STEP, FETCH, STAGE, HELD] {
                    c.told_on(what, 1, 16);
                }
                c.bytes(1, &[4, 1, 2, 0, 0], 16);
                c.bytes(1, &[], 16);
                c.merge_refused(Call { what: MERGE, ..Call::default() }, 16);
                c.set(1, k as u32, right[k]);
            }
        }
        match stage {
            0 => {
                c.told(start_of(&job, 0), 0);
                c.told(start_of(&job, 1), 0);
                c.finish(2);
            }
            1 => c.finish(2),
            _ => {}
        }
        c.end(&job);
        // Stores of two splits, or that end differently, do not merge.
        for (k, value) in [(3, 5), (4, 2), (8, 9), (1, 1)] {
            c.set(1, k, value);
            c.merge_refused(Call { what: MERGE, ..Call::default() }, 16);
            c.set(1, k, right_done(&job)[k as usize]);
        }
        c.merge(&table(&job.after));
        cases.push(c);
    }
}

fn right_done(job: &Job) -> [u16; 10] {
    [2, 2, 2, 4, 1, 9, 2, 5, 0, held(&job.after, &job.owners_after, 2).len() as u16]
}

/// Refused splits: 15, 1 to 6, 10, 11, and which comes first.
fn refused_splits(r: &mut Random, cases: &mut Vec<Case>, count: usize) {
    let mut found: BTreeMap<u8, usize> = BTreeMap::new();
    let wanted = [1, 2, 3, 4, 5, 6, 10, 11, 15];
    while wanted.iter().any(|k| found.get(k).map_or(true, |&n| n < count)) {
        let coarse = small(r);
        let status = sound_table(r, &coarse);
        if status.len() > 200 {
            continue;
        }
        let layout = examine_table(&coarse, &status).unwrap();
        let parts = *r.pick(&[1, 2, 3, 16]);
        let (_, owners) = owners(r, &layout, parts);
        let (positions, cells) = if r.once_in(2) { damaged_mesh(r, &coarse) } else { (coarse.positions.concat(), coarse.cells.concat()) };
        let mut c = Case::new(&positions, &cells, &status, parts, &owners);
        if r.once_in(4) {
            c.status = damaged_table(r, &coarse, &status);
        }
        if r.once_in(2) {
            let (parts, owners) = damaged_owners(r, &layout, parts, &owners);
            (c.parts, c.owners) = (parts.min(65_535), owners);
        }
        c.short = r.once_in(8);
        let answer = split_answer(&c);
        let n = found.entry(answer).or_default();
        if answer != 0 && *n < count && c.positions.len() < 600 && c.cells.len() < 600 && c.status.len() < 600 && c.owners.len() < 600 {
            *n += 1;
            cases.push(c);
        }
    }
}

/// Some mesh of few cells and few corners in none.
fn small(r: &mut Random) -> Coarse {
    let most = *r.pick(&[1, 2, 3, 5, 8, 12, 24]);
    loop {
        let coarse = coarse_up_to(r, most);
        if coarse.positions.len() <= 100 {
            return coarse;
        }
    }
}

/// A schedule of so many calls, each with what it may answer, whatever the messages are.
fn schedule(r: &mut Random, c: &mut Case, job: &Job, count: usize) {
    let parts = job.parts as usize;
    let mut started = vec![false; parts];
    let late = *r.pick(&[1, 1, 4, 40]);
    let slow = if r.once_in(3) { Some(r.below(parts)) } else { None };
    let busy = if r.once_in(3) { Some(r.below(parts)) } else { None };
    for _ in 0..count {
        let part = |r: &mut Random| busy.filter(|_| r.once_in(3)).unwrap_or_else(|| r.below(parts));
        let (p, q, other) = (part(r), part(r), part(r));
        if Some(p) == slow && !r.once_in(20) {
            continue;
        }
        let flags = if r.once_in(60) { COMPARED } else { 0 };
        let (from, to) = (p as u8, q as u8);
        let on = |what| Call { what, at: from, flags, ..Call::default() };
        let of = |what, at: usize, more| Call { what, at: at as u8, from, to, more, flags, ..Call::default() };
        let unless = |at: usize, number: u8| [if started[at] { number } else { 16 }];
        match r.below(40) {
            0..=7 => c.quiet(on(STEP), if started[p] { &[0, 16] } else { &[16] }),
            8..=17 => c.quiet(on(FETCH), &unless(p, 0)),
            18..=30 => c.quiet(of(NEXT, q, [0, 0]), if started[q] { &[0, 14] } else { &[16] }),
            31 | 32 => c.quiet(of(AGAIN, q, [0, 0]), &unless(q, 13)),
            33 | 34 => c.quiet(of(WAITING, q, [1 + r.below(4) as u8, 0]), &unless(q, 14)),
            35 if other != q => c.quiet(of(WAITING, other, [0, 0]), &unless(other, 12)),
            36 => {
                let damage = [[0, 0], [1, 0], [2, 0], [2, 5 + r.below(251) as u8], [3, 0], [3, job.parts + 1], [3, to + 1], [4, 0]];
                c.quiet(of(DAMAGED, q, *r.pick(&damage)), &unless(q, 12));
            }
            37 if started[p] => c.quiet(Call { flags, ..start(from, &[]) }, &[16]),
            38 if !started[p] && r.once_in(4) => {
                let old = damaged_marks_of(r, &job.old, &job.owners, &job.marks, from + 1);
                if !marks_fit_part(&job.old, &job.owners, &old, from + 1) {
                    c.told(start(from, &old), 7);
                }
            }
            39 if !started[p] && r.once_in(late) => {
                c.told(start_of(job, from), 0);
                started[p] = true;
            }
            _ => {}
        }
    }
    for p in (0..parts).filter(|&p| !started[p]) {
        if r.once_in(4) {
            c.merge_refused(Call { what: MERGE, ..Call::default() }, 16);
        }
        c.told(start_of(job, p as u8), 0);
    }
}

fn exchange(r: &mut Random, cases: &mut Vec<Case>, met: &mut Met, coarse: &Coarse, job: Job, calls: usize) {
    let mut c = Case::new(&coarse.positions.concat(), &coarse.cells.concat(), &table(&job.old), job.parts as usize, &job.owners);
    schedule(r, &mut c, &job, calls);
    c.finish(job.parts);
    c.end(&job);
    if job.parts > 1 {
        let to = 1 + r.below(job.parts as usize - 1) as u8;
        c.told(Call { what: SWAP, from: 0, to, ..Call::default() }, 0);
        c.merge(&table(&job.after));
    }
    let ghosts = |layout: &Layout, owners: &[u8]| (1..=job.parts).flat_map(|p| held(layout, owners, p)).filter(|h| h.ghost).count();
    let empty = (1..=job.parts).any(|p| held(&job.after, &job.owners_after, p).is_empty());
    let all: Vec<(&str, bool)> = vec![
        ("result 0", job.result == 0),
        ("result 8", job.result == 8),
        ("result 9", job.result == 9),
        ("one part", job.parts == 1),
        ("sixteen parts", job.parts == 16),
        ("an empty part", empty),
        ("ghosts before", ghosts(&job.old, &job.owners) > 0),
        ("ghosts after", ghosts(&job.after, &job.owners_after) > 0),
        ("eight or nine beside ghosts", job.result > 0 && ghosts(&job.after, &job.owners_after) > 0),
        ("a family that goes", job.result == 0 && job.after.cells.len() < job.old.cells.len()),
    ];
    for (name, there) in all {
        *met.entry(name.to_string()).or_default() += there as usize;
    }
    cases.push(c);
}

/// Random meshes, owners, marks and schedules.
fn random_exchanges(r: &mut Random, cases: &mut Vec<Case>, met: &mut Met, count: usize) {
    for k in 0..count {
        let coarse = small(r);
        let status = loop {
            let table = sound_table(r, &coarse);
            if table.len() <= if k % 10 == 0 { 1500 } else { 300 } {
                break table;
            }
        };
        let layout = examine_table(&coarse, &status).unwrap();
        let parts = *r.pick(&[1, 2, 2, 2, 3, 3, 4, 5, 8, 16]);
        let (_, owners) = owners(r, &layout, parts);
        let marks = if r.once_in(3) {
            let (rarely, refined) = (1 + r.below(3), r.below(6));
            mixed_marks(r, &layout, rarely, refined)
        } else {
            marks(r, &layout)
        };
        let job = job(&coarse, &status, parts, &owners, &marks);
        let calls = 60 * parts + r.below(150 * parts);
        exchange(r, cases, met, &coarse, job, calls);
    }
}

/// Level 11 on some part, too many cells, and both; owners at random.
fn limits(r: &mut Random, cases: &mut Vec<Case>, met: &mut Met) {
    for k in 0..4 {
        let coarse = if k == 0 { examine_mesh(&A, &[0, 1, 2, 3]).unwrap() } else { small(r) };
        let mut status = vec![LEAF; coarse.cells.len()];
        loop {
            let layout = examine_table(&coarse, &status).unwrap();
            let top = layout.levels - 1;
            let regular: Vec<usize> =
                (0..status.len()).filter(|&i| layout.cells[i].level as usize == top && layout.cells[i].regular).collect();
            let marks = marks_at(status.len(), [*r.pick(&regular)]);
            match step(&coarse, &status, &marks) {
                Ok(new) => status = new,
                Err(_) => {
                    let parts = 2 + r.below(3);
                    let (_, owners) = owners(r, &layout, parts);
                    let job = job(&coarse, &status, parts, &owners, &marks);
                    exchange(r, cases, met, &coarse, job, 200 * parts);
                    break;
                }
            }
        }
    }
    // 256 cells apart, each red: 2,304 cells. Each first child red adds 16.
    let coarse = examine_mesh(&corners(512), &apart(256)).unwrap();
    let status = step(&coarse, &[0; 256], &[1; 256]).unwrap();
    for (count, parts) in [(112, 16), (113, 16), (113, 1), (150, 3)] {
        let layout = examine_table(&coarse, &status).unwrap();
        let (_, owners) = owners(r, &layout, parts);
        let marks = marks_at(2304, (0..count).map(|k| 256 + 8 * k));
        let job = job(&coarse, &status, parts, &owners, &marks);
        assert_eq!(job.result, if count == 112 { 0 } else { 9 });
        exchange(r, cases, met, &coarse, job, 60 * parts);
    }
    // A cell of level 10 refined among so many others that there would be too many cells: 8.
    let coarse = examine_mesh(&corners(200), &apart(190)).unwrap();
    let mut status = step(&coarse, &[0; 190], &[1; 190]).unwrap();
    for top in 1..=TOP_LEVEL {
        let layout = examine_table(&coarse, &status).unwrap();
        let at = layout.cells.iter().position(|c| c.level == top && c.regular).unwrap();
        if top < TOP_LEVEL {
            status = step(&coarse, &status, &marks_at(status.len(), [at])).unwrap();
            continue;
        }
        let ones = (0..status.len()).filter(|&i| layout.cells[i].level == 1 && status[i] == LEAF && layout.cells[i].child == 7);
        let marks = marks_at(status.len(), ones.chain([at]));
        let (_, owners) = owners(r, &layout, 4);
        let job = job(&coarse, &status, 4, &owners, &marks);
        assert_eq!(job.result, 8);
        exchange(r, cases, met, &coarse, job, 500);
    }
}

fn main() {
    let words: Vec<String> = std::env::args().collect();
    if !(3..=4).contains(&words.len()) {
        eprintln!("part_cases INPUT LINES [SEED]");
        std::process::exit(2);
    }
    let mut r = Random::new(words.get(3).map_or(2026, |n| n.parse().expect("a seed")));
    let (mut cases, mut met) = (Vec::new(), Met::new());
    star(&mut cases);
    ranges(&mut cases);
    refused_splits(&mut r, &mut cases, 4);
    limits(&mut r, &mut cases, &mut met);
    random_exchanges(&mut r, &mut cases, &mut met, 80);

    let (mut input, mut expected) = (Vec::new(), String::new());
    for case in &cases {
        *met.entry(format!("split {}", split_answer(case))).or_default() += 1;
        input.extend(case.input());
        expected.push_str(&case.lines());
        for line in case.lines.iter().filter(|l| l.ends_with(" 1")) {
            *met.entry(format!("line {line}")).or_default() += 1;
        }
    }
    input.extend([255, 255].repeat(7));
    let calls: usize = cases.iter().map(|c| c.calls.len()).sum();
    eprintln!("{} cases, {calls} calls, {} and {} bytes", cases.len(), input.len(), expected.len());
    for (name, count) in &met {
        eprintln!("{name}: {count}");
        assert!(*count > 0, "not met: {name}");
    }
    let numbers = [7, 12, 13, 14, 15, 16].map(|k| format!("line {k} 1"));
    for name in numbers.into_iter().chain([10, 11, 15].map(|k| format!("split {k}"))) {
        assert!(met.contains_key(&name), "not met: {name}");
    }
    std::fs::write(&words[1], input).expect("the input is written");
    std::fs::write(&words[2], expected).expect("the lines are written");
}
