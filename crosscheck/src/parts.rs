//! Runs the calls on split jobs against the independent program: `parts EXCHANGES [SEED [CASE]]`. Each case splits a random table among random owners, has the
//! carrier bring the messages by a random schedule (`independent::carrier`, which holds each answer to document 01), and compares what each part holds and the
//! merged table with the owners' rule and the serial step. Then numbers of the stores are damaged and all calls made on them. Ends with an error at the first
//! difference.

use independent::carrier::{carry, style, Report, Stage, Stores};
use independent::mesh::*;
use independent::parts::*;
use independent::random::*;
use independent::step::step;
use independent::trial::{apart, corners, marks_at};
use independent::Refusal;
use std::collections::BTreeMap;
use yuccadice::lent as library;

const FULL: usize = 226_488;
const STORES: usize = 16 * FULL;
const ROWS: usize = 14 * MOST_CELLS;
/// The numbers of a store that have a range, and one out of it for each.
const RANGED: [(usize, &[u16]); 10] = [
    (0, &[3, 65_535]),
    (1, &[0, 17]),
    (2, &[0, 17, 65_535]),
    (3, &[0, 3, 513]),
    (4, &[0, 257]),
    (5, &[0, 4097]),
    (6, &[0, 12]),
    (7, &[24, 65_535]),
    (8, &[1, 7, 10]),
    (9, &[4097, 65_535]),
];

/// The calls on the stores of one split, the part p in the place p - 1.
struct Calls<'a> {
    stores: &'a mut [u16],
    rows: &'a mut [u16],
    kept: Vec<u16>,
}

impl Calls<'_> {
    fn store(&mut self, part: u8) -> &mut [u16] {
        &mut self.stores[FULL * (part as usize - 1)..FULL * part as usize]
    }
}

impl Stores for Calls<'_> {
    fn start(&mut self, part: u8, marks: &[u8]) -> u8 {
        library::start(self.store(part), marks)
    }

    fn step(&mut self, part: u8) -> u8 {
        library::part_step(self.store(part))
    }

    fn fetch(&mut self, part: u8) -> Result<Option<Vec<u8>>, u8> {
        let (mut bytes, mut count) = ([170; 9], 77);
        match library::fetch(self.store(part), &mut bytes, &mut count) {
            0 if count == 0 => Ok(None),
            0 => Ok(Some(bytes[..count].to_vec())),
            k => Err(k),
        }
    }

    fn hand(&mut self, part: u8, bytes: &[u8]) -> u8 {
        library::hand_over(self.store(part), bytes)
    }

    fn stage(&mut self, part: u8) -> Result<Stage, u8> {
        let (mut stage, mut round, mut result) = (7, 7, 7);
        match library::stage(self.store(part), &mut stage, &mut round, &mut result) {
            0 => match (stage, round, result) {
                (1, 0..=22, 0) => Ok(Stage::Running),
                (2, 0, 0) => Ok(Stage::Done),
                (2, 0, 8 | 9) => Ok(Stage::Ended(result as u8)),
                _ => Err(200),
            },
            k if (stage, round, result) == (7, 7, 7) => Err(k),
            _ => Err(201),
        }
    }

    fn held(&mut self, part: u8) -> u8 {
        let from = FULL * (part as usize - 1);
        library::held(&self.stores[from..from + FULL], self.rows, &mut 0)
    }

    fn merge(&mut self) -> u8 {
        library::merge(self.stores, &mut [0; MOST_CELLS], &mut 0)
    }

    fn remember(&mut self, part: u8) {
        let from = FULL * (part as usize - 1);
        self.kept.clear();
        self.kept.extend_from_slice(&self.stores[from..from + FULL]);
    }

    fn unchanged(&self, part: u8) -> bool {
        let from = FULL * (part as usize - 1);
        self.kept == self.stores[from..from + FULL]
    }
}

/// A table to split, its owners and marks.
struct Job {
    coarse: Coarse,
    old: Layout,
    parts: usize,
    kind: &'static str,
    owners: Vec<u8>,
    marks: Vec<u8>,
}

fn job(r: &mut Random) -> Job {
    let (coarse, status, marks) = match r.below(60) {
        0 => many_cells(r),
        1 | 2 => deep(r),
        _ => some(r),
    };
    let old = examine_table(&coarse, &status).expect("a sound table");
    let parts = *r.pick(&[1, 2, 2, 2, 3, 3, 4, 5, 7, 8, 12, 16, 16]);
    let (kind, owners) = owners(r, &old, parts);
    Job { coarse, old, parts, kind, owners, marks }
}

fn some(r: &mut Random) -> (Coarse, Vec<u8>, Vec<u8>) {
    let most = if r.once_in(40) { 256 } else { *r.pick(&[1, 1, 2, 3, 5, 8, 16, 30]) };
    let coarse = coarse_up_to(r, most);
    let mut table = vec![LEAF; coarse.cells.len()];
    for _ in 0..r.below(6) {
        let layout = examine_table(&coarse, &table).expect("a sound table");
        if let Ok(new) = step(&coarse, &table, &marks(r, &layout)) {
            table = new;
        }
        if table.len() > 300 && !r.once_in(8) {
            break;
        }
    }
    let layout = examine_table(&coarse, &table).expect("a sound table");
    let marks = match r.below(3) {
        0 => {
            let (rarely, refined) = (1 + r.below(4), r.below(6));
            mixed_marks(r, &layout, rarely, refined)
        }
        _ => marks(r, &layout),
    };
    (coarse, table, marks)
}

/// Refined at the top again and again, up to level 10 or a little less.
fn deep(r: &mut Random) -> (Coarse, Vec<u8>, Vec<u8>) {
    let coarse = coarse_up_to(r, 3);
    let mut status = vec![LEAF; coarse.cells.len()];
    let mut marks = vec![0; status.len()];
    for _ in 0..9 + r.below(4) {
        let layout = examine_table(&coarse, &status).expect("a sound table");
        let top = |i: &usize| layout.cells[*i].regular && layout.cells[*i].level as usize + 1 == layout.levels;
        let leaves: Vec<usize> = (0..status.len()).filter(top).collect();
        marks = marks_at(status.len(), [*r.pick(&leaves)]);
        match step(&coarse, &status, &marks) {
            Ok(new) => status = new,
            Err(_) => break,
        }
    }
    marks.resize(status.len(), 0);
    let marks = if examine_table(&coarse, &status).map_or(false, |l| independent::step::marks_fit(&l, &marks)) { marks } else { vec![0; status.len()] };
    (coarse, status, marks)
}

/// 2,304 cells, and about 4,096 after the step.
fn many_cells(r: &mut Random) -> (Coarse, Vec<u8>, Vec<u8>) {
    let coarse = examine_mesh(&corners(512), &apart(256)).expect("a mesh");
    let status = step(&coarse, &[0; 256], &[1; 256]).expect("a table");
    let count = 110 + r.below(6);
    (coarse, status, marks_at(2304, (0..count).map(|k| 256 + 8 * k)))
}

#[derive(Default)]
struct Tally {
    kinds: BTreeMap<&'static str, usize>,
    results: BTreeMap<u8, usize>,
    parts: BTreeMap<usize, usize>,
    answers: BTreeMap<(&'static str, u8), usize>,
    splits: BTreeMap<u8, usize>,
    damaged: BTreeMap<(&'static str, u8), usize>,
    ghosts: usize,
    empty: usize,
    messages: usize,
    moves: usize,
    compared: usize,
    /// Of the exchange on two or more parts that came nearest to the bound: the calls that moved it on, the bound, cells, parts.
    nearest: (usize, usize, usize, usize),
    /// The most calls that moved one on, its bound, cells, parts.
    most: (usize, usize, usize, usize),
}

pub fn run(exchanges: usize, seed: u64, only: Option<u64>) -> bool {
    let mut tally = Tally::default();
    let mut stores = vec![0; STORES];
    let mut fill = Random::new(seed);
    stores.iter_mut().for_each(|x| *x = fill.next() as u16);
    let cases = only.map_or(0..exchanges as u64, |case| case..case + 1);
    for case in cases.clone() {
        let mut r = Random::new(Random::new(seed).next() ^ case.wrapping_mul(0x9e37_79b9_7f4a_7c15));
        let job = job(&mut r);
        if let Err(told) = one_case(&mut r, &job, &mut stores, &mut tally) {
            println!("DIFFERENCE: seed {seed} case {case} (owners {}, {} parts, {} cells): {told}", job.kind, job.parts, job.owners.len());
            return false;
        }
    }
    report(&tally, seed, cases.end - cases.start);
    true
}

fn split(job: &Job, stores: &mut [u16]) -> u8 {
    library::split(&job.coarse.positions.concat(), &job.coarse.cells.concat(), &table(&job.old), job.parts, &job.owners, stores)
}

fn one_case(r: &mut Random, job: &Job, stores: &mut [u16], tally: &mut Tally) -> Result<(), String> {
    if r.once_in(8) {
        refused_split(r, job, stores, tally)?;
    }
    let answer = split(job, stores);
    *tally.splits.entry(answer).or_default() += 1;
    if answer != 0 {
        return Err(format!("the split answers {answer}"));
    }
    let status = table(&job.old);
    let (after, owners, result) = match step(&job.coarse, &status, &job.marks) {
        Ok(new) => {
            let new = examine_table(&job.coarse, &new).expect("a sound table");
            let owners = owners_after(&job.old, &job.owners, &new);
            (new, owners, 0)
        }
        Err(k) => (job.old.clone(), job.owners.clone(), k),
    };
    let marks: Vec<Vec<u8>> = (1..=job.parts as u8).map(|p| marks_of(&job.owners, &job.marks, p)).collect();
    let mut rows = vec![7; ROWS];
    let style = style(r, job.parts as u8);
    let mut calls = Calls { stores, rows: &mut rows, kept: Vec::new() };
    let report = carry(r, &mut calls, &marks, style)?;
    if report.result != result {
        return Err(format!("the parts end with {}, the serial step with {result}", report.result));
    }
    note(tally, job, &report);
    let mut held_by: Vec<Vec<Held>> = (1..=job.parts as u8).map(|p| held(&after, &owners, p)).collect();
    for (p, held) in held_by.iter_mut().enumerate() {
        held.sort();
        tally.ghosts += held.iter().filter(|h| h.ghost).count();
        tally.empty += held.is_empty() as usize;
        if read_held(&stores[FULL * p..FULL * (p + 1)])? != *held {
            return Err(format!("part {} holds other cells", p + 1));
        }
    }
    merged(stores, &after)?;
    if r.once_in(4) {
        shuffled(r, job.parts, stores);
        merged(stores, &after)?;
    }
    match r.below(3) {
        0 => damaged_stores(r, job, stores, tally),
        1 => damaged_merge(r, job, stores, tally),
        _ => Ok(()),
    }
}

fn note(tally: &mut Tally, job: &Job, report: &Report) {
    let (cells, parts) = (job.owners.len(), job.parts);
    *tally.kinds.entry(job.kind).or_default() += 1;
    *tally.results.entry(report.result).or_default() += 1;
    *tally.parts.entry(parts).or_default() += 1;
    for (&call, n) in &report.answers {
        *tally.answers.entry(call).or_default() += n;
    }
    tally.messages += report.messages;
    tally.moves += report.moves;
    tally.compared += report.compared;
    let now = (report.moves, calls_most(cells, parts), cells, parts);
    assert!(now.0 <= now.1, "{} calls moved the exchange on, and the bound is {}", now.0, now.1);
    if parts > 1 && (tally.nearest.1 == 0 || now.0 * tally.nearest.1 > tally.nearest.0 * now.1) {
        tally.nearest = now;
    }
    tally.most = tally.most.max(now);
}

/// What a done store says that it holds, in order; rows behind the last are as they were.
fn read_held(store: &[u16]) -> Result<Vec<Held>, String> {
    let mut rows = vec![40_000; ROWS];
    let mut count = 70_000;
    let answer = library::held(store, &mut rows, &mut count);
    if answer != 0 || count > MOST_CELLS || rows[14 * count..].iter().any(|&x| x != 40_000) {
        return Err(format!("what is held answers {answer}, {count} cells"));
    }
    let mut all = Vec::new();
    for row in rows[..14 * count].chunks(14) {
        let level = row[2] as usize;
        if row[0] > 1 || row[1] > 64 || level > 10 || row[4 + level..].iter().any(|&x| x != 0) || row.iter().any(|&x| x > 255) {
            return Err(format!("the row {row:?}"));
        }
        let path = row[3..4 + level].iter().map(|&x| x as u8).collect();
        all.push(Held { path, ghost: row[0] == 1, status: row[1] as u8 });
    }
    all.sort();
    Ok(all)
}

/// Merging gives the table, and changes nothing behind it.
fn merged(stores: &[u16], after: &Layout) -> Result<(), String> {
    let (mut bytes, mut count) = ([99; MOST_CELLS + 3], 7);
    let answer = library::merge(stores, &mut bytes, &mut count);
    let expected = table(after);
    if answer != 0 || count != expected.len() || bytes[..count] != expected[..] || bytes[count..].iter().any(|&x| x != 99) {
        return Err(format!("merging answers {answer} with {count} cells, and there are {}", expected.len()));
    }
    let short = library::merge(stores, &mut bytes[..MOST_CELLS - 1], &mut count);
    let cut = library::merge(&stores[..STORES - 1], &mut bytes, &mut count);
    if (short, cut) != (15, 15) || bytes[..count] != expected[..] {
        return Err(format!("merging with short tables answers {short} and {cut}"));
    }
    Ok(())
}

/// The stores of all parts in another order.
fn shuffled(r: &mut Random, parts: usize, stores: &mut [u16]) {
    for i in (1..parts).rev() {
        let j = r.below(i + 1);
        if i != j {
            let (front, back) = stores.split_at_mut(FULL * i);
            front[FULL * j..FULL * (j + 1)].swap_with_slice(&mut back[..FULL]);
        }
    }
}

/// A split that is refused leaves all as it was.
fn refused_split(r: &mut Random, job: &Job, stores: &mut [u16], tally: &mut Tally) -> Result<(), String> {
    let status = table(&job.old);
    let (mut positions, mut cells) = (job.coarse.positions.concat(), job.coarse.cells.concat());
    let (mut now, mut parts, mut owners) = (status.clone(), job.parts, job.owners.clone());
    match r.below(4) {
        0 => (positions, cells) = damaged_mesh(r, &job.coarse),
        1 => now = damaged_table(r, &job.coarse, &status),
        _ => {}
    }
    if r.once_in(2) {
        (parts, owners) = damaged_owners(r, &job.old, parts, &owners);
    }
    let short = r.once_in(6);
    let length = if short { *r.pick(&[0, 1, FULL, STORES - 1]) } else { STORES };
    let expected = || -> Result<(), Refusal> {
        if short {
            return Err(15);
        }
        let coarse = examine_mesh(&positions, &cells)?;
        let layout = examine_table(&coarse, &now)?;
        examine_owners(&layout, parts, &owners)
    };
    let expected = expected().err().unwrap_or(0);
    let before = stores.to_vec();
    let answer = library::split(&positions, &cells, &now, parts, &owners, &mut stores[..length]);
    *tally.splits.entry(answer).or_default() += 1;
    if answer != expected || (answer != 0 && stores != &before[..]) {
        return Err(format!("a split answers {answer} and not {expected}, or changes the stores"));
    }
    Ok(())
}

/// Numbers of the stores damaged: a call answers 16 where one is out of its range, else anything that a store's call may answer, and a refused call changes
/// nothing.
fn damaged_stores(r: &mut Random, job: &Job, stores: &mut [u16], tally: &mut Tally) -> Result<(), String> {
    let answer = split(job, stores);
    assert_eq!(answer, 0);
    let marks: Vec<Vec<u8>> = (1..=job.parts as u8).map(|p| marks_of(&job.owners, &job.marks, p)).collect();
    let messages = part_of_the_way(r, job, stores, &marks);
    let p = r.below(job.parts);
    let store = &mut stores[FULL * p..FULL * (p + 1)];
    let mode = r.below(3);
    match mode {
        0 => {
            let (at, values) = *r.pick(&RANGED);
            store[at] = *r.pick(values);
        }
        1 => damage(r, store),
        _ => store.iter_mut().for_each(|x| *x = (r.next() >> r.below(17)) as u16),
    }
    let mut calls = Calls { stores, rows: &mut vec![0; ROWS], kept: Vec::new() };
    let part = p as u8 + 1;
    for _ in 0..40 {
        let kind = r.below(10);
        if mode == 2 {
            header(r, calls.store(part));
        }
        if mode > 0 && (kind == 2 || kind == 3) {
            // As if the messages of the round were taken.
            let store = calls.store(part);
            let round = store[7];
            store[80..96].fill(round.wrapping_add(1));
        }
        calls.remember(part);
        let (call, answer) = match kind {
            0 => ("start", calls.start(part, &marks[p])),
            1 => {
                let length = r.below(40);
                let any: Vec<u8> = (0..length).map(|_| r.below(4) as u8).collect();
                ("start", calls.start(part, &any))
            }
            2 | 3 => ("part step", calls.step(part)),
            4 | 5 => ("fetch", calls.fetch(part).err().unwrap_or(0)),
            6 | 7 => {
                let message = any_message(r, &messages, job.parts, part);
                ("hand over", calls.hand(part, &message))
            }
            8 => ("held", calls.held(part)),
            _ if r.once_in(4) => ("merge", calls.merge()),
            _ => ("stage", calls.stage(part).err().unwrap_or(0)),
        };
        *tally.damaged.entry((call, answer)).or_default() += 1;
        let may_be = [0, 7, 12, 13, 14, 16].contains(&answer) && (mode > 0 || answer == 16);
        if !may_be || (answer != 0 && !calls.unchanged(part)) {
            return Err(format!("{call} on a damaged store answers {answer}, or changes it"));
        }
    }
    Ok(())
}

/// Done stores with places and statuses changed: merging them answers 16, or gives a sound table of the mesh.
fn damaged_merge(r: &mut Random, job: &Job, stores: &mut [u16], tally: &mut Tally) -> Result<(), String> {
    for _ in 0..4 {
        let store = FULL * r.below(job.parts);
        let entries = stores[store + 9] as usize;
        let (one, other) = (r.below(entries.max(1)), r.below(entries.max(1)));
        let column = 210_104 + MOST_CELLS * r.below(4);
        match r.below(5) {
            0 if entries > 0 => stores.swap(store + column + one, store + column + other),
            1 => stores[store + 9] = (entries + 1 - 2 * r.below(2)).min(MOST_CELLS) as u16,
            2 => stores[store + column + one] = r.next() as u16,
            3 => stores[store + column + one] ^= 1 << r.below(8),
            _ => stores[store + column + one] ^= 128,
        }
        let (mut bytes, mut count) = ([99; MOST_CELLS], 7);
        let answer = library::merge(stores, &mut bytes, &mut count);
        *tally.damaged.entry(("merge of done stores", answer)).or_default() += 1;
        let right = match answer {
            0 => count <= MOST_CELLS && examine_table(&job.coarse, &bytes[..count]).is_ok(),
            _ => answer == 16 && count == 7 && bytes == [99; MOST_CELLS],
        };
        if !right {
            return Err(format!("merging damaged stores answers {answer}, with a table that is not sound"));
        }
    }
    Ok(())
}

/// Some way into the exchange: the messages that were fetched.
fn part_of_the_way(r: &mut Random, job: &Job, stores: &mut [u16], marks: &[Vec<u8>]) -> Vec<Vec<u8>> {
    for p in 1..=job.parts {
        if !r.once_in(4) {
            library::start(&mut stores[FULL * (p - 1)..FULL * p], &marks[p - 1]);
        }
    }
    let mut messages: Vec<Vec<u8>> = Vec::new();
    for _ in 0..r.below(200) {
        let p = r.below(job.parts);
        let store = &mut stores[FULL * p..FULL * (p + 1)];
        let (mut bytes, mut count) = ([0; 9], 0);
        match r.below(4) {
            0 | 1 if library::fetch(store, &mut bytes, &mut count) == 0 && count > 0 => messages.push(bytes[..count].to_vec()),
            2 => {
                library::part_step(store);
            }
            _ if !messages.is_empty() => {
                let message: &Vec<u8> = r.pick(&messages);
                library::hand_over(store, message);
            }
            _ => {}
        }
    }
    messages
}

/// One of these messages, or bytes that are nearly one for the part.
fn any_message(r: &mut Random, messages: &[Vec<u8>], parts: usize, part: u8) -> Vec<u8> {
    if !messages.is_empty() && r.once_in(2) {
        return r.pick(messages).clone();
    }
    let kind = r.below(6) as u8;
    let length = if r.once_in(8) { r.below(30) } else { [0, 8, 9, 8, 5, 5][kind as usize] };
    let mut bytes: Vec<u8> = (0..length).map(|_| if r.once_in(3) { r.next() as u8 } else { r.below(3) as u8 }).collect();
    for (at, x) in [(0, kind), (1, 1 + r.below(parts) as u8), (2, part)] {
        if bytes.len() > at && !r.once_in(20) {
            bytes[at] = x;
        }
    }
    bytes
}

/// Some numbers changed, behind those that have a range.
fn damage(r: &mut Random, store: &mut [u16]) {
    let most = *r.pick(&[1, 20, 3000, 200_000]);
    for _ in 0..1 + r.below(most) {
        let at = match r.below(7) {
            0 => 10 + r.below(102),
            1 => 112 + r.below(FULL - 112),
            2 => 112 + r.below(49_152),
            3 => 49_264 + r.below(74_752),
            4 => 124_016 + r.below(86_088),
            5 => 210_104 + r.below(16_384),
            _ => 50_288 + r.below(600),
        };
        let (any, small) = (r.next() as u16, r.below(20) as u16);
        store[at] = *r.pick(&[0, 1, 2, 8, 16, 17, 64, 65, 255, 4095, 4096, 24_575, 24_576, 65_535, any, any, small, small]);
    }
}

/// Numbers that have a range, within it.
fn header(r: &mut Random, store: &mut [u16]) {
    let parts = 1 + r.below(16);
    let levels = 1 + r.below(11);
    let coarse = 1 + r.below(256);
    let stage = r.below(3);
    let round = [0, r.below(2 * levels + 1), 2 * levels + 1][stage];
    let result = if stage == 2 { *r.pick(&[0, 8, 9]) } else { 0 };
    let numbers = [stage, 1 + r.below(parts), parts, 4 + r.below(509), coarse, coarse + r.below(4097 - coarse), levels, round, result, r.below(4097)];
    for (at, &x) in numbers.iter().enumerate() {
        store[at] = x as u16;
    }
}

fn report(tally: &Tally, seed: u64, cases: u64) {
    println!("{cases} exchanges, seed {seed}: no message lost, each part's cells and the merged table those of the serial step");
    println!("{} messages, {} calls that moved one on; {} refused calls beside an unchanged store", tally.messages, tally.moves, tally.compared);
    println!("{} ghosts and {} empty parts after", tally.ghosts, tally.empty);
    for (name, (moves, bound, cells, parts)) in [("most", tally.most), ("nearest to the bound on two or more parts", tally.nearest)] {
        println!("calls that moved an exchange on, {name}: {moves} of at most {bound} ({cells} cells, {parts} parts)");
    }
    println!("\nowners: {:?}", tally.kinds);
    println!("parts: {:?}", tally.parts);
    println!("results: {:?}", tally.results);
    println!("splits: {:?}", tally.splits);
    println!("\nanswers:");
    for ((call, answer), n) in &tally.answers {
        println!("{n:10} {answer:3}  {call}");
    }
    println!("\nanswers on damaged stores:");
    for ((call, answer), n) in &tally.damaged {
        println!("{n:10} {answer:3}  {call}");
    }
}
