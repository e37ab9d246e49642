//! Runs the library against the independent program: `crosscheck CALLS [SEED [CASE]]`. Each case makes some calls of both with the same inputs
//! and compares the answers, every lent table and every lent number. Ends with an error at the first difference.
//! `crosscheck parts EXCHANGES [SEED [CASE]]` does so with split jobs (see parts.rs).

mod expected;
mod inputs;
mod lend;
mod parts;

use expected::{number, Answer, Flat};
use independent::archive;
use independent::mesh::{examine_mesh, Coarse, Layout};
use independent::random::Random;
use independent::step;
use independent::trial::{end_rows, sum_rows, table_rows};
use inputs::{Archive, Inputs};
use lend::{numbers, shorts, Lent};
use std::collections::BTreeMap;
use yuccadice::lent as library;
use yuccadice::*;

/// The stack that a call may need (YD_STACK): the calls are made on so much.
const STACK: usize = 1 << 20;

/// A call made: what it answered, what it was to answer, and whether all that was lent is as it was to be.
struct Made {
    call: &'static str,
    got: u8,
    expected: u8,
    right: bool,
}

#[derive(Default)]
struct Tally {
    calls: usize,
    kinds: BTreeMap<&'static str, usize>,
    answers: BTreeMap<&'static str, BTreeMap<u8, usize>>,
}

fn main() {
    let of_parts = std::env::args().nth(1).map_or(false, |word| word == "parts");
    let words: Vec<u64> =
        std::env::args().skip(1 + of_parts as usize).map(|a| a.parse().expect("[parts] COUNT [SEED [CASE]]")).collect();
    let count = words.first().copied().unwrap_or(if of_parts { 10_000 } else { 100_000 }) as usize;
    let (seed, case) = (words.get(1).copied().unwrap_or(1), words.get(2).copied());
    let work = move || if of_parts { parts::run(count, seed, case) } else { run(count, seed, case) };
    let done = std::thread::Builder::new().stack_size(STACK).spawn(work).expect("a thread starts").join();
    std::process::exit(match done {
        Ok(true) => 0,
        _ => 1,
    });
}

fn run(calls: usize, seed: u64, only: Option<u64>) -> bool {
    let mut tally = Tally::default();
    let mut case = only.unwrap_or(0);
    while tally.calls < calls {
        let mut r = Random::new(Random::new(seed).next() ^ case.wrapping_mul(0x9e37_79b9_7f4a_7c15));
        let (kind, made, shown) = one_case(&mut r);
        *tally.kinds.entry(kind).or_default() += 1;
        for made in made {
            tally.calls += 1;
            *tally.answers.entry(made.call).or_default().entry(made.expected).or_default() += 1;
            if made.got != made.expected || !made.right {
                println!("DIFFERENCE: seed {seed} case {case} ({kind}), {}", made.call);
                println!("the library answers {}, the independent program {}", made.got, made.expected);
                println!("what was lent is {}", if made.right { "as it should be" } else { "not as it should be" });
                if only.is_some() {
                    println!("{shown}");
                }
                return false;
            }
        }
        case += 1;
        if only.is_some() {
            println!("{shown}");
            break;
        }
    }
    report(&tally, seed, case);
    true
}

fn report(tally: &Tally, seed: u64, cases: u64) {
    println!("{} calls of {cases} cases, seed {seed}: every answer, lent table and lent number equal", tally.calls);
    println!("\ncases:");
    for (kind, count) in &tally.kinds {
        println!("{count:8} {kind}");
    }
    let mut met: Vec<u8> = tally.answers.values().flat_map(|a| a.keys().copied()).collect();
    met.sort();
    met.dedup();
    print!("\n{:16} {:>8}", "answers:", "calls");
    met.iter().for_each(|n| print!(" {n:>7}"));
    println!();
    let row = |name: &str, count: &dyn Fn(u8) -> usize| {
        print!("{name:16} {:8}", met.iter().map(|&n| count(n)).sum::<usize>());
        met.iter().for_each(|&n| print!(" {:>7}", count(n)));
        println!();
    };
    for (call, answers) in &tally.answers {
        row(call, &|n| answers.get(&n).copied().unwrap_or(0));
    }
    row("all", &|n| tally.answers.values().filter_map(|a| a.get(&n)).sum());
}

/// A case: its kind, the calls made, and its inputs for a reader.
fn one_case(r: &mut Random) -> (&'static str, Vec<Made>, String) {
    match r.below(30) {
        0 => {
            let patterns: Vec<u8> = (0..16).map(|_| r.next() as u8 >> r.below(3)).collect();
            ("cutting", patterns.iter().map(|&p| cut(r, p)).collect(), format!("{patterns:?}"))
        }
        1..=12 => {
            let archive = inputs::archive(r);
            let made = on_archive(r, &archive);
            (archive.kind, made, format!("{archive:?}"))
        }
        _ => {
            let inputs = inputs::inputs(r);
            let before = inputs.clone();
            let made = on_mesh(r, &inputs);
            assert!(inputs == before, "a list that is lent to be read was written");
            (inputs.kind, made, format!("{inputs:?}"))
        }
    }
}

fn cut(r: &mut Random, pattern: u8) -> Made {
    let [short] = shorts(r);
    let mut digits = Lent::new(r, DIGITS_LENGTH, short);
    let [mut count] = numbers(r);
    let mut count_is = count;
    let answer = expected::lent(digits.short(), expected::cut(pattern));
    if let Ok((new, n)) = &answer {
        digits.expect(new);
        count_is = *n;
    }
    let got = library::cut(pattern, digits.table(), &mut count);
    Made { call: "cut", got, expected: number(&answer), right: digits.right() && count == count_is }
}

fn on_mesh(r: &mut Random, i: &Inputs) -> Vec<Made> {
    let coarse = examine_mesh(&i.positions, &i.cells);
    let opened = expected::open(&i.positions, &i.cells, &i.status);
    let got = library::examine_mesh(&i.positions, &i.cells);
    let mut made = vec![Made { call: "examine_mesh", got, expected: number(&coarse), right: true }];
    let got = library::examine_table(&i.positions, &i.cells, &i.status);
    made.push(Made { call: "examine_table", got, expected: number(&opened), right: true });
    made.extend(lay_out(r, i, &opened));
    for _ in 0..2 {
        made.push(ancestor(r, i, &opened));
    }
    made.push(counts(r, i, &opened));
    for _ in 0..2 {
        made.push(one_step(r, i, &coarse));
    }
    made
}

/// The layout, and positions of some of its corners.
fn lay_out(r: &mut Random, i: &Inputs, opened: &Answer<(Coarse, Layout)>) -> Vec<Made> {
    let short: [bool; 3] = shorts(r);
    let mut table = Lent::new(r, TABLE_LENGTH, short[0]);
    let mut ends = Lent::new(r, ENDS_LENGTH, short[1]);
    let mut sums = Lent::new(r, SUMS_LENGTH, short[2]);
    let mut n: [usize; 3] = numbers(r);
    let mut n_are = n;
    let answer = expected::lent(table.short() || ends.short() || sums.short(), opened.as_ref().map_err(|&k| k));
    if let Ok((coarse, layout)) = &answer {
        table.expect(&table_rows(layout));
        ends.expect(&end_rows(coarse, layout));
        sums.expect(&sum_rows(coarse, layout));
        n_are = [layout.cells.len(), layout.corners.len(), layout.levels];
    }
    let [cells, corners, levels] = &mut n;
    let got = library::lay_out(
        &i.positions, &i.cells, &i.status, table.table(), ends.table(), sums.table(), cells, corners, levels,
    );
    let right = table.right() && ends.right() && sums.right() && n == n_are;
    let mut made = vec![Made { call: "lay_out", got, expected: number(&answer), right }];
    for _ in 0..3 {
        let count = if answer.is_ok() { n[1] } else { some_number(r, 20_000) };
        made.push(position(r, sums.table(), count));
    }
    made
}

/// Mostly below n; else n or above it, by one, by some or by far.
fn some_number(r: &mut Random, n: usize) -> usize {
    match r.below(8) {
        0 => n,
        1 => n + r.below(100_000),
        2 => *r.pick(&[usize::MAX, usize::MAX / 2, 1 << 32, 65_536, 16_384, 16_383]),
        _ => r.below(n.max(1)),
    }
}

fn position(r: &mut Random, sums: &[i32], corners: usize) -> Made {
    let sums = if r.once_in(12) { &sums[..r.below(sums.len() + 1)] } else { sums };
    let corner = some_number(r, corners.min(20_000));
    let mut at = [0; 3].map(|_| f64::from_bits(r.next()));
    let mut at_is = at.map(f64::to_bits);
    let answer = if sums.len() < SUMS_LENGTH { Err(15) } else { expected::position(sums, corners, corner) };
    if let Ok(bits) = answer {
        at_is = bits;
    }
    let [x, y, z] = &mut at;
    let got = library::position(sums, corners, corner, x, y, z);
    Made { call: "position", got, expected: number(&answer), right: at.map(f64::to_bits) == at_is }
}

fn ancestor(r: &mut Random, i: &Inputs, opened: &Answer<(Coarse, Layout)>) -> Made {
    let cell = some_number(r, i.status.len());
    let answer = opened.as_ref().map_err(|&k| k).and_then(|(_, layout)| expected::ancestor(layout, cell));
    let mut n: [usize; 2] = numbers(r);
    let n_are = answer.map_or(n, |(coarse, level)| [coarse, level]);
    let [coarse, level] = &mut n;
    let got = library::ancestor(&i.positions, &i.cells, &i.status, cell, coarse, level);
    Made { call: "ancestor", got, expected: number(&answer), right: n == n_are }
}

fn counts(r: &mut Random, i: &Inputs, opened: &Answer<(Coarse, Layout)>) -> Made {
    let [short] = shorts(r);
    let mut counts = Lent::new(r, COUNTS_LENGTH, short);
    let [mut levels] = numbers(r);
    let mut levels_are = levels;
    let answer = expected::lent(counts.short(), opened.as_ref().map_err(|&k| k));
    if let Ok((_, layout)) = &answer {
        counts.expect(&expected::counts(layout));
        levels_are = layout.levels;
    }
    let got = library::counts(&i.positions, &i.cells, &i.status, counts.table(), &mut levels);
    Made { call: "counts", got, expected: number(&answer), right: counts.right() && levels == levels_are }
}

fn one_step(r: &mut Random, i: &Inputs, coarse: &Answer<Coarse>) -> Made {
    let [short] = shorts(r);
    let mut table = Lent::new(r, STATUS_LENGTH, short);
    let [mut cells] = numbers(r);
    let mut cells_are = cells;
    let answer = match coarse {
        _ if table.short() => Err(15),
        Err(k) => Err(*k),
        Ok(coarse) => step::step(coarse, &i.status, &i.marks),
    };
    if let Ok(new) = &answer {
        table.expect(new);
        cells_are = new.len();
    }
    let got = library::step(&i.positions, &i.cells, &i.status, &i.marks, table.table(), &mut cells);
    Made { call: "step", got, expected: number(&answer), right: table.right() && cells == cells_are }
}

fn on_archive(r: &mut Random, a: &Archive) -> Vec<Made> {
    vec![replay(r, &a.bytes), read(r, &a.bytes), write(r, &a.flat)]
}

fn replay(r: &mut Random, bytes: &[u8]) -> Made {
    let short: [bool; 2] = shorts(r);
    let mut table = Lent::new(r, STATUS_LENGTH, short[0]);
    let mut counts = Lent::new(r, COUNTS_LENGTH, short[1]);
    let mut n: [usize; 2] = numbers(r);
    let mut n_are = n;
    let answer = expected::lent(table.short() || counts.short(), expected::replay(bytes));
    if let Ok((new, new_counts, levels)) = &answer {
        table.expect(new);
        counts.expect(new_counts);
        n_are = [new.len(), *levels];
    }
    let [cells, levels] = &mut n;
    let got = library::replay(bytes, table.table(), counts.table(), cells, levels);
    Made { call: "replay", got, expected: number(&answer), right: table.right() && counts.right() && n == n_are }
}

fn read(r: &mut Random, bytes: &[u8]) -> Made {
    let short: [bool; 5] = shorts(r);
    let mut positions = Lent::new(r, POSITIONS_LENGTH, short[0]);
    let mut cells = Lent::new(r, COARSE_CELLS_LENGTH, short[1]);
    let mut marked = Lent::new(r, MARKED_LENGTH, short[2]);
    let mut marks = Lent::new(r, MARKS_LENGTH, short[3]);
    let mut ends = Lent::new(r, STEP_ENDS_LENGTH, short[4]);
    let mut n: [usize; 4] = numbers(r);
    let mut n_are = n;
    let any_short = positions.short() || cells.short() || marked.short() || marks.short() || ends.short();
    let answer = expected::lent(any_short, archive::read(bytes));
    if let Ok(job) = &answer {
        let f = expected::flat(job);
        positions.expect(&f.positions);
        cells.expect(&f.cells);
        marked.expect(&f.marked);
        marks.expect(&f.marks);
        ends.expect(&f.ends);
        n_are = [f.positions.len() / 3, f.cells.len() / 4, f.marks.len(), f.ends.len()];
    }
    let [v, t, m, g] = &mut n;
    let got = library::read(
        bytes, positions.table(), cells.table(), marked.table(), marks.table(), ends.table(), v, t, m, g,
    );
    let right = positions.right() && cells.right() && marked.right() && marks.right() && ends.right() && n == n_are;
    Made { call: "read", got, expected: number(&answer), right }
}

fn write(r: &mut Random, f: &Flat) -> Made {
    let [short] = shorts(r);
    let mut bytes = Lent::new(r, BYTES_LENGTH, short);
    let [mut count] = numbers(r);
    let mut count_is = count;
    let answer = expected::lent(bytes.short(), expected::write(f));
    if let Ok(new) = &answer {
        bytes.expect(new);
        count_is = new.len();
    }
    let got = library::write(&f.positions, &f.cells, &f.marked, &f.marks, &f.ends, bytes.table(), &mut count);
    Made { call: "write", got, expected: number(&answer), right: bytes.right() && count == count_is }
}
