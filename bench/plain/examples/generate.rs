//! Makes an input of a benchmark: `generate CELLS REPEAT CASES SEED [STEPS]`. Each case is a random mesh, refined step by step at
//! random leaves to at most CELLS cells, and nearly so many. With STEPS it is an input of steps: each case goes on with so many
//! random ones that leave the number of cells about the same. The same cells, cases and seed give the same tables and steps at
//! each REPEAT. Prints to standard error the number of cells of all cases; with STEPS, of the tables before each step.

use independent::mesh::{examine_table, Coarse, LEAF, TOP_LEVEL};
use independent::random::{coarse_up_to, mixed_marks, Random};
use independent::step::step;
use plain::input::{write, write_steps, Case, Step, Steps};
use std::io::Write;

fn main() {
    let numbers: Vec<usize> =
        std::env::args().skip(1).map(|a| a.parse().expect("a number")).collect();
    let ([cells, repeat, cases, seed] | [cells, repeat, cases, seed, _]) = numbers[..] else {
        eprintln!("usage: generate CELLS REPEAT CASES SEED [STEPS]");
        std::process::exit(2);
    };
    assert!((100..=4096).contains(&cells) && repeat <= 65535);
    let repeat = repeat as u16;
    let mut r = Random::new(seed as u64);
    let mut tables = Vec::new();
    while tables.len() < cases {
        let mesh = coarse_up_to(&mut r, (cells / 8).min(256));
        if let Some(status) = refined(&mut r, &mesh, cells) {
            tables.push((mesh, status));
        }
    }
    let (bytes, count) = match numbers.get(4) {
        None => layouts(&tables, repeat),
        Some(&steps) => all_steps(&mut r, &tables, repeat, steps),
    };
    std::io::stdout().write_all(&bytes).expect("standard output can be written");
    eprintln!("{count}");
}

fn layouts(tables: &[(Coarse, Vec<u8>)], repeat: u16) -> (Vec<u8>, usize) {
    let mut out = Vec::new();
    for (mesh, status) in tables {
        let (positions, cells) = (mesh.positions.concat(), mesh.cells.concat());
        out.push(Case { positions, cells, status: status.clone(), repeat, ..Case::default() });
    }
    (write(&out), out.iter().map(|c| c.status.len()).sum())
}

fn all_steps(r: &mut Random, tables: &[(Coarse, Vec<u8>)], repeat: u16, count: usize) -> (Vec<u8>, usize) {
    let mut out = Vec::new();
    let mut cells_before = 0;
    for (mesh, status) in tables {
        let mut table = status.clone();
        let mut steps = Vec::new();
        for k in 0..count {
            cells_before += table.len();
            let (marks, new) = balanced(r, mesh, &table, status.len(), k);
            steps.push(Step { marks, short: 0 });
            table = new;
        }
        let (positions, cells) = (mesh.positions.concat(), mesh.cells.concat());
        out.push(Steps { positions, cells, status: status.clone(), steps, repeat });
    }
    (write_steps(&out), cells_before)
}

/// A table of at most `most` cells and at least 97 of 100 of them; None where steps stay too large.
fn refined(r: &mut Random, mesh: &Coarse, most: usize) -> Option<Vec<u8>> {
    let mut table = vec![LEAF; mesh.cells.len()];
    let mut failed = 0;
    while table.len() < most * 97 / 100 {
        let layout = examine_table(mesh, &table).expect("a step gives a sound table");
        let leaves: Vec<usize> = (0..table.len())
            .filter(|&i| table[i] == LEAF && layout.cells[i].level < TOP_LEVEL)
            .collect();
        let mut marks = vec![0; table.len()];
        for _ in 0..(1 + (most - table.len()) / 60) >> failed {
            // The finer of two leaves: some places become much finer than others.
            let two = [*r.pick(&leaves), *r.pick(&leaves)];
            marks[two[0].max(two[1])] = 1;
        }
        marks[*r.pick(&leaves)] = 1;
        match step(mesh, &table, &marks) {
            Ok(new) if new.len() <= most => table = new,
            _ => failed += 1,
        }
        if failed > 30 {
            return None;
        }
    }
    Some(table)
}

/// Marks and the table after them, of `wanted` cells more or less a tenth: every fourth step is without marks, the others refine
/// some leaves and delete some families, more of these where there are too many cells.
fn balanced(r: &mut Random, mesh: &Coarse, table: &[u8], wanted: usize, k: usize) -> (Vec<u8>, Vec<u8>) {
    if k % 4 == 3 {
        return (vec![0; table.len()], table.to_vec());
    }
    let layout = examine_table(mesh, table).expect("a step gives a sound table");
    let rarely = if table.len() > wanted { 3 } else { 6 };
    for tries in 0.. {
        let few = if tries < 40 { 100 } else { 400 };
        let refined = 1 + r.below(1 + wanted / few);
        let marks = mixed_marks(r, &layout, rarely, refined);
        match step(mesh, table, &marks) {
            Ok(new) if new.len() * 10 > wanted * 9 && new.len() * 10 < wanted * 11 => return (marks, new),
            _ => assert!(tries < 1000, "steps stay about as large"),
        }
    }
    unreachable!()
}
