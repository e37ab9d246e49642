//! Times split jobs through the library: `library_parts [REPEAT]`. A mesh of about 2,000 cells, some leaves refined and some families deleted, on 1, 2, 4 and 16
//! parts, with owners by coarse cell and at random. Whole exchanges (all starts to all done) carried by a plain loop, the split before and the merge after them,
//! beside the serial step of the same mesh and marks in the same run. The best time of all counts.

use independent::mesh::{examine_mesh, examine_table, Coarse, Layout, LEAF};
use independent::parts::{marks_of, owners_after};
use independent::random::{mixed_marks, Random};
use independent::step::step;
use std::hint::black_box;
use std::time::Instant;
use yuccadice::lent;

const FULL: usize = 226_488;

/// A block of cubes, each cut into six cells round its long diagonal; cells from end to end of the block.
fn block(size: [usize; 3]) -> Coarse {
    let number = |p: [usize; 3]| ((p[0] * (size[1] + 1) + p[1]) * (size[2] + 1) + p[2]) as u16;
    let (mut positions, mut cells) = (Vec::new(), Vec::new());
    for x in 0..=size[0] {
        for y in 0..=size[1] {
            for z in 0..=size[2] {
                positions.extend([x, y, z].map(|c| 100 * c as i32));
            }
        }
    }
    for x in 0..size[0] {
        for y in 0..size[1] {
            for z in 0..size[2] {
                for axes in [[0, 1, 2], [0, 2, 1], [1, 0, 2], [1, 2, 0], [2, 0, 1], [2, 1, 0]] {
                    let mut at = [x, y, z];
                    let mut cell = [number(at); 4];
                    for k in 0..3 {
                        at[axes[k]] += 1;
                        cell[k + 1] = number(at);
                    }
                    cells.extend(cell);
                }
            }
        }
    }
    examine_mesh(&positions, &cells).expect("a mesh")
}

/// About so many cells, by leaves refined here and there.
fn refined(r: &mut Random, coarse: &Coarse, cells: usize) -> Vec<u8> {
    let mut status = vec![LEAF; coarse.cells.len()];
    while status.len() < cells * 97 / 100 {
        let leaves: Vec<usize> = (0..status.len()).filter(|&i| status[i] == LEAF).collect();
        let mut marks = vec![0; status.len()];
        for _ in 0..1 + (cells - status.len()) / 80 {
            let two = [*r.pick(&leaves), *r.pick(&leaves)];
            marks[two[0].max(two[1])] = 1;
        }
        match step(coarse, &status, &marks) {
            Ok(new) if new.len() <= cells => status = new,
            _ => {}
        }
    }
    status
}

/// By coarse cell: blocks of them one behind the other. At random: each family anywhere.
fn owners(r: &mut Random, layout: &Layout, coarse: usize, parts: usize, random: bool) -> Vec<u8> {
    let mut owners: Vec<u8> = Vec::new();
    for (i, cell) in layout.cells.iter().enumerate() {
        let owner = match cell.parent {
            None if !random => 1 + (i * parts / coarse) as u8,
            Some(parent) if !random => owners[parent],
            Some(_) if cell.child > 0 => owners[i - 1],
            _ => 1 + r.below(parts) as u8,
        };
        owners.push(owner);
    }
    owners
}

/// All starts to all done; how many messages there were.
fn exchange(stores: &mut [u16], marks: &[Vec<u8>]) -> usize {
    let parts = marks.len();
    let mut messages = 0;
    for (p, marks) in marks.iter().enumerate() {
        assert_eq!(lent::start(&mut stores[FULL * p..FULL * (p + 1)], marks), 0);
    }
    let mut done = false;
    while !done {
        for p in 0..parts {
            let (mut bytes, mut count) = ([0; 9], 0);
            loop {
                assert_eq!(lent::fetch(&mut stores[FULL * p..FULL * (p + 1)], &mut bytes, &mut count), 0);
                if count == 0 {
                    break;
                }
                // All parts are in the same round: it is taken.
                let to = bytes[2] as usize - 1;
                assert_eq!(lent::hand_over(&mut stores[FULL * to..FULL * (to + 1)], &bytes[..count]), 0);
                messages += 1;
            }
        }
        for p in 0..parts {
            done = lent::part_step(&mut stores[FULL * p..FULL * (p + 1)]) != 0;
            if done {
                break;
            }
        }
    }
    messages
}

/// The shorter of two times, in microseconds.
fn best(old: f64, work: impl FnOnce()) -> f64 {
    let now = Instant::now();
    work();
    old.min(now.elapsed().as_secs_f64() * 1e6)
}

fn main() {
    let repeat: usize = std::env::args().nth(1).map_or(200, |n| n.parse().expect("how often"));
    let mut r = Random::new(1);
    let coarse = block([6, 3, 2]);
    let status = refined(&mut r, &coarse, 2000);
    let layout = examine_table(&coarse, &status).expect("a sound table");
    let marks = mixed_marks(&mut r, &layout, 4, 12);
    let (positions, cells) = (coarse.positions.concat(), coarse.cells.concat());
    let new = step(&coarse, &status, &marks).expect("a step");
    println!("{} coarse cells, {} cells before the step in {} levels, {} after it", coarse.cells.len(), status.len(), layout.levels, new.len());
    println!("{:>5} {:>15} {:>8} {:>9} {:>9} {:>9} {:>9} {:>7} {:>7} {:>7}", "parts", "owners", "messages", "step us", "exchange", "split", "merge", "ratio", "split", "merge");
    let mut stores = vec![0; 16 * FULL];
    for parts in [1, 2, 4, 16] {
        for random in [false, true] {
            let owners = owners(&mut r, &layout, coarse.cells.len(), parts, random);
            let by_part: Vec<Vec<u8>> = (1..=parts as u8).map(|p| marks_of(&owners, &marks, p)).collect();
            let [mut serial, mut whole, mut splitting, mut merging] = [f64::MAX; 4];
            let mut messages = 0;
            let (mut table, mut count) = (vec![0; 4096], 0);
            for _ in 0..repeat {
                serial = best(serial, || {
                    assert_eq!(lent::step(black_box(&positions), &cells, &status, &marks, &mut table, &mut count), 0);
                });
                splitting = best(splitting, || {
                    assert_eq!(lent::split(black_box(&positions), &cells, &status, parts, &owners, &mut stores), 0);
                });
                whole = best(whole, || messages = exchange(black_box(&mut stores), &by_part));
                merging = best(merging, || {
                    assert_eq!(lent::merge(black_box(&stores), &mut table, &mut count), 0);
                });
                assert!(table[..count] == new[..]);
            }
            let after = examine_table(&coarse, &new).expect("a sound table");
            assert_eq!(owners_after(&layout, &owners, &after).len(), count);
            let name = if random { "at random" } else { "by coarse cell" };
            println!(
                "{parts:>5} {name:>15} {messages:>8} {serial:>9.0} {whole:>9.0} {splitting:>9.0} {merging:>9.0} {:>7.1} {:>7.1} {:>7.1}",
                whole / serial, splitting / serial, merging / serial
            );
        }
    }
}
