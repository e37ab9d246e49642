//! The plain program against the independent one, on random meshes and tables, sound and damaged.

use independent::cutting::EDGES;
use independent::mesh::{examine_mesh, examine_table, half_sum, Coarse, Weights, LEAF, RED};
use independent::random::{coarse, coarse_up_to, damaged_table, sound_table, Random};
use independent::step::step;
use plain::families::families;
use plain::input::{read, write, Case};
use plain::layout::{Cell, Layout, Layouter, NO_PARENT};
use std::collections::HashMap;

type Answer = Result<Layout, u8>;

/// What the independent program says.
fn expected(positions: &[i32], cells: &[u16], status: &[u8]) -> Answer {
    let mesh = examine_mesh(positions, cells)?;
    let layout = examine_table(&mesh, status)?;
    let rows = layout.cells.iter().map(|c| Cell {
        corners: c.corners.map(|k| k as u16),
        parent: c.parent.map_or(NO_PARENT, |p| p as u16),
        level: c.level,
        child: c.child,
        regular: c.regular,
    });
    let sums = layout.corners.iter().map(|w| weighted(&mesh, w));
    Ok(Layout { cells: rows.collect(), ends: ends(&mesh, &layout), sums: sums.collect() })
}

fn weighted(mesh: &Coarse, weights: &Weights) -> [i32; 3] {
    [0, 1, 2].map(|axis| {
        let term = |&(c, w): &(u16, u16)| w as i64 * mesh.positions[c as usize][axis] as i64;
        weights.iter().map(term).sum::<i64>() as i32
    })
}

/// The ends of each corner: of the first split edge, in cell and edge order, that the corner is in the middle of by weights.
fn ends(mesh: &Coarse, layout: &independent::mesh::Layout) -> Vec<[u16; 2]> {
    let numbers: HashMap<&Weights, usize> = layout.corners.iter().zip(0..).collect();
    let mut ends: Vec<[u16; 2]> = (0..mesh.positions.len() as u16).map(|i| [i, i]).collect();
    for cell in layout.cells.iter().filter(|c| c.status != LEAF) {
        let split = if cell.status == RED { 63 } else { cell.status };
        for (_, (a, b)) in EDGES.into_iter().enumerate().filter(|(e, _)| split >> e & 1 == 1) {
            let (a, b) = (cell.corners[a], cell.corners[b]);
            let middle = half_sum(&layout.corners[a], &layout.corners[b]).unwrap();
            let pair = [a.min(b) as u16, a.max(b) as u16];
            let number = numbers[&middle];
            if number == ends.len() {
                ends.push(pair);
            }
            assert_eq!(ends[number], pair);
        }
    }
    assert_eq!(ends.len(), layout.corners.len());
    ends
}

/// Compares, and gives the number of the answer: 0 where it is accepted. A refusal must leave the output as it is.
fn compare(layouter: &mut Layouter, out: &mut Layout, positions: &[i32], cells: &[u16], status: &[u8]) -> usize {
    let before = out.clone();
    let answer = layouter.lay_out(positions, cells, status, out);
    match expected(positions, cells, status) {
        Ok(layout) => {
            assert_eq!(answer, Ok(()));
            assert!(*out == layout);
            0
        }
        Err(number) => {
            assert_eq!(answer, Err(number));
            assert!(*out == before);
            number as usize
        }
    }
}

#[test]
fn families_agree() {
    let families = families();
    for pattern in 1..64 {
        assert_eq!(families[pattern].children, independent::cutting::family(pattern as u8).unwrap());
    }
    assert!(families[0].children.is_empty() && families[64].children == families[63].children);
}

#[test]
fn sound_tables_agree() {
    let mut r = Random::new(11);
    let (mut layouter, mut out) = (Layouter::new(), Layout::default());
    let (mut cells, mut largest, mut deepest) = (0, 0, 0);
    for _ in 0..1500 {
        let mesh = coarse(&mut r);
        let table = sound_table(&mut r, &mesh);
        let answer = compare(&mut layouter, &mut out, &mesh.positions.concat(), &mesh.cells.concat(), &table);
        assert_eq!(answer, 0);
        cells += table.len();
        largest = largest.max(table.len());
        deepest = deepest.max(out.cells[table.len() - 1].level);
    }
    println!("{cells} cells, at most {largest} in a table, levels to {deepest}");
    assert!(largest > 3000 && deepest >= 4);
}

/// The table with one cell of the top level red and the level closed as it should be.
fn too_deep(r: &mut Random, layout: &Layout, table: &[u8]) -> Vec<u8> {
    let edges = |i: usize| {
        let corners = layout.cells[i].corners;
        EDGES.map(|(a, b)| [corners[a].min(corners[b]), corners[a].max(corners[b])])
    };
    let top = layout.cells[table.len() - 1].level;
    let regular = |i: &usize| layout.cells[*i].level == top && layout.cells[*i].regular;
    let regular: Vec<usize> = (0..table.len()).filter(regular).collect();
    let red = *r.pick(&regular);
    let families = families();
    let mut new = table.to_vec();
    for i in regular {
        new[i] = (0..6).map(|e| (edges(red).contains(&edges(i)[e]) as u8) << e).sum();
        if i == red {
            new[i] = RED;
        }
        new.extend(vec![LEAF; families[new[i] as usize].children.len()]);
    }
    new
}

#[test]
fn deep_tables_agree() {
    // One cell or few, refined again and again at the top: up to level 10.
    let mut r = Random::new(12);
    let (mut layouter, mut out) = (Layouter::new(), Layout::default());
    let mut deep = 0;
    for _ in 0..30 {
        let mesh = coarse_up_to(&mut r, 4);
        let (positions, cells) = (mesh.positions.concat(), mesh.cells.concat());
        let mut table = vec![LEAF; mesh.cells.len()];
        for _ in 0..50 {
            assert_eq!(compare(&mut layouter, &mut out, &positions, &cells, &table), 0);
            let top = out.cells[table.len() - 1].level;
            deep += (top == 10) as usize;
            let first = out.cells.iter().position(|c| c.level == top).unwrap();
            let mut marks = vec![0; table.len()];
            marks[first + r.below(table.len() - first)] = 1;
            let old = table;
            table = step(&mesh, &old, &marks).unwrap_or(old.clone());
            if top == 10 {
                let deep = too_deep(&mut r, &out, &old);
                assert_eq!(compare(&mut layouter, &mut out, &positions, &cells, &deep), 6);
            }
        }
    }
    println!("{deep} tables with level 10");
    assert!(deep > 50);
}

#[test]
fn damaged_tables_agree() {
    let mut r = Random::new(13);
    let (mut layouter, mut out) = (Layouter::new(), Layout::default());
    let mut answers = [0; 18];
    for _ in 0..6000 {
        let mesh = coarse_up_to(&mut r, 12);
        let sound = sound_table(&mut r, &mesh);
        let table = damaged_table(&mut r, &mesh, &sound);
        let answer = compare(&mut layouter, &mut out, &mesh.positions.concat(), &mesh.cells.concat(), &table);
        answers[answer] += 1;
    }
    println!("{answers:?}");
    assert!(answers[0] > 500 && answers[6] > 2000);
}

/// The mesh's lists with a fault.
fn damage(r: &mut Random, positions: &mut Vec<i32>, cells: &mut Vec<u16>) {
    let corners = positions.len() / 3;
    let (at, cell, number) = (r.below(positions.len()), 4 * r.below(cells.len() / 4), r.below(cells.len()));
    match r.below(10) {
        0 => positions.truncate(at),
        1 => cells.truncate(number),
        2 => positions.resize(3 * *r.pick(&[3, 4, 512, 513]), 7),
        3 => cells.resize(4 * *r.pick(&[0, 256, 257]), 1),
        4 => positions[at] = *r.pick(&[500_000, 500_001, -500_000, -500_001, i32::MAX, i32::MIN]),
        5 => cells[number] = *r.pick(&[0, 511, 512, 65535, corners as u16, corners as u16 - 1]),
        6 if cells[cell..cell + 4].iter().all(|&k| (k as usize) < corners) => {
            // One corner placed on another, or in the plane of three.
            let [a, b, c, d] = [0, 1, 2, 3].map(|k| 3 * cells[cell + k] as usize);
            for k in 0..3 {
                let (p, q, s) = (positions[a + k], positions[b + k], positions[c + k]);
                positions[d + k] = *r.pick(&[p, p.wrapping_add(q).wrapping_sub(s)]);
            }
        }
        7 => cells.extend_from_within(cell..cell + 4),
        8 => {
            // The cell again with another corner, in order.
            cells.extend_from_within(cell..cell + 4);
            let end = cells.len();
            cells[end - 4 + number % 4] = r.below(corners) as u16;
            cells[end - 4..].sort();
        }
        _ => cells.swap(cell, cell + number % 4),
    }
}

#[test]
fn damaged_meshes_agree() {
    let mut r = Random::new(14);
    let (mut layouter, mut out) = (Layouter::new(), Layout::default());
    let mut answers = [0; 18];
    for _ in 0..20000 {
        let mesh = coarse_up_to(&mut r, 12);
        let (mut positions, mut cells) = (mesh.positions.concat(), mesh.cells.concat());
        damage(&mut r, &mut positions, &mut cells);
        if positions.len() >= 12 && cells.len() >= 4 && cells.len() % 4 == 0 && r.once_in(3) {
            damage(&mut r, &mut positions, &mut cells);
        }
        let table = vec![LEAF; cells.len() / 4];
        answers[compare(&mut layouter, &mut out, &positions, &cells, &table)] += 1;
    }
    println!("{answers:?}");
    assert!((0..6).all(|k| answers[k] > 500));
}

#[test]
fn input_goes_there_and_back() {
    let mut r = Random::new(15);
    let mut cases = Vec::new();
    for _ in 0..20 {
        let mesh = coarse(&mut r);
        let status = sound_table(&mut r, &mesh);
        let [cell, corner, short, repeat] = [0; 4].map(|_| r.below(65536) as u16);
        let (positions, cells) = (mesh.positions.concat(), mesh.cells.concat());
        cases.push(Case { positions, cells, status, cell, corner, short, repeat });
    }
    let bytes = write(&cases);
    assert_eq!(read(&bytes), Some(cases));
    assert_eq!(read(&bytes[..bytes.len() - 1]), None);
}
