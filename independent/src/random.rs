//! Deterministic random meshes, marks, tables and archives, sound and damaged.

use crate::archive::{put, replay, Job};
use crate::cutting::family;
use crate::mesh::{
    children, close, examine_mesh, examine_table, faces, flat, green, grow, table, Cell, Coarse,
    Layout, LEAF, MOST_CELLS, RED, TOP_LEVEL,
};
use crate::step::{step, step_without_count};
use std::collections::{HashMap, HashSet};
use std::ops::Range;

/// Splitmix.
pub struct Random(u64);

impl Random {
    pub fn new(seed: u64) -> Random {
        Random(seed)
    }

    pub fn next(&mut self) -> u64 {
        self.0 = self.0.wrapping_add(0x9e37_79b9_7f4a_7c15);
        let mut z = self.0;
        z = (z ^ (z >> 30)).wrapping_mul(0xbf58_476d_1ce4_e5b9);
        z = (z ^ (z >> 27)).wrapping_mul(0x94d0_49bb_1331_11eb);
        z ^ (z >> 31)
    }

    /// From 0 to n - 1; n is not 0.
    pub fn below(&mut self, n: usize) -> usize {
        (self.next() % n as u64) as usize
    }

    /// Both ends included.
    pub fn between(&mut self, low: i64, high: i64) -> i64 {
        low + (self.next() % (high - low + 1) as u64) as i64
    }

    /// True once in n.
    pub fn once_in(&mut self, n: usize) -> bool {
        self.below(n) == 0
    }

    pub fn pick<'a, T>(&mut self, list: &'a [T]) -> &'a T {
        &list[self.below(list.len())]
    }

    pub fn shuffle<T>(&mut self, list: &mut [T]) {
        for i in (1..list.len()).rev() {
            list.swap(i, self.below(i + 1));
        }
    }
}

// -------------------------------------------------------------------- meshes

/// A mesh under work: cells are taken only where the mesh stays acceptable.
#[derive(Default)]
struct Work {
    positions: Vec<[i32; 3]>,
    cells: Vec<[u16; 4]>,
    known: HashSet<[u16; 4]>,
    face_counts: HashMap<[u16; 3], usize>,
}

impl Work {
    /// A new corner; its reach makes flat cells more or less likely.
    fn corner(&mut self, r: &mut Random, reach: i64) -> u16 {
        self.positions.push([0; 3].map(|_| r.between(-reach, reach) as i32));
        self.positions.len() as u16 - 1
    }

    fn cell(&mut self, mut cell: [u16; 4]) -> bool {
        cell.sort();
        let refused = self.cells.len() == 256
            || (0..3).any(|k| cell[k] == cell[k + 1])
            || flat(cell.map(|k| self.positions[k as usize]))
            || self.known.contains(&cell)
            || faces(cell).iter().any(|f| self.face_counts.get(f) == Some(&2));
        if refused {
            return false;
        }
        self.cells.push(cell);
        self.known.insert(cell);
        for face in faces(cell) {
            *self.face_counts.entry(face).or_insert(0) += 1;
        }
        true
    }
}

/// A mesh that `examine_mesh` accepts, of 1 to 256 cells.
pub fn coarse(r: &mut Random) -> Coarse {
    let most = *r.pick(&[1, 2, 3, 5, 8, 16, 40, 100, 256]);
    coarse_up_to(r, most)
}

/// A mesh that `examine_mesh` accepts, of 1 to `most` cells.
pub fn coarse_up_to(r: &mut Random, most: usize) -> Coarse {
    loop {
        let wanted = 1 + r.below(most);
        let reach = *r.pick(&[3, 16, 1000, 500_000]);
        let mut work = Work::default();
        match r.below(6) {
            0 => grown(r, &mut work, wanted, reach),
            1 => fans(r, &mut work, wanted, reach),
            2 => subsets(r, &mut work, wanted, reach),
            3 => cubes(r, &mut work, wanted),
            4 => closed(r, &mut work, wanted, reach),
            _ => loose(r, &mut work, wanted, reach),
        }
        // Corners in no cell.
        let more = *r.pick(&[0, 0, 0, 1, 2, 3, 4, 512]);
        for _ in 0..more.min(512 - work.positions.len()) {
            work.corner(r, reach);
        }
        let (positions, cells) = renumbered(r, &work);
        if let Ok(coarse) = examine_mesh(&positions, &cells) {
            return coarse;
        }
    }
}

/// Corners numbered and cells put in order at random; as flat lists.
fn renumbered(r: &mut Random, work: &Work) -> (Vec<i32>, Vec<u16>) {
    let mut new: Vec<u16> = (0..work.positions.len() as u16).collect();
    r.shuffle(&mut new);
    let mut positions = vec![[0; 3]; new.len()];
    for (old, &new) in new.iter().enumerate() {
        positions[new as usize] = work.positions[old];
    }
    let mut cells = work.cells.clone();
    for cell in &mut cells {
        *cell = cell.map(|k| new[k as usize]);
        cell.sort();
    }
    r.shuffle(&mut cells);
    (positions.concat(), cells.concat())
}

/// Each further cell on a face of one before, with an old or a new corner.
fn grown(r: &mut Random, work: &mut Work, wanted: usize, reach: i64) {
    for _ in 0..4 {
        work.corner(r, reach);
    }
    work.cell([0, 1, 2, 3]);
    for _ in 0..4 * wanted {
        if work.cells.len() >= wanted || work.cells.is_empty() {
            break;
        }
        let cell = *r.pick(&work.cells);
        let face = *r.pick(&faces(cell));
        let top = if work.positions.len() == 512 || r.once_in(2) {
            r.below(work.positions.len()) as u16
        } else {
            work.corner(r, reach)
        };
        work.cell([face[0], face[1], face[2], top]);
    }
}

/// Cells round edges, the ring closed or open; rings may share corners.
fn fans(r: &mut Random, work: &mut Work, wanted: usize, reach: i64) {
    for _ in 0..wanted {
        if work.cells.len() >= wanted || work.positions.len() > 500 {
            break;
        }
        let size = 1 + r.below(10.min(wanted));
        let mut some = |r: &mut Random| {
            if work.positions.len() > 500 || (work.positions.len() > 4 && r.once_in(3)) {
                r.below(work.positions.len()) as u16
            } else {
                work.corner(r, reach)
            }
        };
        let (a, b) = (some(r), some(r));
        let mut ring: Vec<u16> = (0..=size).map(|_| some(r)).collect();
        if size >= 3 && r.once_in(2) {
            ring[size] = ring[0];
        }
        for pair in ring.windows(2) {
            if work.cells.len() < wanted {
                work.cell([a, b, pair[0], pair[1]]);
            }
        }
    }
}

/// Any four of few corners: many shared edges, corners and faces.
fn subsets(r: &mut Random, work: &mut Work, wanted: usize, reach: i64) {
    let corners = 4 + r.below(wanted + 4);
    for _ in 0..corners {
        work.corner(r, reach);
    }
    for _ in 0..4 * wanted {
        if work.cells.len() < wanted {
            work.cell([0; 4].map(|_| r.below(corners) as u16));
        }
    }
}

/// A block of cubes, each cut into six cells round its long diagonal.
fn cubes(r: &mut Random, work: &mut Work, wanted: usize) {
    let mut size = [1usize, 1, 1];
    loop {
        let axis = r.below(3);
        size[axis] += 1;
        if size.iter().product::<usize>() * 6 > wanted.max(6) {
            size[axis] -= 1;
            break;
        }
    }
    let scale = r.between(1, 10_000) as i32;
    let number = |p: [usize; 3]| (p[0] * (size[1] + 1) + p[1]) * (size[2] + 1) + p[2];
    for x in 0..=size[0] {
        for y in 0..=size[1] {
            for z in 0..=size[2] {
                work.positions.push([x, y, z].map(|c| c as i32 * scale));
            }
        }
    }
    for x in 0..size[0] {
        for y in 0..size[1] {
            for z in 0..size[2] {
                for axes in [[0, 1, 2], [0, 2, 1], [1, 0, 2], [1, 2, 0], [2, 0, 1], [2, 1, 0]] {
                    let mut at = [x, y, z];
                    let mut cell = [number(at) as u16; 4];
                    for k in 0..3 {
                        at[axes[k]] += 1;
                        cell[k + 1] = number(at) as u16;
                    }
                    if work.cells.len() < wanted && !r.once_in(12) {
                        work.cell(cell);
                    }
                }
            }
        }
    }
}

/// Meshes without a coarse boundary: all fours of five corners, or the sixteen
/// cells that take one corner of each of four pairs. Cells may be left out.
fn closed(r: &mut Random, work: &mut Work, wanted: usize, reach: i64) {
    let all = r.once_in(2);
    while work.cells.len() < wanted && work.positions.len() < 500 {
        let first = work.positions.len() as u16;
        for _ in 0..8 {
            work.corner(r, reach);
        }
        if r.once_in(2) {
            for left_out in 0..5 {
                let left: Vec<u16> = (0..5).filter(|&k| k != left_out).map(|k| first + k).collect();
                if all || !r.once_in(8) {
                    work.cell([left[0], left[1], left[2], left[3]]);
                }
            }
        } else {
            for choice in 0..16 {
                if all || !r.once_in(8) {
                    work.cell([0, 1, 2, 3].map(|k| first + 2 * k + (choice >> k & 1)));
                }
            }
        }
        if all {
            break;
        }
    }
}

/// Cells that share few corners, edges or nothing.
fn loose(r: &mut Random, work: &mut Work, wanted: usize, reach: i64) {
    for _ in 0..2 * wanted {
        if work.cells.len() >= wanted || work.positions.len() > 508 {
            break;
        }
        let shared = r.below(4);
        let mut cell = [0; 4];
        for k in 0..4 {
            cell[k] = if k < shared && work.positions.len() > 4 {
                r.below(work.positions.len()) as u16
            } else {
                work.corner(r, reach)
            };
        }
        work.cell(cell);
    }
}

/// A mesh's flat lists with one or two faults, mostly refused.
pub fn damaged_mesh(r: &mut Random, coarse: &Coarse) -> (Vec<i32>, Vec<u16>) {
    let mut positions = coarse.positions.concat();
    let mut cells = coarse.cells.concat();
    for _ in 0..1 + r.below(2) {
        if positions.len() < 3 || cells.len() < 4 {
            break;
        }
        let cell = 4 * r.below(cells.len() / 4);
        let number = r.below(cells.len());
        match r.below(12) {
            0 => positions.truncate(r.below(positions.len())),
            1 => cells.truncate(r.below(cells.len())),
            2 => {
                let at = r.below(positions.len());
                positions[at] = *r.pick(&[500_000, 500_001, -500_000, -500_001, i32::MAX, i32::MIN]);
            }
            3 => cells[number] = r.below(600) as u16,
            4 => cells[number] = (positions.len() / 3) as u16,
            5 => {
                let other = (4 * (number / 4) + r.below(4)).min(cells.len() - 1);
                cells.swap(number, other);
            }
            6 => {
                // A flat cell: one corner placed on another.
                let (from, to) = (cells[cell] as usize * 3, cells[cell + 1] as usize * 3);
                if from.max(to) + 3 <= positions.len() {
                    positions.copy_within(from..from + 3, to);
                }
            }
            7 => cells.extend_from_within(cell..cell + 4),
            8 => {
                // A further cell on a face.
                let mut new = cells[cell..cell + 4].to_vec();
                new[r.below(4)] = r.below(positions.len() / 3) as u16;
                new.sort();
                cells.extend(new);
            }
            9 => positions.resize(3 * *r.pick(&[3, 512, 513]), 7),
            10 => cells.resize(4 * *r.pick(&[0, 256, 257]), 1),
            _ => cells.push(0),
        }
    }
    (positions, cells)
}

// --------------------------------------------------------------------- marks

/// Marks that fit the layout, in one of several styles.
pub fn marks(r: &mut Random, layout: &Layout) -> Vec<u8> {
    let n = layout.cells.len();
    let leaves: Vec<usize> = (0..n).filter(|&i| layout.cells[i].status == LEAF).collect();
    let children = children(layout);
    // Families that could go, and children of green cells.
    let families: Vec<&Vec<usize>> = (0..n)
        .filter(|&i| layout.cells[i].status == RED)
        .map(|i| &children[i])
        .filter(|f| f.iter().all(|&k| layout.cells[k].status == LEAF))
        .collect();
    let green_children: Vec<usize> =
        (0..n).filter(|&i| green(&layout.cells[i])).flat_map(|i| children[i].clone()).collect();
    let top: Vec<usize> = leaves
        .iter()
        .copied()
        .filter(|&i| layout.cells[i].level as usize + 1 == layout.levels)
        .collect();

    let mut marks = vec![0; n];
    let style = r.below(12);
    // Families marked 2, whole or but for one child.
    if matches!(style, 3..=6) {
        let skip = 1 + r.below(4);
        for family in families {
            if !r.once_in(skip + 1) || skip == 1 {
                for &k in family {
                    marks[k] = 2;
                }
                if style == 5 && r.once_in(2) {
                    marks[*r.pick(family)] = r.below(2) as u8;
                }
            }
        }
    }
    match style {
        0 | 1 | 4 | 5 => {
            for _ in 0..1 + r.below(4) {
                marks[*r.pick(&leaves)] = 1;
            }
        }
        2 | 6 if !green_children.is_empty() => {
            for _ in 0..1 + r.below(3) {
                marks[*r.pick(&green_children)] = 1 + r.below(2) as u8;
            }
        }
        7 => {
            let rarely = *r.pick(&[2, 5, 20]);
            for &i in &leaves {
                marks[i] = if r.once_in(rarely) { 1 } else { 2 };
            }
        }
        8 => {
            for &i in &leaves {
                marks[i] = r.below(3) as u8;
            }
        }
        9 if n < 300 => {
            for &i in &leaves {
                marks[i] = 1;
            }
        }
        10 | 11 if !top.is_empty() => {
            marks[*r.pick(&top)] = 1;
        }
        _ => {}
    }
    marks
}

/// Marks that fit the layout: one in so many of the families that are all leaves deleted, then so many leaves refined.
pub fn mixed_marks(r: &mut Random, layout: &Layout, rarely: usize, refined: usize) -> Vec<u8> {
    let leaf = |k: usize| layout.cells[k].status == LEAF;
    let mut marks = vec![0; layout.cells.len()];
    for (i, family) in children(layout).iter().enumerate() {
        if layout.cells[i].status == RED && family.iter().all(|&k| leaf(k)) && r.once_in(rarely) {
            for &k in family {
                marks[k] = 2;
            }
        }
    }
    let leaves: Vec<usize> = (0..marks.len()).filter(|&i| leaf(i)).collect();
    for _ in 0..refined {
        marks[*r.pick(&leaves)] = 1;
    }
    marks
}

/// Marks with one fault; all are refused with 7 but where a leaf is hit.
pub fn damaged_marks(r: &mut Random, layout: &Layout) -> Vec<u8> {
    let mut marks = marks(r, layout);
    let at = r.below(marks.len());
    match r.below(4) {
        0 => marks[at] = 3 + r.below(253) as u8,
        1 => marks.push(0),
        2 => marks.truncate(at),
        _ => marks[at] = 1 + r.below(2) as u8,
    }
    marks
}

// -------------------------------------------------------------------- tables

/// A sound table: some random steps from the coarse cells alone.
pub fn sound_table(r: &mut Random, coarse: &Coarse) -> Vec<u8> {
    let mut table = vec![LEAF; coarse.cells.len()];
    for _ in 0..r.below(8) {
        let layout = examine_table(coarse, &table).expect("a step gives a sound table");
        if let Ok(new) = step(coarse, &table, &marks(r, &layout)) {
            table = new;
        }
    }
    table
}

/// A table made from a sound one, mostly refused; some fail by one condition
/// of soundness alone, some by length or limits alone.
pub fn damaged_table(r: &mut Random, coarse: &Coarse, sound: &[u8]) -> Vec<u8> {
    let layout = examine_table(coarse, sound).expect("a sound table");
    let mut status = sound.to_vec();
    let at = r.below(status.len());
    match r.below(11) {
        0 => status[at] = r.below(70) as u8,
        1 => status[at] = 65 + r.below(191) as u8,
        2 => {
            let other = r.below(status.len());
            status.swap(at, other);
        }
        3 => status.truncate(at),
        4 => status.extend(vec![0; 1 + r.below(9)]),
        5 => {
            // Another status with as many children.
            let refined: Vec<usize> = (0..status.len()).filter(|&i| status[i] != LEAF).collect();
            if !refined.is_empty() {
                let at = *r.pick(&refined);
                let size = |s: u8| family(if s == RED { 63 } else { s }).unwrap().len();
                let like: Vec<u8> =
                    (1..=RED).filter(|&s| size(s) == size(status[at]) && s != status[at]).collect();
                if !like.is_empty() {
                    status[at] = *r.pick(&like);
                }
            }
        }
        6 => {
            // A cell of the top level refined; its children stand last.
            let first = layout.cells.iter().position(|c| c.level as usize + 1 == layout.levels);
            let at = first.unwrap() + r.below(status.len() - first.unwrap());
            let new = 1 + r.below(64) as u8;
            status[at] = new;
            status.extend(vec![0; family(if new == RED { 63 } else { new }).unwrap().len()]);
        }
        7 => return with_status(r, coarse, &layout, at),
        8 => {
            // Red cells at random, patterns right: the third condition alone.
            let rarely = 2 + r.below(8);
            return any_table(r, coarse, |r, cells, level| {
                let red: HashSet<usize> =
                    level.clone().filter(|&i| cells[i].regular && r.once_in(rarely)).collect();
                close(cells, level, |i| red.contains(&i))
            });
        }
        9 => {
            // Any statuses at all.
            return any_table(r, coarse, |r, cells, level| {
                level
                    .map(|i| match r.below(6) {
                        0 if cells[i].regular || r.once_in(20) => RED,
                        1 if cells[i].regular || r.once_in(20) => r.below(64) as u8,
                        _ => LEAF,
                    })
                    .collect()
            });
        }
        _ => {
            // What a step gives, though it be of too many cells.
            let marks = layout.cells.iter().map(|c| (c.status == LEAF && !r.once_in(9)) as u8);
            if let Ok(new) = step_without_count(coarse, &layout, &marks.collect::<Vec<u8>>()) {
                return table(&new);
            }
        }
    }
    status
}

/// The sound table with another status at one cell, and leaves for its new
/// children: length and all other statuses fit.
fn with_status(r: &mut Random, coarse: &Coarse, old: &Layout, at: usize) -> Vec<u8> {
    let any = 1 + r.below(63) as u8;
    let new_status = *r.pick(&[LEAF, RED, RED, 63, any]);
    if old.cells[at].level == TOP_LEVEL {
        return table(old);
    }
    let old_children = children(old);
    let mut same: Vec<Option<usize>> = Vec::new();
    let new = grow(coarse, |cells, level| {
        for i in level.clone() {
            same.push(match cells[i].parent {
                None => Some(i),
                Some(parent) => match same[parent] {
                    Some(o) if o != at => Some(old_children[o][cells[i].child as usize]),
                    _ => None,
                },
            });
        }
        Ok(level
            .map(|i| match same[i] {
                Some(o) if o == at => new_status,
                Some(o) => old.cells[o].status,
                None => LEAF,
            })
            .collect())
    });
    table(&new.expect("no refusal was chosen"))
}

/// A table of right length with the statuses that are given for each level;
/// leaves from some level on.
fn any_table(
    r: &mut Random,
    coarse: &Coarse,
    mut statuses: impl FnMut(&mut Random, &[Cell], Range<usize>) -> Vec<u8>,
) -> Vec<u8> {
    let depth = 1 + r.below(3) as u8;
    let layout = grow(coarse, |cells, level| {
        let level_number = cells[level.start].level;
        if level_number >= depth || cells.len() > MOST_CELLS {
            return Ok(vec![LEAF; level.len()]);
        }
        Ok(statuses(r, cells, level))
    });
    table(&layout.expect("no refusal was chosen"))
}

// ------------------------------------------------------------------ archives

/// A job that `write` accepts (its bytes are far fewer than the limit).
pub fn job(r: &mut Random) -> Job {
    let most = *r.pick(&[1, 2, 3, 5, 8, 16, 40]);
    let coarse = coarse_up_to(r, most);
    let mut job = Job {
        positions: coarse.positions.concat(),
        cells: coarse.cells.concat(),
        steps: Vec::new(),
    };
    let mut table = vec![LEAF; coarse.cells.len()];
    let mut bytes = 0;
    for _ in 0..r.below(8) {
        let layout = examine_table(&coarse, &table).expect("a step gives a sound table");
        let marks = marks(r, &layout);
        let marked = marked(&marks);
        bytes += 4 * marked.len() + 1;
        if bytes > 40_000 {
            break;
        }
        if let Ok(new) = step(&coarse, &table, &marks) {
            table = new;
            job.steps.push(marked);
        }
    }
    job
}

/// The job with further steps, the last refused with 8 or 9; then perhaps one more.
pub fn too_far(r: &mut Random, job: &Job) -> Job {
    let mut job = job.clone();
    let (coarse, mut table) = replay(&put(&job)).expect("a sound job");
    let all = r.once_in(2);
    loop {
        let layout = examine_table(&coarse, &table).expect("a step gives a sound table");
        let leaves: Vec<usize> = (0..table.len()).filter(|&i| table[i] == LEAF).collect();
        let mut marks = vec![0; table.len()];
        if all {
            // Half of the leaves, so that they become too many.
            for &i in leaves.iter().filter(|_| r.once_in(2)) {
                marks[i] = 1;
            }
        } else {
            // One of the first cells of the top level.
            let top = |c: &Cell| c.status == LEAF && c.level as usize + 1 == layout.levels;
            marks[layout.cells.iter().position(top).expect("the top level is of leaves")] = 1;
        }
        job.steps.push(marked(&marks));
        match step(&coarse, &table, &marks) {
            Ok(new) => table = new,
            Err(_) => break,
        }
    }
    if r.once_in(2) {
        job.steps.push(vec![(0, 1)]);
    }
    job
}

/// The marked cells of a step and their marks.
pub fn marked(marks: &[u8]) -> Vec<(u16, u8)> {
    (0..).zip(marks).filter(|(_, &m)| m != 0).map(|(i, &m)| (i, m)).collect()
}

/// A job with a fault in its mesh or in one of its steps, or one that goes too
/// far, mostly refused. The job given must be a sound one.
pub fn damaged_job(r: &mut Random, job: &Job) -> Job {
    let mut job = job.clone();
    if r.once_in(4) {
        return too_far(r, &job);
    }
    if job.steps.is_empty() || r.once_in(4) {
        if let Ok(coarse) = examine_mesh(&job.positions, &job.cells) {
            (job.positions, job.cells) = damaged_mesh(r, &coarse);
        }
        return job;
    }
    let at = r.below(job.steps.len());
    let marked = &mut job.steps[at];
    match r.below(6) {
        0 => marked.push((r.below(4200) as u16, 1)),
        1 => {
            // A cell anywhere, mostly in the right place.
            marked.push((r.below(100) as u16, 1 + r.below(2) as u8));
            marked.sort();
        }
        2 => marked.reverse(),
        3 => marked.insert(0, (0, r.below(4) as u8)),
        4 if !marked.is_empty() => {
            let k = r.below(marked.len());
            marked[k].1 = r.below(256) as u8;
        }
        _ => {
            let other = r.below(job.steps.len());
            job.steps.swap(at, other);
        }
    }
    job
}

/// An archive's bytes as its records.
fn records(job: &Job) -> Vec<Vec<u8>> {
    let bytes = put(job);
    let mut records = Vec::new();
    let mut rest = &bytes[..];
    while !rest.is_empty() {
        let length = match rest[0] {
            b'V' => 13,
            b'T' => 9,
            b'M' => 4,
            _ => 1,
        };
        records.push(rest[..length].to_vec());
        rest = &rest[length..];
    }
    records
}

/// The bytes of a job's archive with one fault, mostly refused.
pub fn damaged_archive(r: &mut Random, job: &Job) -> Vec<u8> {
    let mut records = records(job);
    let end = records.len() - 1;
    let at = r.below(records.len());
    let other = r.below(records.len());
    let any_mark = vec![b'M', r.below(40) as u8, 0, 1 + r.below(2) as u8];
    match r.below(16) {
        0 => {
            let mut bytes = records.concat();
            for _ in 0..1 + r.below(3) {
                let k = r.below(bytes.len());
                bytes[k] ^= 1 << r.below(8);
            }
            return bytes;
        }
        1 => {
            let mut bytes = records.concat();
            bytes.truncate(r.below(bytes.len()));
            return bytes;
        }
        2 => records.push(vec![*r.pick(b"VTMGE\0")]),
        3 => records.insert(end, any_mark),
        4 => records.insert(at, any_mark),
        5 => records.swap(at, other),
        6 => {
            let record = records[at].clone();
            records.insert(at, record);
        }
        7 => {
            let record = records.remove(at);
            records.insert(other.min(records.len()), record);
        }
        8 => {
            records.remove(at);
        }
        9 => records[at][0] = *r.pick(b"VTMGEvtmge\0"),
        10 | 11 => {
            // Two marks before one G: descending, equal or ascending.
            let marks: Vec<usize> = (0..end)
                .filter(|&k| records[k][0] == b'M' && records[k + 1][0] == b'M')
                .collect();
            if !marks.is_empty() {
                let k = *r.pick(&marks);
                match r.below(2) {
                    0 => records.swap(k, k + 1),
                    _ => records[k + 1] = records[k].clone(),
                }
            }
        }
        12 => {
            let marks: Vec<usize> = (0..end).filter(|&k| records[k][0] == b'M').collect();
            if !marks.is_empty() {
                let k = *r.pick(&marks);
                match r.below(2) {
                    0 => records[k][3] = *r.pick(&[0, 1, 2, 3, 255]),
                    _ => records[k][2] = *r.pick(&[0, 1, 16, 255]),
                }
            }
        }
        13 => records.insert(at, vec![b'G']),
        14 => {
            let record = records[other].clone();
            records.insert(at, record);
        }
        _ => {
            // To the limit in bytes or beyond. The form's limit alone, so only
            // where the steps that do nothing cost little.
            if job.cells.len() == 4 && job.steps.is_empty() {
                let bytes: usize = records.iter().map(Vec::len).sum();
                let more = 65_535 - bytes + r.below(4);
                records.insert(end, vec![b'G'; more]);
            }
        }
    }
    records.concat()
}
