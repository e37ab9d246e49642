//! What the case writers of the test programs share: patterns and checksums of tables, the lines that a program must print,
//! what a layout's tables hold, ways for a table to be not sound, and meshes for the limits.

use crate::mesh::*;
use crate::random::Random;
use crate::Refusal;
use std::collections::HashMap;

const TABLE: usize = 8 * MOST_CELLS;
const ENDS: usize = 2 * MOST_CORNERS;
const SUMS: usize = 3 * MOST_CORNERS;

/// The most numbers of each list that the programs take: coordinates, corner numbers, and statuses or marks.
pub const MOST: [usize; 3] = [2000, 2000, 5000];

// ------------------------------------------------- patterns and checksums

fn turn(sum: u64, x: u64) -> u64 {
    (sum * 48_271 + x) % 2_147_483_647
}

/// What the tables hold before a call.
fn pattern(length: usize) -> impl Iterator<Item = u64> {
    std::iter::successors(Some(1), |&x| Some(turn(x, 1))).take(length)
}

pub fn bytes(length: usize) -> Vec<u8> {
    pattern(length).map(|x| x as u8).collect()
}

pub fn words(length: usize) -> Vec<u16> {
    pattern(length).map(|x| x as u16).collect()
}

pub fn signed(length: usize) -> Vec<i32> {
    pattern(length).map(|x| x as i32).collect()
}

fn checksum(numbers: impl IntoIterator<Item = u64>) -> u64 {
    numbers.into_iter().fold(1, turn)
}

pub fn checksum_bytes(list: &[u8]) -> u64 {
    checksum(list.iter().map(|&x| x as u64))
}

pub fn checksum_words(list: &[u16]) -> u64 {
    checksum(list.iter().map(|&x| x as u64))
}

pub fn checksum_signed(list: &[i32]) -> u64 {
    checksum(list.iter().map(|&x| (x as i64 + (1 << 31)) as u64))
}

/// The list with its first places overwritten.
pub fn over<T: Copy>(mut list: Vec<T>, first: &[T]) -> Vec<T> {
    list[..first.len()].copy_from_slice(first);
    list
}

// ------------------------------------------------------------ expected lines

/// A line under work.
#[derive(Default)]
pub struct Line {
    pub fields: Vec<String>,
    pub refusals: Vec<Refusal>,
}

impl Line {
    /// An answer's refusal, 0 for none, and some numbers.
    pub fn answer<T>(&mut self, answer: &Result<T, Refusal>, numbers: &[usize]) {
        let refusal = answer.as_ref().err().copied().unwrap_or(0);
        self.refusals.push(refusal);
        self.fields.push(refusal.to_string());
        self.fields.extend(numbers.iter().map(usize::to_string));
    }

    pub fn number(&mut self, n: u64) {
        self.fields.push(n.to_string());
    }

    /// A layout's answer with cells, corners, levels, and checksums of the three tables. The last of them.
    pub fn laid(&mut self, mesh: &Result<Coarse, Refusal>, laid: &Result<Layout, Refusal>) -> Vec<i32> {
        let (mut rows, mut ends, mut sums) = (words(TABLE), words(ENDS), signed(SUMS));
        let mut sizes = [0; 3];
        if let (Ok(coarse), Ok(layout)) = (mesh, laid) {
            rows = over(rows, &table_rows(layout));
            ends = over(ends, &end_rows(coarse, layout));
            sums = over(sums, &sum_rows(coarse, layout));
            sizes = [layout.cells.len(), layout.corners.len(), layout.levels];
        }
        self.answer(laid, &sizes);
        self.number(checksum_words(&rows));
        self.number(checksum_words(&ends));
        self.number(checksum_signed(&sums));
        sums
    }
}

pub fn table_rows(layout: &Layout) -> Vec<u16> {
    layout
        .cells
        .iter()
        .flat_map(|c| {
            let parent = c.parent.map_or(65_535, |p| p as u16);
            let [a, b, d, e] = c.corners.map(|k| k as u16);
            [c.level as u16, parent, c.child as u16, c.regular as u16, a, b, d, e]
        })
        .collect()
}

/// The two ends of each corner, lower first; a coarse corner's are itself.
pub fn end_rows(coarse: &Coarse, layout: &Layout) -> Vec<u16> {
    let numbers: HashMap<&Weights, usize> = layout.corners.iter().zip(0..).collect();
    let mut ends: Vec<Option<Edge>> = vec![None; layout.corners.len()];
    for (k, end) in ends.iter_mut().enumerate().take(coarse.positions.len()) {
        *end = Some((k, k));
    }
    for cell in layout.cells.iter().filter(|c| c.status != LEAF) {
        let split = if cell.status == RED { 63 } else { cell.status };
        for (e, edge) in edges(cell).into_iter().enumerate() {
            if split >> e & 1 == 1 {
                let middle = half_sum(&layout.corners[edge.0], &layout.corners[edge.1]).expect("whole");
                let end = ends[numbers[&middle]].get_or_insert(edge);
                assert_eq!(*end, edge, "a corner in the middle of two edges");
            }
        }
    }
    let ends = ends.into_iter().map(|e| e.expect("the middle of an edge"));
    ends.flat_map(|(a, b)| [a as u16, b as u16]).collect()
}

pub fn sum_rows(coarse: &Coarse, layout: &Layout) -> Vec<i32> {
    let sum = |weights: &Weights, axis: usize| -> i64 {
        weights.iter().map(|&(c, w)| w as i64 * coarse.positions[c as usize][axis] as i64).sum()
    };
    layout.corners.iter().flat_map(|w| [0, 1, 2].map(|axis| sum(w, axis) as i32)).collect()
}

// ------------------------------------------------------------ ways to be not sound

/// By which rule a table is not sound, if it is not.
pub fn fault(coarse: &Coarse, status: &[u8]) -> Option<&'static str> {
    const NAMES: [&str; 4] = ["level 11", "not regular", "too short", "too long"];
    if status.iter().any(|&s| s > RED) {
        return Some("above 64");
    }
    if status.len() > MOST_CELLS {
        return Some("too many cells");
    }
    let grown = grow(coarse, |cells, level| {
        let statuses = status.get(level.clone()).ok_or(2)?.to_vec();
        for (i, &s) in level.zip(&statuses) {
            if s != LEAF && (cells[i].level == TOP_LEVEL || !cells[i].regular) {
                return Err(if cells[i].regular { 0 } else { 1 });
            }
        }
        Ok(statuses)
    });
    let layout = match grown {
        Err(k) => return Some(NAMES[k as usize]),
        Ok(layout) if layout.cells.len() < status.len() => return Some(NAMES[3]),
        Ok(layout) => layout,
    };
    let patterns = (0..layout.levels).all(|level| {
        let here: Vec<usize> = (0..status.len()).filter(|&i| layout.cells[i].level as usize == level).collect();
        let range = here[0]..here[here.len() - 1] + 1;
        close(&layout.cells, range.clone(), |i| status[i] == RED) == status[range]
    });
    match (patterns, sound(&layout)) {
        (_, true) => None,
        (true, false) => Some("third condition"),
        (false, false) => Some("pattern"),
    }
}

// ------------------------------------------------------------------ meshes

/// The mesh A of document 01.
pub const A: [i32; 12] = [0, 0, 0, 16, 0, 0, 0, 16, 0, 0, 0, 16];

/// So many marks, with 1 at these.
pub fn marks_at(length: usize, ones: impl IntoIterator<Item = usize>) -> Vec<u8> {
    let mut marks = vec![0; length];
    for i in ones {
        marks[i] = 1;
    }
    marks
}

/// So many corners at random.
pub fn corners(count: usize) -> Vec<i32> {
    let mut r = Random::new(7);
    (0..3 * count).map(|_| r.between(-500_000, 500_000) as i32).collect()
}

/// So many cells that share no edge: differences of 0, 1, 4, 6 are all different.
pub fn apart(count: usize) -> Vec<u16> {
    (0..count as u16).flat_map(|k| [k, k + 1, k + 4, k + 6]).collect()
}
