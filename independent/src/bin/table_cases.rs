//! Writes the cases of the program try_tables and the lines that it must print.
//!
//!     table_cases INPUT LINES [REPEAT [SEED]]
//!
//! A case is a header of seven u16 numbers, least byte first: how many coordinates (i32), corner numbers (u16) and
//! statuses (bytes) follow it, a cell and a corner to ask for, which lent table is short by one (1 cells, 2 ends,
//! 3 sums, 4 counts, 0 none), and how often the layout is made. The number 65,535 ends the input.
//!
//! A line has, each refusal's number being 0 where the call is accepted and zeros standing for what a refusal does
//! not give: the mesh's refusal; the table's; the layout's, with cells, corners, levels; checksums of the three
//! tables; the position's refusal, with three f64 as 16 hexadecimal digits; the ancestor's, with coarse cell and level;
//! the counts', with levels; a checksum of the counts.

use independent::mesh::*;
use independent::random::*;
use independent::step::{step, step_without_count};
use independent::trial::*;
use independent::Refusal;
use std::collections::BTreeMap;

const COUNTS: usize = 4 * (TOP_LEVEL as usize + 1);

#[derive(Clone)]
struct Case {
    positions: Vec<i32>,
    cells: Vec<u16>,
    status: Vec<u8>,
    cell: u16,
    corner: u16,
    short: u16,
}

// ------------------------------------------------------------ expected lines

fn count_rows(layout: &Layout) -> Vec<u16> {
    counts(layout).concat().into_iter().map(|n| n as u16).collect()
}

fn line(case: &Case) -> Line {
    let mut line = Line::default();
    let mesh = examine_mesh(&case.positions, &case.cells);
    let table = mesh.as_ref().map_err(|&n| n).and_then(|coarse| examine_table(coarse, &case.status));
    line.answer(&mesh, &[]);
    line.answer(&table, &[]);

    let laid = if (1..=3).contains(&case.short) { Err(15) } else { table.clone() };
    let sums = line.laid(&mesh, &laid);

    // Where nothing was laid out, the position is asked of the pattern, as if there were 65,535 corners.
    let corner = case.corner as usize;
    let corners = laid.as_ref().map_or(65_535, |layout| layout.corners.len());
    let at = match (&mesh, &laid) {
        _ if case.short == 3 => Err(15),
        _ if corner >= corners || corner >= MOST_CORNERS => Err(7),
        (Ok(coarse), Ok(layout)) => Ok(position(coarse, &layout.corners[corner])),
        _ => Ok([0, 1, 2].map(|axis| sums[3 * corner + axis] as f64 / 1024.0)),
    };
    line.answer(&at, &[]);
    line.fields.extend(match at {
        Ok(point) => point.map(|x| format!("{:016x}", x.to_bits())),
        Err(_) => [0; 3].map(|zero| zero.to_string()),
    });

    let under = table.as_ref().map_err(|&n| n).and_then(|layout| match case.cell as usize {
        cell if cell < layout.cells.len() => Ok(ancestor(layout, cell)),
        _ => Err(7),
    });
    let (root, level) = under.unwrap_or((0, 0));
    line.answer(&under, &[root, level]);

    let counted = if case.short == 4 { Err(15) } else { table };
    line.answer(&counted, &[counted.as_ref().map_or(0, |layout| layout.levels)]);
    let held = counted.as_ref().map_or(vec![], count_rows);
    line.number(checksum_words(&over(words(COUNTS), &held)));
    line
}

fn case_bytes(case: &Case, repeat: u16) -> Vec<u8> {
    let lengths = [case.positions.len(), case.cells.len(), case.status.len()];
    assert!(lengths.iter().zip(MOST).all(|(&n, most)| n <= most));
    let [p, c, s] = lengths.map(|n| n as u16);
    let mut out = Vec::new();
    for n in [p, c, s, case.cell, case.corner, case.short, repeat] {
        out.extend(n.to_le_bytes());
    }
    out.extend(case.positions.iter().flat_map(|x| x.to_le_bytes()));
    out.extend(case.cells.iter().flat_map(|x| x.to_le_bytes()));
    out.extend(&case.status);
    out
}

// ------------------------------------------------------------------ the cases

struct Cases {
    r: Random,
    all: Vec<Case>,
}

impl Cases {
    /// A case with a cell and a corner at random, mostly below the counts.
    fn add(&mut self, positions: &[i32], cells: &[u16], status: &[u8]) {
        let layout = examine_mesh(positions, cells).and_then(|coarse| examine_table(&coarse, status));
        let (cells_there, corners_there) =
            layout.map_or((status.len(), MOST_CORNERS), |l| (l.cells.len(), l.corners.len()));
        let r = &mut self.r;
        let mut ask = |count: usize| match r.below(12) {
            0 => count,
            1 => count.saturating_sub(1),
            2 => *r.pick(&[0, count + 1, 16_383, 16_384, 65_535]),
            _ => r.below(count.max(1)),
        } as u16;
        let (cell, corner) = (ask(cells_there), ask(corners_there));
        let (positions, cells, status) = (positions.to_vec(), cells.to_vec(), status.to_vec());
        self.all.push(Case { positions, cells, status, cell, corner, short: 0 });
    }

    fn add_coarse(&mut self, coarse: &Coarse, status: &[u8]) {
        self.add(&coarse.positions.concat(), &coarse.cells.concat(), status);
    }

    fn last(&mut self) -> &mut Case {
        self.all.last_mut().expect("a case")
    }

    fn small(&mut self) -> Coarse {
        let most = *self.r.pick(&[1, 2, 3, 5, 8, 12, 24]);
        loop {
            let coarse = coarse_up_to(&mut self.r, most);
            if coarse.positions.len() <= 60 {
                return coarse;
            }
        }
    }

    fn any(&mut self) -> Coarse {
        if self.r.once_in(12) {
            coarse(&mut self.r)
        } else {
            self.small()
        }
    }
}

/// Random meshes with sound tables.
fn sound_cases(cases: &mut Cases, count: usize) {
    for _ in 0..count {
        let coarse = cases.any();
        let status = sound_table(&mut cases.r, &coarse);
        cases.add_coarse(&coarse, &status);
    }
}

/// Random meshes with damaged tables, so many for each of these faults.
fn damaged_tables(cases: &mut Cases, count: usize) {
    let names = ["above 64", "not regular", "too short", "too long", "pattern", "third condition"];
    let mut met: BTreeMap<&str, usize> = BTreeMap::new();
    while names.iter().any(|name| met.get(name).map_or(true, |&n| n < count)) {
        let coarse = cases.any();
        let sound = sound_table(&mut cases.r, &coarse);
        let status = damaged_table(&mut cases.r, &coarse, &sound);
        let name = fault(&coarse, &status).unwrap_or("none");
        let n = met.entry(name).or_insert(0);
        if *n < count && status.len() <= MOST[2] {
            *n += 1;
            cases.add_coarse(&coarse, &status);
        }
    }
}

/// Damaged meshes, so many for each of 1 to 5.
fn damaged_meshes(cases: &mut Cases, count: usize) {
    let mut met = [0; 6];
    while met[1..].iter().any(|&n| n < count) {
        let coarse = cases.small();
        let status = sound_table(&mut cases.r, &coarse);
        let (positions, cells) = damaged_mesh(&mut cases.r, &coarse);
        let refusal = examine_mesh(&positions, &cells).err().unwrap_or(0);
        let n = &mut met[refusal as usize];
        if *n < count && status.len() < 200 {
            *n += 1;
            cases.add(&positions, &cells, &status);
        }
    }
}

/// The limits on counts, lengths, positions and corner numbers, from both sides.
fn mesh_limits(cases: &mut Cases) {
    cases.add(&corners(512), &apart(256), &[0; 256]);
    cases.add(&corners(513), &apart(256), &[0; 256]);
    cases.add(&corners(512), &apart(257), &[0; 257]);
    cases.add(&corners(4), &[0, 1, 2, 3], &[0]);
    cases.add(&corners(3), &[0, 1, 2, 3], &[0]);
    cases.add(&A[..11], &[0, 1, 2, 3], &[0]);
    cases.add(&A, &[0, 1, 2], &[0]);
    cases.add(&A, &[0, 1, 2, 3, 0], &[0]);
    cases.add(&[], &[], &[]);
    cases.add(&A, &[], &[]);
    cases.add(&[], &[0, 1, 2, 3], &[0]);
    cases.add(&A, &[0, 1, 2, 3], &[]);
    for at in [0, 7, 11] {
        for x in [500_000, 500_001, -500_000, -500_001, i32::MAX, i32::MIN] {
            let mut positions = A;
            positions[at] = x;
            cases.add(&positions, &[0, 1, 2, 3], &[64, 0, 0, 0, 0, 0, 0, 0, 0]);
        }
    }
    for cells in [
        &[0, 1, 2, 6][..],
        &[0, 1, 2, 7],
        &[0, 2, 1, 6],
        &[0, 1, 1, 6],
        &[0, 1, 2, 3, 0, 1, 2, 3],
        &[0, 1, 2, 3, 0, 1, 2, 4],
        &[0, 1, 2, 3, 0, 1, 2, 4, 0, 1, 2, 5],
        &[0, 1, 2, 3, 0, 1, 3, 4, 0, 1, 4, 5, 0, 1, 2, 5],
        &[0, 1, 2, 3, 1, 2, 3, 65_535],
    ] {
        cases.add(&corners(7), cells, &vec![0; cells.len() / 4]);
    }
    // The largest cells, flat by a hair's breadth or just not.
    let h = 500_000;
    for (x, z) in [(0, 3), (1, 3), (1, h), (-1, 0)] {
        cases.add(&[-h, -h, -h, h, h, h, x, 0, 0, h, -h, z], &[0, 1, 2, 3], &[0]);
    }
    cases.add(&[-h, -h, -h, h, h, -h, h, -h, h, -h, h, h], &[0, 1, 2, 3], &[64, 0, 0, 0, 0, 0, 0, 0, 0]);
}

/// 4,096 and 4,097 cells, and lists beyond.
fn cell_limits(cases: &mut Cases) {
    // 256 cells apart, each red: 2,304 cells. Each first child red adds 16.
    let coarse = examine_mesh(&corners(512), &apart(256)).unwrap();
    let table = step(&coarse, &[0; 256], &[1; 256]).unwrap();
    let full = step(&coarse, &table, &marks_at(2304, (0..112).map(|k| 256 + 8 * k))).unwrap();
    assert_eq!(full.len(), MOST_CELLS);
    cases.add_coarse(&coarse, &full);
    (cases.last().cell, cases.last().corner) = (4095, 511);
    cases.add_coarse(&coarse, &full);
    cases.last().cell = 4096;
    // Cell 251 has two of its edges also in 252 and 253, which close it with a family of three.
    let last = 300;
    let mut cells = apart(251);
    cells.extend([last, last + 1, last + 2, last + 3]);
    cells.extend([last, last + 1, last + 4, last + 5]);
    cells.extend([last, last + 2, last + 6, last + 7]);
    let coarse = examine_mesh(&corners(512), &cells).unwrap();
    let red = (0..250).chain([252, 253]);
    let table = step(&coarse, &[0; 254], &marks_at(254, red)).unwrap();
    let layout = examine_table(&coarse, &table).unwrap();
    for (count, cells) in [(113, 4081), (114, 4097)] {
        let marks = marks_at(table.len(), (0..count).map(|k| 254 + 8 * k));
        let new = step_without_count(&coarse, &layout, &marks).unwrap();
        assert_eq!(new.cells.len(), cells);
        assert!(sound(&new));
        cases.add_coarse(&coarse, &independent::mesh::table(&new));
    }
    cases.add(&A, &[0, 1, 2, 3], &[0; 5000]);
    cases.add(&A, &[0, 1, 2, 3], &[64; 4096]);
}

/// Level 10 and level 11, by refining one cell of the top level again and again.
fn level_limits(cases: &mut Cases, count: usize) {
    for k in 0..count {
        let coarse = if k == 0 { examine_mesh(&A, &[0, 1, 2, 3]).unwrap() } else { cases.small() };
        let mut table = vec![LEAF; coarse.cells.len()];
        let mut layout = examine_table(&coarse, &table).unwrap();
        while layout.levels <= TOP_LEVEL as usize {
            let top = layout.levels - 1;
            let regular: Vec<usize> = (0..table.len())
                .filter(|&i| layout.cells[i].level as usize == top && layout.cells[i].regular)
                .collect();
            let at = if k == 0 { regular[0] } else { *cases.r.pick(&regular) };
            table = step(&coarse, &table, &marks_at(table.len(), [at])).unwrap();
            layout = examine_table(&coarse, &table).unwrap();
        }
        cases.add_coarse(&coarse, &table);
        let first = layout.cells.iter().position(|c| c.level == TOP_LEVEL && c.regular).unwrap();
        table[first] = RED;
        table.extend([LEAF; 8]);
        assert_eq!(fault(&coarse, &table), Some("level 11"));
        cases.add_coarse(&coarse, &table);
    }
}

/// The document's mesh A with its tables A, B, C, and the corners and cells at the ends of their ranges.
fn document_cases(cases: &mut Cases) {
    let mut c = vec![64, 64, 11, 1, 0, 1, 0, 0, 0];
    c.extend([0; 16]);
    let coarse = examine_mesh(&A, &[0, 1, 2, 3]).unwrap();
    for status in [vec![0], vec![64, 0, 0, 0, 0, 0, 0, 0, 0], c] {
        let layout = examine_table(&coarse, &status).unwrap();
        for corner in 0..=layout.corners.len() {
            cases.add_coarse(&coarse, &status);
            cases.last().corner = corner as u16;
        }
        for cell in 0..=layout.cells.len() {
            cases.add_coarse(&coarse, &status);
            cases.last().cell = cell as u16;
        }
    }
}

/// Each lent table short, over cases of every kind: 15 comes first.
fn short_tables(cases: &mut Cases, count: usize) {
    for _ in 0..count {
        for short in 1..=4 {
            let mut case = cases.r.pick(&cases.all).clone();
            while case.positions.len() > 100 || case.status.len() > 300 || case.short != 0 {
                case = cases.r.pick(&cases.all).clone();
            }
            case.short = short;
            cases.all.push(case);
        }
    }
}

fn main() {
    let words: Vec<String> = std::env::args().collect();
    if !(3..=5).contains(&words.len()) {
        eprintln!("table_cases INPUT LINES [REPEAT [SEED]]");
        std::process::exit(2);
    }
    let repeat = words.get(3).map_or(1, |n| n.parse().expect("a number of repeats"));
    let seed = words.get(4).map_or(2026, |n| n.parse().expect("a seed"));
    let mut cases = Cases { r: Random::new(seed), all: Vec::new() };
    document_cases(&mut cases);
    mesh_limits(&mut cases);
    cell_limits(&mut cases);
    level_limits(&mut cases, 4);
    sound_cases(&mut cases, 200);
    damaged_tables(&mut cases, 16);
    damaged_meshes(&mut cases, 16);
    short_tables(&mut cases, 10);

    let (mut input, mut lines) = (Vec::new(), String::new());
    // How many cases met each refusal, by call; and how many tables were not sound, by rule.
    let calls = ["mesh", "table", "layout", "position", "ancestor", "counts"];
    let mut met: BTreeMap<Refusal, [usize; 6]> = BTreeMap::new();
    let mut faults: BTreeMap<&str, usize> = BTreeMap::new();
    for case in &cases.all {
        let Line { fields, refusals } = line(case);
        input.extend(case_bytes(case, repeat));
        lines.push_str(&(fields.join(" ") + "\n"));
        for (call, refusal) in refusals.into_iter().enumerate() {
            met.entry(refusal).or_default()[call] += 1;
        }
        if let Ok(coarse) = examine_mesh(&case.positions, &case.cells) {
            *faults.entry(fault(&coarse, &case.status).unwrap_or("no rule")).or_default() += 1;
        }
    }
    input.extend([255, 255].repeat(7));

    eprintln!("{} cases, {} and {} bytes", cases.all.len(), input.len(), lines.len());
    eprintln!("refusal {}", calls.join(" "));
    for (refusal, counts) in &met {
        eprintln!("{refusal} {}", counts.map(|n| n.to_string()).join(" "));
    }
    for (name, count) in &faults {
        eprintln!("not sound by {name}: {count}");
    }
    assert_eq!(met.keys().copied().collect::<Vec<_>>(), [0, 1, 2, 3, 4, 5, 6, 7, 15]);
    std::fs::write(&words[1], input).expect("the input is written");
    std::fs::write(&words[2], lines).expect("the lines are written");
}
