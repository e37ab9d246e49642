//! Writes the cases of the program try_steps and the lines that it must print.
//!
//!     step_cases INPUT LINES [REPEAT [SEED]]
//!
//! A case is a header of five u16 numbers, least byte first: how many coordinates (i32), corner numbers (u16) and
//! statuses (bytes) follow it, how many steps follow these, and how often each step is made. A step is two u16 numbers:
//! how many marks (bytes) follow, and 1 where the lent table is short by one, else 0. The number 65,535 ends the input.
//!
//! A step has a line: its refusal's number, 0 where it is accepted; how many cells there are, 0 where it is refused; a
//! checksum of the whole table that it was lent. An accepted step has more: 0, how many cells, corners and levels the new
//! table's layout has, and checksums of the layout's three tables. The next step goes on with the new table, after a
//! refused one with the old.

use independent::conform::conform;
use independent::mesh::*;
use independent::random::*;
use independent::step::*;
use independent::trial::*;
use independent::Refusal;
use std::collections::{BTreeMap, HashMap};

const NO_MARKS: Vec<u8> = Vec::new();

#[derive(Clone)]
struct Step {
    marks: Vec<u8>,
    short: bool,
}

#[derive(Clone)]
struct Case {
    positions: Vec<i32>,
    cells: Vec<u16>,
    status: Vec<u8>,
    steps: Vec<Step>,
}

/// How often each refusal and each kind of event was met.
type Met = BTreeMap<String, usize>;

// ------------------------------------------------------------ expected lines

/// A step's answer, the lent table being long enough.
fn answer(positions: &[i32], cells: &[u16], status: &[u8], marks: &[u8]) -> Result<Vec<u8>, Refusal> {
    step(&examine_mesh(positions, cells)?, status, marks)
}

/// The lines of a case; counts what its steps meet.
fn lines(case: &Case, met: &mut Met) -> String {
    let mesh = examine_mesh(&case.positions, &case.cells);
    let mut status = case.status.clone();
    let mut lines = String::new();
    for Step { marks, short } in &case.steps {
        let long = answer(&case.positions, &case.cells, &status, marks);
        let new = if *short { Err(15) } else { long.clone() };
        count_kinds(met, &mesh, &status, marks, &long, *short);
        let mut line = Line::default();
        line.answer(&new, &[new.as_ref().map_or(0, Vec::len)]);
        line.number(checksum_bytes(&over(bytes(MOST_CELLS), new.as_deref().unwrap_or(&[]))));
        if let (Ok(coarse), Ok(new)) = (&mesh, &new) {
            let laid = examine_table(coarse, new);
            conform(coarse, laid.as_ref().expect("a step gives a sound table")).expect("leaves fit together");
            line.laid(&mesh, &laid);
            status = new.clone();
        }
        lines.push_str(&(line.fields.join(" ") + "\n"));
    }
    lines
}

fn case_bytes(case: &Case, repeat: u16) -> Vec<u8> {
    let lengths = [case.positions.len(), case.cells.len(), case.status.len()];
    assert!(lengths.iter().zip(MOST).all(|(&n, most)| n <= most));
    let [p, c, s] = lengths.map(|n| n as u16);
    let mut out = Vec::new();
    for n in [p, c, s, case.steps.len() as u16, repeat] {
        out.extend(n.to_le_bytes());
    }
    out.extend(case.positions.iter().flat_map(|x| x.to_le_bytes()));
    out.extend(case.cells.iter().flat_map(|x| x.to_le_bytes()));
    out.extend(&case.status);
    for Step { marks, short } in &case.steps {
        assert!(marks.len() <= MOST[2]);
        out.extend((marks.len() as u16).to_le_bytes());
        out.extend((*short as u16).to_le_bytes());
        out.extend(marks);
    }
    out
}

// -------------------------------------------------------------- what steps meet

/// What must be met, beside the refusals 15, 1 to 9, and 15 before each other.
const KINDS: [&str; 33] = [
    "accepted",
    "no marks",
    "unchanged with marks",
    "2 on a coarse leaf",
    "2 on a green child",
    "1 on a regular leaf",
    "1 on a green child",
    "family deleted",
    "seven of eight deleted",
    "deletion kept by an edge",
    "deletion kept by a child that is no leaf",
    "green turned red by a child's mark",
    "green turned red by an edge",
    "green with its own edge newly split",
    "green becomes a leaf",
    "green with fewer edges split",
    "leaf closed",
    "closed with 63",
    "red becomes green",
    "red becomes a leaf",
    "green turned red below a new top level",
    "level 10 made",
    "level 10 gone",
    "4096 cells",
    "4096 cells before",
    "1 on a green child of level 10",
    "8 and 9 at once",
    "marks too short",
    "marks too long",
    "mark above 2",
    "1 on a refined cell",
    "2 on a refined cell",
    "6 and 7 at once",
];

/// The statuses by coarse cell and child numbers down to each cell.
fn by_path(layout: &Layout) -> HashMap<Vec<usize>, u8> {
    let mut paths: Vec<Vec<usize>> = Vec::new();
    for (i, cell) in layout.cells.iter().enumerate() {
        let path = cell.parent.map_or(vec![i], |p| [&paths[p][..], &[cell.child as usize]].concat());
        paths.push(path);
    }
    paths.into_iter().zip(table(layout)).collect()
}

fn count_kinds(
    met: &mut Met,
    mesh: &Result<Coarse, Refusal>,
    status: &[u8],
    marks: &[u8],
    long: &Result<Vec<u8>, Refusal>,
    short: bool,
) {
    let mut hit = |name: &str| *met.entry(name.to_string()).or_default() += 1;
    let refusal = long.as_ref().err().copied().unwrap_or(0);
    match (short, refusal) {
        (true, 0) => hit("15"),
        (true, k) => hit(&format!("15 before {k}")),
        (false, 0) => hit("accepted"),
        (false, k) => hit(&k.to_string()),
    }
    let coarse = match mesh {
        Ok(coarse) if !short => coarse,
        _ => return,
    };
    let old = match examine_table(coarse, status) {
        Ok(old) => old,
        Err(_) => {
            if marks.iter().any(|&m| m > 2) || marks.len() != status.len() {
                hit("6 and 7 at once");
            }
            return;
        }
    };
    if refusal == 7 {
        for (name, wrong) in [
            ("marks too short", marks.len() < status.len()),
            ("marks too long", marks.len() > status.len()),
            ("mark above 2", marks.iter().any(|&m| m > 2)),
            ("1 on a refined cell", marks.iter().zip(status).any(|(&m, &s)| m == 1 && s != LEAF)),
            ("2 on a refined cell", marks.iter().zip(status).any(|(&m, &s)| m == 2 && s != LEAF)),
        ] {
            if wrong {
                hit(name);
            }
        }
        return;
    }
    let red = new_red(&old, marks);
    if refusal == 8 {
        // Without what would reach level 11, there are still too many cells.
        let at_top = |c: &Cell| c.level == TOP_LEVEL;
        let below: Vec<u8> =
            old.cells.iter().zip(marks).map(|(c, &m)| if at_top(c) && m == REFINE { 0 } else { m }).collect();
        if step(coarse, status, &below) == Err(9) {
            hit("8 and 9 at once");
        }
    }
    for (name, there) in [
        ("no marks", marks.iter().all(|&m| m == 0)),
        ("unchanged with marks", long.as_ref().map_or(false, |new| new == status) && marks.iter().any(|&m| m != 0)),
        ("4096 cells before", status.len() == MOST_CELLS && marks.iter().any(|&m| m != 0)),
        ("4096 cells", long.as_ref().map_or(false, |new| new.len() == MOST_CELLS && new != status)),
    ] {
        if there {
            hit(name);
        }
    }
    let children = children(&old);
    for (i, cell) in old.cells.iter().enumerate() {
        let marked = |&k: &usize| marks[k] == DELETE;
        let leaf = |&k: &usize| old.cells[k].status == LEAF;
        let deleted = children[i].iter().filter(|&k| marked(k)).count();
        let green_child = cell.parent.map_or(false, |p| green(&old.cells[p]));
        for (name, there) in [
            ("2 on a coarse leaf", cell.parent.is_none() && marks[i] == DELETE),
            ("2 on a green child", green_child && marks[i] == DELETE),
            ("1 on a green child", green_child && marks[i] == REFINE),
            ("1 on a regular leaf", cell.regular && marks[i] == REFINE),
            ("family deleted", cell.status == RED && deleted == 8 && !red[i]),
            ("deletion kept by an edge", cell.status == RED && deleted == 8 && red[i]),
            ("seven of eight deleted", cell.status == RED && deleted == 7 && children[i].iter().all(leaf)),
            ("deletion kept by a child that is no leaf", cell.status == RED && deleted == 7 && !children[i].iter().all(leaf)),
            ("green turned red by a child's mark", green(cell) && children[i].iter().any(|&k| marks[k] == REFINE)),
            (
                "green turned red by an edge",
                green(cell) && red[i] && !children[i].iter().any(|&k| marks[k] == REFINE),
            ),
            ("1 on a green child of level 10", refusal == 8 && cell.level == TOP_LEVEL && red[i]),
        ] {
            if there {
                hit(name);
            }
        }
    }
    let new = match long {
        Ok(new) => examine_table(coarse, new).expect("a step gives a sound table"),
        Err(_) => return,
    };
    for (name, there) in [
        ("level 10 made", new.levels == 11 && old.levels < 11),
        ("level 10 gone", old.levels == 11 && new.levels < 11),
    ] {
        if there {
            hit(name);
        }
    }
    let after = by_path(&new);
    for (path, before) in by_path(&old) {
        let now = match after.get(&path) {
            Some(&now) => now,
            None => continue,
        };
        let (was_green, is_green) = ((1..RED).contains(&before), (1..RED).contains(&now));
        let below_top = path.len() + 1 == old.levels && new.levels > old.levels;
        for (name, there) in [
            ("green with its own edge newly split", was_green && is_green && now & !before != 0),
            ("green with fewer edges split", was_green && is_green && before & !now != 0),
            ("green becomes a leaf", was_green && now == LEAF),
            ("leaf closed", before == LEAF && is_green),
            ("closed with 63", now == 63 && before != 63),
            ("red becomes green", before == RED && is_green),
            ("red becomes a leaf", before == RED && now == LEAF),
            ("green turned red below a new top level", was_green && now == RED && below_top),
        ] {
            if there {
                hit(name);
            }
        }
    }
}

// ------------------------------------------------------------------ the cases

struct Cases {
    r: Random,
    all: Vec<Case>,
}

impl Cases {
    /// A case without steps.
    fn start(&mut self, positions: &[i32], cells: &[u16], status: &[u8]) {
        let (positions, cells, status) = (positions.to_vec(), cells.to_vec(), status.to_vec());
        self.all.push(Case { positions, cells, status, steps: vec![] });
    }

    fn start_coarse(&mut self, coarse: &Coarse, status: &[u8]) {
        self.start(&coarse.positions.concat(), &coarse.cells.concat(), status);
    }

    /// A step of the last case.
    fn step(&mut self, marks: &[u8]) {
        let steps = &mut self.all.last_mut().expect("a case").steps;
        steps.push(Step { marks: marks.to_vec(), short: false });
    }

    /// The same with a table that is short.
    fn step_short(&mut self, marks: &[u8]) {
        self.step(marks);
        self.all.last_mut().expect("a case").steps.last_mut().expect("a step").short = true;
    }

    /// Some mesh of few cells and few corners in none.
    fn small(&mut self) -> Coarse {
        let most = *self.r.pick(&[1, 2, 3, 5, 8, 12, 24, 48]);
        loop {
            let coarse = coarse_up_to(&mut self.r, most);
            if coarse.positions.len() <= 100 {
                return coarse;
            }
        }
    }
}

fn mesh_a() -> Coarse {
    examine_mesh(&A, &[0, 1, 2, 3]).unwrap()
}

fn table_b() -> Vec<u8> {
    vec![64, 0, 0, 0, 0, 0, 0, 0, 0]
}

fn table_c() -> Vec<u8> {
    over(vec![0; 25], &[64, 64, 11, 1, 0, 1, 0, 0, 0])
}

/// So many marks, with these at these cells.
fn marked(length: usize, some: impl IntoIterator<Item = (usize, u8)>) -> Vec<u8> {
    let mut marks = vec![0; length];
    for (i, mark) in some {
        marks[i] = mark;
    }
    marks
}

/// The starred cases of document 01 on mesh A, with what they must give.
fn document_cases(cases: &mut Cases) {
    let all_eight: Vec<(usize, u8)> = (9..17).map(|k| (k, 2)).collect();
    let mut run = |start: &[u8], marks: Vec<u8>, level_1: &[u8], cells: usize| {
        cases.start_coarse(&mesh_a(), start);
        cases.step(&marks);
        let new = step(&mesh_a(), start, &marks).unwrap();
        assert_eq!(new, over(vec![0; cells], level_1));
        cases.step(&vec![0; cells]);
    };
    run(&[0], vec![2], &[0], 1);
    run(&[0], vec![1], &[64], 9);
    run(&table_b(), marks_at(9, [1]), &[64, 64, 11, 1, 0, 1, 0, 0, 0], 25);
    run(&table_c(), marks_at(25, [17]), &[64, 64, 64, 21, 4, 11, 2, 0, 1], 39);
    run(&table_c(), marked(25, all_eight.clone()), &[64], 9);
    run(&table_c(), marked(25, all_eight[..7].to_vec()), &[64, 64, 11, 1, 0, 1, 0, 0, 0], 25);
    let marks = marked(25, all_eight.into_iter().chain([(17, 1)]));
    assert_eq!(step(&mesh_a(), &table_c(), &marks).unwrap()[1], 56);
    cases.start_coarse(&mesh_a(), &table_c());
    cases.step(&marks);
    // Every single mark on the tables A, B, C, and two wrong ones.
    for status in [vec![0], table_b(), table_c()] {
        for mark in 1..=3 {
            for at in 0..status.len() {
                cases.start_coarse(&mesh_a(), &status);
                cases.step(&marked(status.len(), [(at, mark)]));
            }
        }
        cases.start_coarse(&mesh_a(), &status);
        cases.step(&marked(status.len(), [(0, 255)]));
        cases.step(&vec![0; status.len() + 1]);
        cases.step(&vec![0; status.len() - 1]);
        cases.step(&NO_MARKS);
        cases.step(&vec![0; 5000]);
    }
}

/// So many random meshes, each with some random steps; now and then a refused one.
fn random_steps(cases: &mut Cases, count: usize, most_cells: usize) {
    for _ in 0..count {
        let coarse = cases.small();
        let mut status = vec![LEAF; coarse.cells.len()];
        if cases.r.once_in(2) {
            let sound = sound_table(&mut cases.r, &coarse);
            if sound.len() <= most_cells {
                status = sound;
            }
        }
        cases.start_coarse(&coarse, &status);
        for _ in 0..4 + cases.r.below(8) {
            let layout = examine_table(&coarse, &status).unwrap();
            let r = &mut cases.r;
            let marks = match r.below(14) {
                0 => damaged_marks(r, &layout),
                1 => vec![0; status.len()],
                2..=5 => marks(r, &layout),
                _ => {
                    let (rarely, refined) = (1 + r.below(6), r.below(5));
                    mixed_marks(r, &layout, rarely, refined)
                }
            };
            match step(&coarse, &status, &marks) {
                Ok(new) if new.len() > most_cells => continue,
                _ if cases.r.once_in(30) => {
                    cases.step_short(&marks);
                    continue;
                }
                Ok(new) => status = new,
                Err(_) => {}
            }
            cases.step(&marks);
        }
    }
}

/// Tables that are not sound, so many for each fault, with marks that fit or not.
fn damaged_tables(cases: &mut Cases, count: usize) {
    let names = ["above 64", "not regular", "too short", "too long", "pattern", "third condition"];
    let mut found: BTreeMap<&str, usize> = BTreeMap::new();
    while names.iter().any(|name| found.get(name).map_or(true, |&n| n < count)) {
        let coarse = cases.small();
        let sound = sound_table(&mut cases.r, &coarse);
        let status = damaged_table(&mut cases.r, &coarse, &sound);
        let n = found.entry(fault(&coarse, &status).unwrap_or("none")).or_insert(0);
        if *n < count && status.len() <= 600 {
            *n += 1;
            cases.start_coarse(&coarse, &status);
            cases.step(&vec![0; status.len()]);
            match cases.r.below(3) {
                0 => cases.step(&vec![7; status.len()]),
                1 => cases.step(&NO_MARKS),
                _ => cases.step_short(&vec![0; status.len()]),
            }
        }
    }
    // The limits on cells and levels.
    cases.start_coarse(&mesh_a(), &[0; 5000]);
    cases.step(&[0; 5000]);
    cases.start_coarse(&mesh_a(), &[]);
    cases.step(&NO_MARKS);
}

/// Meshes that are refused, so many for each of 1 to 5, with tables and marks that fit or not.
fn damaged_meshes(cases: &mut Cases, count: usize) {
    let mut found = [0; 6];
    while found[1..].iter().any(|&n| n < count) {
        let coarse = cases.small();
        let status = sound_table(&mut cases.r, &coarse);
        let (positions, cells) = damaged_mesh(&mut cases.r, &coarse);
        let refusal = examine_mesh(&positions, &cells).err().unwrap_or(0);
        let n = &mut found[refusal as usize];
        if *n < count && status.len() < 200 && positions.len() <= 300 && cells.len() <= 200 {
            *n += 1;
            cases.start(&positions, &cells, &status);
            cases.step(&vec![0; status.len()]);
            match cases.r.below(3) {
                0 => cases.step(&vec![7; status.len()]),
                1 => cases.step(&NO_MARKS),
                _ => cases.step_short(&vec![0; status.len()]),
            }
        }
    }
}

/// Exactly 4,096 cells, and 4,097.
fn cell_limits(cases: &mut Cases) {
    // 256 cells apart, each red: 2,304 cells. Each first child red adds 16.
    let coarse = examine_mesh(&corners(512), &apart(256)).unwrap();
    let table = step(&coarse, &[0; 256], &[1; 256]).unwrap();
    cases.start_coarse(&coarse, &[0; 256]);
    cases.step(&[1; 256]);
    let firsts = |count: usize| marks_at(2304, (0..count).map(|k| 256 + 8 * k));
    let full = step(&coarse, &table, &firsts(112)).unwrap();
    assert_eq!(full.len(), MOST_CELLS);
    assert_eq!(step(&coarse, &table, &firsts(113)), Err(9));
    cases.step(&firsts(113));
    cases.step_short(&firsts(113));
    cases.step(&firsts(112));
    // From 4,096 cells: one refined, then all that can go.
    let last = full.iter().rposition(|&s| s == LEAF).unwrap();
    assert_eq!(step(&coarse, &full, &marks_at(MOST_CELLS, [last])), Err(9));
    cases.step(&marks_at(MOST_CELLS, [last]));
    let all = full.iter().map(|&s| if s == LEAF { DELETE } else { 0 }).collect::<Vec<u8>>();
    cases.step(&all);

    // Cell 251 has two of its edges also in 252 and 253, which close it with a family of three.
    let last = 300;
    let mut cells = apart(251);
    cells.extend([last, last + 1, last + 2, last + 3]);
    cells.extend([last, last + 1, last + 4, last + 5]);
    cells.extend([last, last + 2, last + 6, last + 7]);
    let coarse = examine_mesh(&corners(512), &cells).unwrap();
    let table = step(&coarse, &[0; 254], &marks_at(254, (0..250).chain([252, 253]))).unwrap();
    let layout = examine_table(&coarse, &table).unwrap();
    cases.start_coarse(&coarse, &table);
    for (count, cells) in [(114, 4097), (113, 4081)] {
        let marks = marks_at(table.len(), (0..count).map(|k| 254 + 8 * k));
        assert_eq!(step_without_count(&coarse, &layout, &marks).unwrap().cells.len(), cells);
        cases.step(&marks);
    }
}

/// Level 10 and level 11, by refining one regular cell of the top level again and again: the first one, or any. Then the top
/// levels are deleted.
fn level_limits(cases: &mut Cases, count: usize) {
    for k in 0..count {
        let coarse = if k == 0 { mesh_a() } else { cases.small() };
        let mut status = vec![LEAF; coarse.cells.len()];
        cases.start_coarse(&coarse, &status);
        loop {
            let layout = examine_table(&coarse, &status).unwrap();
            let top = layout.levels - 1;
            let regular: Vec<usize> = (0..status.len())
                .filter(|&i| layout.cells[i].level as usize == top && layout.cells[i].regular)
                .collect();
            let at = if k == 0 { regular[0] } else { *cases.r.pick(&regular) };
            let marks = marks_at(status.len(), [at]);
            cases.step(&marks);
            match step(&coarse, &status, &marks) {
                Ok(new) => status = new,
                Err(refusal) => {
                    assert_eq!(refusal == 8, top == TOP_LEVEL as usize);
                    cases.step_short(&marks);
                    break;
                }
            }
        }
        // A green child of level 10: its parent turns red, and no level is made.
        let layout = examine_table(&coarse, &status).unwrap();
        if let Some(at) = layout.cells.iter().position(|c| c.level == TOP_LEVEL && !c.regular) {
            cases.step(&marks_at(status.len(), [at]));
            status = step(&coarse, &status, &marks_at(status.len(), [at])).unwrap_or(status);
        }
        for _ in 0..2 {
            let marks: Vec<u8> = status.iter().map(|&s| if s == LEAF { DELETE } else { 0 }).collect();
            cases.step(&marks);
            status = step(&coarse, &status, &marks).unwrap();
        }
    }
}

/// A cell of level 10 refined among so many others that there would be too many cells.
fn both_limits(cases: &mut Cases) {
    let coarse = examine_mesh(&corners(200), &apart(190)).unwrap();
    let mut status = step(&coarse, &[0; 190], &[1; 190]).unwrap();
    for top in 1..=TOP_LEVEL {
        let layout = examine_table(&coarse, &status).unwrap();
        let at = layout.cells.iter().position(|c| c.level == top && c.regular).unwrap();
        if top < TOP_LEVEL {
            status = step(&coarse, &status, &marks_at(status.len(), [at])).unwrap();
            continue;
        }
        let ones: Vec<usize> = (0..status.len())
            .filter(|&i| layout.cells[i].level == 1 && status[i] == LEAF && layout.cells[i].child == 7)
            .collect();
        cases.start_coarse(&coarse, &status);
        for some in [vec![at], ones.clone(), [ones, vec![at]].concat()] {
            cases.step(&marks_at(status.len(), some));
        }
    }
}

/// The lent table short, over steps of every kind: 15 comes first.
fn short_tables(cases: &mut Cases, count: usize) {
    let mut left = BTreeMap::new();
    for k in 1..=9 {
        left.insert(k, count);
    }
    let mut more = Vec::new();
    for case in &cases.all {
        let size = case.positions.len() + case.cells.len() + case.status.len();
        let first = case.steps.first().filter(|_| size < 400);
        let refusal = match first.map(|first| answer(&case.positions, &case.cells, &case.status, &first.marks)) {
            Some(Err(refusal)) => refusal,
            _ => continue,
        };
        let n = left.get_mut(&refusal).expect("a refusal from 1 to 9");
        if *n > 0 {
            *n -= 1;
            let mut case = case.clone();
            case.steps.truncate(1);
            case.steps[0].short = true;
            more.push(case);
        }
    }
    cases.all.extend(more);
}

fn main() {
    let words: Vec<String> = std::env::args().collect();
    if !(3..=5).contains(&words.len()) {
        eprintln!("step_cases INPUT LINES [REPEAT [SEED]]");
        std::process::exit(2);
    }
    let repeat = words.get(3).map_or(1, |n| n.parse().expect("a number of repeats"));
    let seed = words.get(4).map_or(2026, |n| n.parse().expect("a seed"));
    let mut cases = Cases { r: Random::new(seed), all: Vec::new() };
    document_cases(&mut cases);
    cell_limits(&mut cases);
    level_limits(&mut cases, 5);
    both_limits(&mut cases);
    random_steps(&mut cases, 110, 700);
    random_steps(&mut cases, 4, 3000);
    damaged_tables(&mut cases, 6);
    damaged_meshes(&mut cases, 8);
    short_tables(&mut cases, 3);

    let (mut input, mut expected) = (Vec::new(), String::new());
    let mut met = Met::new();
    for case in &cases.all {
        input.extend(case_bytes(case, repeat));
        expected.push_str(&lines(case, &mut met));
    }
    input.extend([255, 255].repeat(5));

    let steps: usize = cases.all.iter().map(|c| c.steps.len()).sum();
    eprintln!("{} cases, {steps} steps, {} and {} bytes", cases.all.len(), input.len(), expected.len());
    for (name, count) in &met {
        eprintln!("{name}: {count}");
    }
    let refusals = (1..=9).map(|k| k.to_string()).chain((1..=9).map(|k| format!("15 before {k}")));
    for name in refusals.chain(KINDS.map(String::from)).chain(["15".to_string()]) {
        assert!(met.contains_key(&name), "not met: {name}");
    }
    assert!(steps > 500 && input.len() < 700_000);
    std::fs::write(&words[1], input).expect("the input is written");
    std::fs::write(&words[2], expected).expect("the lines are written");
}
