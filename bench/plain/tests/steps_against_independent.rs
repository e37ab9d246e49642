//! The plain step against the independent one, on random meshes, tables and marks, right and wrong.

use independent::mesh::{examine_mesh, examine_table, Layout, LEAF, MOST_CELLS};
use independent::random::{
    coarse, coarse_up_to, damaged_marks, damaged_mesh, damaged_table, marks, mixed_marks, sound_table, Random,
};
use independent::step::{step, REFINE};
use plain::input::{read_steps, write_steps, Step, Steps};
use plain::step::Stepper;

struct Both {
    stepper: Stepper,
    table: Vec<u8>,
    /// How often each answer was given, 0 for accepted.
    answers: [usize; 18],
}

impl Both {
    fn new() -> Both {
        Both { stepper: Stepper::new(), table: vec![77; MOST_CELLS], answers: [0; 18] }
    }

    /// Makes a step with both programs, and compares; the new table, if there is one. A refusal must leave the table as it is.
    fn step(&mut self, positions: &[i32], cells: &[u16], status: &[u8], marks: &[u8], short: bool) -> Option<Vec<u8>> {
        let length = MOST_CELLS - short as usize;
        let expected = match short {
            true => Err(15),
            false => examine_mesh(positions, cells).and_then(|mesh| step(&mesh, status, marks)),
        };
        let mut held = self.table.clone();
        let found = self.stepper.step(positions, cells, status, marks, &mut self.table[..length]);
        assert_eq!(found, expected.as_ref().map(Vec::len).map_err(|&k| k));
        if let Ok(new) = &expected {
            held[..new.len()].copy_from_slice(new);
            let mut again = vec![0; MOST_CELLS];
            assert_eq!(self.stepper.step_trusted(positions, cells, status, marks, &mut again), Ok(new.len()));
            assert!(again[..new.len()] == new[..]);
        }
        assert!(self.table == held);
        self.answers[*expected.as_ref().err().unwrap_or(&0) as usize] += 1;
        expected.ok()
    }
}

/// Some families deleted and some leaves refined.
fn mixed(r: &mut Random, layout: &Layout) -> Vec<u8> {
    let (rarely, refined) = (1 + r.below(6), r.below(12));
    mixed_marks(r, layout, rarely, refined)
}

#[test]
fn steps_agree() {
    let mut r = Random::new(21);
    let mut both = Both::new();
    let (mut largest, mut shrunk) = (0, 0);
    for _ in 0..400 {
        let mesh = coarse(&mut r);
        let (positions, cells) = (mesh.positions.concat(), mesh.cells.concat());
        let mut table = vec![LEAF; mesh.cells.len()];
        for _ in 0..14 {
            let layout = examine_table(&mesh, &table).unwrap();
            let marks = match r.below(10) {
                0 => damaged_marks(&mut r, &layout),
                1..=4 => marks(&mut r, &layout),
                _ => mixed(&mut r, &layout),
            };
            let short = r.once_in(40);
            if let Some(new) = both.step(&positions, &cells, &table, &marks, short) {
                shrunk += (new.len() < table.len()) as usize;
                largest = largest.max(new.len());
                table = new;
            }
        }
    }
    println!("{:?}, at most {largest} cells, fewer after {shrunk}", both.answers);
    assert!(largest > 3500 && shrunk > 300);
    assert!([0, 7, 9, 15].iter().all(|&k| both.answers[k] > 50));
}

#[test]
fn deep_steps_agree() {
    // One cell or few, refined again and again at the top: level 10, then 8.
    let mut r = Random::new(22);
    let mut both = Both::new();
    for _ in 0..30 {
        let mesh = coarse_up_to(&mut r, 4);
        let (positions, cells) = (mesh.positions.concat(), mesh.cells.concat());
        let mut table = vec![LEAF; mesh.cells.len()];
        for _ in 0..50 {
            let layout = examine_table(&mesh, &table).unwrap();
            let first = layout.cells.iter().position(|c| c.level as usize + 1 == layout.levels).unwrap();
            let mut marks = if r.once_in(4) { mixed(&mut r, &layout) } else { vec![0; table.len()] };
            marks[first + r.below(table.len() - first)] = REFINE;
            table = both.step(&positions, &cells, &table, &marks, false).unwrap_or(table);
        }
    }
    println!("{:?}", both.answers);
    assert!(both.answers[8] > 50 && both.answers[0] > 500);
}

#[test]
fn damaged_tables_and_meshes_agree() {
    let mut r = Random::new(23);
    let mut both = Both::new();
    for _ in 0..4000 {
        let mesh = coarse_up_to(&mut r, 12);
        let (mut positions, mut cells) = (mesh.positions.concat(), mesh.cells.concat());
        let mut table = sound_table(&mut r, &mesh);
        let layout = examine_table(&mesh, &table).unwrap();
        let marks = if r.once_in(8) { damaged_marks(&mut r, &layout) } else { marks(&mut r, &layout) };
        if r.once_in(2) {
            table = damaged_table(&mut r, &mesh, &table);
        }
        if r.once_in(2) {
            (positions, cells) = damaged_mesh(&mut r, &mesh);
        }
        both.step(&positions, &cells, &table, &marks, r.once_in(30));
    }
    println!("{:?}", both.answers);
    assert!((0..8).chain([15]).all(|k| both.answers[k] > 50));
}

/// The cases of crates/try_steps: refusal and number of cells of each step, as the independent program wrote them.
#[test]
fn stored_cases_agree() {
    let crates = concat!(env!("CARGO_MANIFEST_DIR"), "/../../crates/try_steps/");
    let bytes = std::fs::read(format!("{crates}stdin")).unwrap();
    let lines = std::fs::read_to_string(format!("{crates}stdout")).unwrap();
    let mut lines = lines.lines();
    let mut both = Both::new();
    for case in read_steps(&bytes).unwrap() {
        let mut table = case.status;
        for step in case.steps {
            let new = both.step(&case.positions, &case.cells, &table, &step.marks, step.short == 1);
            let cells = new.as_ref().map_or(0, Vec::len).to_string();
            let fields: Vec<&str> = lines.next().unwrap().split(' ').collect();
            assert_eq!((fields[0] == "0", fields[1]), (new.is_some(), &cells[..]));
            table = new.unwrap_or(table);
        }
    }
    assert_eq!(lines.next(), None);
    assert!((0..10).chain([15]).all(|k| both.answers[k] > 0));
}

#[test]
fn input_goes_there_and_back() {
    let mut r = Random::new(24);
    let mut cases = Vec::new();
    for _ in 0..20 {
        let mesh = coarse(&mut r);
        let status = sound_table(&mut r, &mesh);
        let step = |r: &mut Random| Step { marks: (0..r.below(99)).map(|_| r.below(4) as u8).collect(), short: r.below(2) as u16 };
        let steps = (0..r.below(5)).map(|_| step(&mut r)).collect();
        let (positions, cells) = (mesh.positions.concat(), mesh.cells.concat());
        cases.push(Steps { positions, cells, status, steps, repeat: r.below(65536) as u16 });
    }
    let bytes = write_steps(&cases);
    assert_eq!(read_steps(&bytes), Some(cases));
    assert_eq!(read_steps(&bytes[..bytes.len() - 1]), None);
}
