//! The limits, and the order of refusals.

use independent::archive::{form, put, read, replay, write, write_flat, Flat, Job, MOST_BYTES};
use independent::conform::conform;
use independent::mesh::*;
use independent::random::Random;
use independent::step::{step, step_without_count};

const A: [i32; 12] = [0, 0, 0, 16, 0, 0, 0, 16, 0, 0, 0, 16];

fn a() -> Coarse {
    examine_mesh(&A, &[0, 1, 2, 3]).unwrap()
}

/// So many corners at random.
fn corners(count: usize) -> Vec<i32> {
    let mut r = Random::new(7);
    (0..3 * count).map(|_| r.between(-500_000, 500_000) as i32).collect()
}

/// So many cells (at most 512 - 6) that share no edge: differences of 0, 1, 4, 6
/// are all different.
fn apart(count: usize) -> Vec<u16> {
    (0..count as u16).flat_map(|k| [k, k + 1, k + 4, k + 6]).collect()
}

fn marks(length: usize, ones: impl IntoIterator<Item = usize>) -> Vec<u8> {
    let mut marks = vec![0; length];
    for i in ones {
        marks[i] = 1;
    }
    marks
}

#[test]
fn counts_and_lengths() {
    assert!(examine_mesh(&corners(512), &apart(256)).is_ok());
    assert_eq!(examine_mesh(&corners(513), &apart(256)), Err(1));
    assert_eq!(examine_mesh(&corners(512), &apart(257)), Err(1));
    assert_eq!(examine_mesh(&A[..9], &[0, 1, 2, 3]), Err(1));
    assert_eq!(examine_mesh(&A, &[]), Err(1));
    assert_eq!(examine_mesh(&A[..11], &[0, 1, 2, 3]), Err(1));
    assert_eq!(examine_mesh(&A, &[0, 1, 2]), Err(1));
    assert_eq!(examine_mesh(&A, &[0, 1, 2, 3, 0]), Err(1));
}

#[test]
fn positions_numbers_and_cells() {
    let with = |at: usize, x: i32| {
        let mut positions = A;
        positions[at] = x;
        examine_mesh(&positions, &[0, 1, 2, 3]).map(|_| ())
    };
    assert_eq!(with(3, 500_000), Ok(()));
    assert_eq!(with(3, -500_000), Ok(()));
    assert_eq!(with(3, 500_001), Err(2));
    assert_eq!(with(11, -500_001), Err(2));
    assert_eq!(with(3, 0), Err(4));

    let cells = |cells: &[u16]| examine_mesh(&corners(7), cells).map(|_| ());
    assert_eq!(cells(&[0, 1, 2, 6]), Ok(()));
    assert_eq!(cells(&[0, 1, 2, 7]), Err(3));
    assert_eq!(cells(&[0, 2, 1, 6]), Err(3));
    assert_eq!(cells(&[0, 1, 1, 6]), Err(3));
    assert_eq!(cells(&[0, 1, 2, 3, 0, 1, 2, 3]), Err(5));
    assert_eq!(cells(&[0, 1, 2, 3, 0, 1, 2, 4]), Ok(()));
    assert_eq!(cells(&[0, 1, 2, 3, 0, 1, 2, 4, 0, 1, 2, 5]), Err(5));
    assert_eq!(cells(&[0, 1, 2, 3, 0, 1, 3, 4, 0, 1, 4, 5, 0, 1, 2, 5]), Ok(()));

    // The lowest number wins, over the whole mesh.
    let mut positions = corners(7);
    positions[20] = 500_001;
    assert_eq!(examine_mesh(&positions, &[0, 1, 1, 6]), Err(2));
    positions[20] = 0;
    positions.copy_within(0..3, 3);
    assert_eq!(examine_mesh(&positions, &[0, 1, 2, 3, 0, 1, 2, 3]), Err(4));
    assert_eq!(examine_mesh(&positions, &[0, 1, 2, 3, 0, 1, 2, 9]), Err(3));
}

#[test]
fn extreme_determinants() {
    // The largest cells, and one flat by a hair's breadth or just not.
    let h = 500_000;
    assert!(!flat([[-h, -h, -h], [h, h, -h], [h, -h, h], [-h, h, h]]));
    assert!(flat([[-h, -h, -h], [h, h, h], [0, 0, 0], [h, -h, 3]]));
    assert!(!flat([[-h, -h, -h], [h, h, h], [1, 0, 0], [h, -h, 3]]));
}

#[test]
fn four_thousand_and_ninety_six_cells_pass() {
    // 256 cells apart, each red: 2,304 cells. Each first child red as in C adds 16.
    let coarse = examine_mesh(&corners(512), &apart(256)).unwrap();
    let table = step(&coarse, &[0; 256], &[1; 256]).unwrap();
    assert_eq!(table.len(), 2304);
    let first_children = |count: usize| (0..count).map(|k| 256 + 8 * k);
    let full = step(&coarse, &table, &marks(2304, first_children(112))).unwrap();
    assert_eq!(full.len(), 4096);
    let layout = examine_table(&coarse, &full).unwrap();
    conform(&coarse, &layout).unwrap();
    assert!(layout.corners.len() <= MOST_CORNERS);
    let clock = std::time::Instant::now();
    assert_eq!(step(&coarse, &full, &[0; 4096]), Ok(full.clone()));
    println!("one step on 4,096 cells: {:?}", clock.elapsed());
    assert_eq!(step(&coarse, &table, &marks(2304, first_children(113))), Err(9));
    assert_eq!(step(&coarse, &full, &marks(4096, [4095])), Err(9));
    assert_eq!(step(&coarse, &full, &marks(4096, [0])), Err(7));
    // As many go as come.
    let mut swap = marks(4096, first_children(113).skip(112));
    let gone = layout.cells.iter().position(|c| c.parent == Some(256)).unwrap();
    swap[gone..gone + 8].fill(2);
    let swapped = step(&coarse, &full, &swap).unwrap();
    assert_eq!(swapped.len(), 4096);
    assert_ne!(swapped, full);
}

#[test]
fn four_thousand_and_ninety_seven_cells_do_not() {
    // Cells 0 to 250 apart; then 251 with two of its edges also in 252 and 253,
    // which are red and close it with a family of three.
    let last = 300;
    let mut cells = apart(251);
    cells.extend([last, last + 1, last + 2, last + 3]);
    cells.extend([last, last + 1, last + 4, last + 5]);
    cells.extend([last, last + 2, last + 6, last + 7]);
    let coarse = examine_mesh(&corners(512), &cells).unwrap();
    let start = (0..250).chain([252, 253]);
    let table = step(&coarse, &vec![0; 254], &marks(254, start)).unwrap();
    assert_eq!(table[250..254], [0, 3, 64, 64]);
    assert_eq!(table.len(), 254 + 8 * 252 + 3);
    let layout = examine_table(&coarse, &table).unwrap();
    let with = |count: usize| marks(table.len(), (0..count).map(|k| 254 + 8 * k));
    let new = step_without_count(&coarse, &layout, &with(114)).unwrap();
    assert_eq!(new.cells.len(), 4097);
    assert!(sound(&new));
    assert_eq!(step(&coarse, &table, &with(114)), Err(9));
    assert_eq!(examine_table(&coarse, &independent::mesh::table(&new)), Err(6));
    assert_eq!(step(&coarse, &table, &with(113)).unwrap().len(), 4097 - 16);
}

/// Refines the cell at the coarse corner 0 so often.
fn deep(coarse: &Coarse, times: usize) -> Vec<u8> {
    let mut table = vec![0; coarse.cells.len()];
    for _ in 0..times {
        let layout = examine_table(coarse, &table).unwrap();
        table = step(coarse, &table, &marks(table.len(), [deepest(&layout)])).unwrap();
    }
    table
}

/// The first cell of the top level that has the coarse corner 0.
fn deepest(layout: &Layout) -> usize {
    let top = |c: &Cell| c.level as usize + 1 == layout.levels && c.corners.contains(&0);
    layout.cells.iter().position(top).unwrap()
}

#[test]
fn level_ten_passes_and_eleven_does_not() {
    let table = deep(&a(), 10);
    let layout = examine_table(&a(), &table).unwrap();
    assert_eq!(layout.levels, 11);
    conform(&a(), &layout).unwrap();
    assert!(layout.corners.contains(&vec![(0, 1023), (1, 1)]));
    let at = deepest(&layout);
    assert!(layout.cells[at].regular);
    assert_eq!(step(&a(), &table, &marks(table.len(), [at])), Err(8));
    // A level ten cell that is not regular turns its parent red: no level 11.
    let not_regular = layout.cells.iter().rposition(|c| c.level == 10 && !c.regular).unwrap();
    let new = step(&a(), &table, &marks(table.len(), [not_regular])).unwrap();
    let new = examine_table(&a(), &new).unwrap();
    assert_eq!(new.levels, 11);
    conform(&a(), &new).unwrap();
    // A table with a level 11.
    let mut higher = table.clone();
    let first = layout.cells.iter().position(|c| c.level == 10).unwrap();
    higher[first] = 64;
    higher.extend([0; 8]);
    assert_eq!(examine_table(&a(), &higher), Err(6));
}

#[test]
fn eight_before_nine() {
    let coarse = examine_mesh(&corners(512), &apart(256)).unwrap();
    let table = deep(&coarse, 10);
    let layout = examine_table(&coarse, &table).unwrap();
    let leaves = |below: u8| -> Vec<u8> {
        layout.cells.iter().map(|c| (c.status == 0 && c.level < below) as u8).collect()
    };
    // Every coarse cell and some more: still few enough.
    let new = step(&coarse, &table, &leaves(1)).unwrap();
    assert!(new.len() < 4096);
    let layout = examine_table(&coarse, &new).unwrap();
    let leaves = |levels: std::ops::Range<u8>| -> Vec<u8> {
        layout.cells.iter().map(|c| (c.status == 0 && levels.contains(&c.level)) as u8).collect()
    };
    assert_eq!(step(&coarse, &new, &leaves(0..10)), Err(9));
    assert_eq!(step(&coarse, &new, &leaves(0..11)), Err(8));
    let top = marks(new.len(), [deepest(&layout)]);
    assert_eq!(step(&coarse, &new, &top), Err(8));
}

#[test]
fn archives_at_the_limit() {
    let mut job = Job { positions: A.to_vec(), cells: vec![0, 1, 2, 3], steps: vec![] };
    let rest = MOST_BYTES - put(&job).len();
    job.steps = vec![vec![]; rest];
    let bytes = write(&job).unwrap();
    assert_eq!(bytes.len(), MOST_BYTES);
    assert_eq!(read(&bytes), Ok(job.clone()));
    assert_eq!(replay(&bytes).unwrap().1, [0]);
    job.steps.push(vec![]);
    assert_eq!(write(&job), Err(17));
    assert_eq!(read(&put(&job)), Err(17));
    // A fault in the mesh or in a step comes before 17 in writing, not in reading.
    job.steps[2].push((1, 1));
    assert_eq!(write(&job), Err(7));
    job.positions[0] = 500_001;
    assert_eq!(write(&job), Err(2));
    assert_eq!(read(&put(&job)), Err(17));
}

#[test]
fn steps_in_turn() {
    let job = |steps: Vec<Vec<(u16, u8)>>| Job { positions: A.to_vec(), cells: vec![0, 1, 2, 3], steps };
    let both = |steps: Vec<Vec<(u16, u8)>>| {
        let job = job(steps);
        (write(&job).map(|_| ()), read(&put(&job)).map(|_| ()))
    };
    assert_eq!(both(vec![vec![(0, 2)], vec![(0, 1)], vec![(1, 1)]]), (Ok(()), Ok(())));
    assert_eq!(both(vec![vec![(1, 1)]]), (Err(7), Err(7)));
    assert_eq!(both(vec![vec![(0, 1)], vec![(0, 1)]]), (Err(7), Err(7)));
    assert_eq!(both(vec![vec![(0, 1)], vec![(9, 1)]]), (Err(7), Err(7)));
    // In writing, order and mark are the marks' fault; in reading, the form's.
    assert_eq!(both(vec![vec![(0, 1)], vec![(2, 1), (1, 1)]]), (Err(7), Err(17)));
    assert_eq!(both(vec![vec![(0, 1)], vec![(1, 1), (1, 1)]]), (Err(7), Err(17)));
    assert_eq!(both(vec![vec![(0, 0)]]), (Err(7), Err(17)));
    assert_eq!(both(vec![vec![(0, 3)]]), (Err(7), Err(17)));

    // The eleventh refinement at corner 0, with a later fault of number 7.
    let mut steps = Vec::new();
    let mut table = vec![0];
    for _ in 0..11 {
        let layout = examine_table(&a(), &table).unwrap();
        steps.push(vec![(deepest(&layout) as u16, 1)]);
        if let Ok(new) = step(&a(), &table, &marks(table.len(), [deepest(&layout)])) {
            table = new;
        }
    }
    assert_eq!(both(steps[..10].to_vec()), (Ok(()), Ok(())));
    assert_eq!(both(steps.clone()), (Err(8), Err(8)));
    steps.push(vec![(9999, 1)]);
    assert_eq!(both(steps.clone()), (Err(8), Err(8)));
    steps.swap(0, 11);
    assert_eq!(both(steps), (Err(7), Err(7)));
}

#[test]
fn flat_tables() {
    let both = |marked: &[u16], marks: &[u8], ends: &[u16], far: i32| {
        let mut positions = A.to_vec();
        positions[0] = far;
        let (marked, marks, ends) = (marked.to_vec(), marks.to_vec(), ends.to_vec());
        write_flat(&Flat { positions, cells: vec![0, 1, 2, 3], marked, marks, ends }).map(|bytes| bytes.len())
    };
    let answer = |marked: &[u16], marks: &[u8], ends: &[u16]| {
        let answer = both(marked, marks, ends, 0);
        // The mesh comes first.
        assert_eq!(both(marked, marks, ends, 500_001), Err(2));
        answer
    };
    assert_eq!(answer(&[], &[], &[]), Ok(62));
    assert_eq!(answer(&[], &[], &[0, 0]), Ok(64));
    assert_eq!(answer(&[0, 1, 3], &[1, 1, 2], &[0, 1, 1, 3]), Ok(78));
    // Marks behind the last step, an end behind the last mark, an end before its start, different numbers.
    assert_eq!(answer(&[0], &[1], &[]), Err(7));
    assert_eq!(answer(&[0], &[1], &[0]), Err(7));
    assert_eq!(answer(&[0], &[1], &[2]), Err(7));
    assert_eq!(answer(&[0, 1], &[1, 1], &[1, 0, 2]), Err(7));
    assert_eq!(answer(&[0, 1], &[1], &[1]), Err(7));
    assert_eq!(answer(&[0], &[1, 1], &[1]), Err(7));
    // Within a step cells ascend, over steps they need not.
    assert_eq!(answer(&[0, 2, 1], &[1, 2, 2], &[1, 3]), Err(7));
    assert_eq!(answer(&[0, 2, 1], &[1, 2, 2], &[1, 2, 3]), Ok(77));
    // Too many bytes come last.
    assert_eq!(answer(&[], &[], &vec![0; 65_475]), Err(17));
    assert_eq!(answer(&[], &[], &vec![0; 65_474]), Ok(MOST_BYTES));
    assert_eq!(answer(&[0], &[1], &vec![0; 65_475]), Err(7));
}

#[test]
fn the_form() {
    let good = put(&Job { positions: A.to_vec(), cells: vec![0, 1, 2, 3], steps: vec![vec![(0, 1)]] });
    assert!(form(&good).is_some());
    for length in 0..good.len() {
        assert_eq!(read(&good[..length]), Err(17));
    }
    let head = &good[..61];
    let with = |tail: &[u8]| read(&[head, tail].concat()).map(|_| ());
    assert_eq!(with(b"E"), Ok(()));
    assert_eq!(with(b"GGE"), Ok(()));
    assert_eq!(with(b"EE"), Err(17));
    assert_eq!(with(b"E\0"), Err(17));
    assert_eq!(with(b"M\0\0\x01E"), Err(17));
    assert_eq!(with(b"GM\0\0\x01E"), Err(17));
    assert_eq!(with(b"M\0\0\x01GM\0\0\x01E"), Err(17));
    assert_eq!(with(b"M\x01\0\x01M\0\0\x01GE"), Err(17));
    assert_eq!(with(b"M\x01\0\x01M\x01\0\x01GE"), Err(17));
    // The high byte comes last: 255 then 256.
    assert_eq!(with(b"M\xff\0\x01M\0\x01\x01GE"), Err(7));
    assert_eq!(with(b"M\0\x01\x01M\xff\0\x01GE"), Err(17));
    assert_eq!(with(b"M\0\0\0GE"), Err(17));
    assert_eq!(with(b"M\0\0\x03GE"), Err(17));
    assert_eq!(with(b"XE"), Err(17));
    // V and T stand first, V before T.
    let mut v = vec![b'V'];
    v.extend([0; 12]);
    assert_eq!(with(&[&v[..], b"E"].concat()), Err(17));
    assert_eq!(read(&[&v[..], head, b"E"].concat()), Err(4)); // two corners at one place
    assert_eq!(with(b"GT\0\0\x01\0\x02\0\x03\0E"), Err(17));
    assert_eq!(with(b"T\0\0\x01\0\x02\0\x03\0E"), Err(5));
    assert_eq!(read(b"GE"), Err(1));
    assert_eq!(read(b"M\0\0\x01GE"), Err(1));
    assert_eq!(read(&[&good[52..61], b"E"].concat()), Err(1));
}
