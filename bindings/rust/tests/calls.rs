//! The cases of document 01 through the wrapper, and what a refusal leaves.

use yuccadice::*;

/// Mesh A: one cell.
fn mesh_a() -> Mesh {
    Mesh { positions: vec![0, 0, 0, 16, 0, 0, 0, 16, 0, 0, 0, 16], cells: vec![0, 1, 2, 3] }
}

fn marked(length: usize, cells: &[usize], mark: u8) -> Vec<u8> {
    (0..length).map(|k| if cells.contains(&k) { mark } else { 0 }).collect()
}

fn case_b() -> Vec<u8> {
    step(&mesh_a(), &[LEAF], &[REFINE]).unwrap()
}

fn case_c() -> Vec<u8> {
    step(&mesh_a(), &case_b(), &marked(9, &[1], REFINE)).unwrap()
}

#[test]
fn families() {
    assert_eq!(cut(1).unwrap(), [[0, 1, 7, 9], [1, 4, 7, 9]]);
    assert_eq!(cut(63).unwrap().len(), 8);
    assert_eq!(cut(0).unwrap(), [[0, 4, 7, 9]]);
    assert_eq!(cut(64), Err(Refusal::STATUS));
}

#[test]
fn steps() {
    let a = mesh_a();
    assert_eq!(step(&a, &[LEAF], &[DELETE]).unwrap(), [LEAF]);
    assert_eq!(case_b(), [64, 0, 0, 0, 0, 0, 0, 0, 0]);
    let c = case_c();
    assert_eq!(c[..9], [64, 64, 11, 1, 0, 1, 0, 0, 0]);
    assert_eq!(c[9..], [0; 16]);
    let d = step(&a, &c, &marked(25, &[17], REFINE)).unwrap();
    assert_eq!(d[..9], [64, 64, 64, 21, 4, 11, 2, 0, 1]);
    assert_eq!(d.len(), 39);
    let family: Vec<usize> = (9..17).collect();
    assert_eq!(step(&a, &c, &marked(25, &family, DELETE)).unwrap(), case_b());
    assert_eq!(step(&a, &c, &marked(25, &family[..7], DELETE)).unwrap(), c);
    let mut marks = marked(25, &family, DELETE);
    marks[17] = REFINE;
    assert_eq!(step(&a, &c, &marks).unwrap()[1], 56);
}

#[test]
fn layouts() {
    let (a, c) = (mesh_a(), case_c());
    assert_eq!(examine_mesh(&a), Ok(()));
    assert_eq!(examine_table(&a, &c), Ok(()));
    let layout = lay_out(&a, &c).unwrap();
    assert_eq!((layout.cells.len(), layout.ends.len(), layout.levels), (25, 16, 3));
    assert_eq!(layout.cells[0], Cell { level: 0, parent: None, child: 0, regular: true, corners: [0, 1, 2, 3] });
    assert_eq!(layout.cells[17].parent, Some(2));
    assert!(!layout.cells[17].regular);
    assert_eq!(layout.ends[4], [0, 1]);
    assert_eq!(layout.position(7), Ok([8.0, 8.0, 0.0]));
    assert_eq!(layout.position(16), Err(Refusal::MARKS));
    assert_eq!(ancestor(&a, &c, 24), Ok((0, 2)));
    assert_eq!(ancestor(&a, &c, 25), Err(Refusal::MARKS));
}

/// Corners are matched by weights; no two corners of mesh A's tables lie at one place, so positions tell the same.
#[test]
fn corners_that_stay() {
    let a = mesh_a();
    let (b, c) = (lay_out(&a, &case_b()).unwrap(), lay_out(&a, &case_c()).unwrap());
    assert_eq!(c.weights()[4], [(0, 512), (1, 512)]);
    assert!(c.weights().iter().all(|weights| weights.iter().map(|w| w.1).sum::<u16>() == 1024));
    assert_eq!(match_corners(&b, &c), (0..16).map(|k| (k < 10).then_some(k)).collect::<Vec<_>>());
    assert_eq!(match_corners(&c, &b), (0..10).map(Some).collect::<Vec<_>>());

    // Cell 2 of B is refined, which closes cell 1; then a child of cell 1 is marked and cell 1 turns red: its new corners stand before those that stay.
    let first = step(&a, &case_b(), &marked(9, &[2], REFINE)).unwrap();
    let second = step(&a, &first, &marked(first.len(), &[9], REFINE)).unwrap();
    let (old, new) = (lay_out(&a, &first).unwrap(), lay_out(&a, &second).unwrap());
    assert!(old.cells[9].parent == Some(1) && second[1] == RED);
    let place = |layout: &Layout, corner| layout.position(corner).unwrap();
    let matched = match_corners(&old, &new);
    let mut renumbered = 0;
    for (corner, was) in matched.iter().enumerate() {
        let there = (0..old.ends.len()).find(|&k| place(&old, k) == place(&new, corner));
        assert_eq!(*was, there);
        renumbered += was.is_some_and(|was| was != corner) as usize;
    }
    assert!(renumbered > 0);
}

#[test]
fn refusals() {
    let mut mesh = mesh_a();
    mesh.positions[0] = 500_000;
    assert_eq!(examine_mesh(&mesh), Ok(()));
    mesh.positions[0] = 500_001;
    assert_eq!(examine_mesh(&mesh), Err(Refusal::RANGE));
    assert_eq!(examine_mesh(&Mesh::default()), Err(Refusal::COUNTS));
    assert_eq!(examine_table(&mesh_a(), &[63]), Err(Refusal::STATUS));
    assert_eq!(step(&mesh_a(), &[LEAF], &[3]), Err(Refusal::MARKS));
    let mut flat = mesh_a();
    flat.positions[11] = 0;
    assert_eq!(examine_mesh(&flat), Err(Refusal::FLAT));
    assert_eq!(Refusal::FLAT.to_string(), "refused 4: a flat cell");
    assert_eq!(Refusal(18).to_string(), "refused 18: no answer of this library");
}

#[test]
fn a_short_table_stays_as_it_was() {
    let (a, c) = (mesh_a(), case_c());
    let (mut table, mut count) = (vec![7; STATUS_LENGTH - 1], 77);
    assert_eq!(lent::step(&a.positions, &a.cells, &c, &[0; 25], &mut table, &mut count), 15);
    assert!(table.iter().all(|&b| b == 7) && count == 77);
    table.push(7);
    assert_eq!(lent::step(&a.positions, &a.cells, &c, &[0; 25], &mut table, &mut count), 0);
    assert!(table[..25] == c && table[25..].iter().all(|&b| b == 7) && count == 25);
}

#[test]
fn archives() {
    let job = Job { mesh: mesh_a(), steps: vec![vec![(0, REFINE)], vec![(1, REFINE)], vec![]] };
    let bytes = write(&job).unwrap();
    assert_eq!(bytes.len(), 4 * 13 + 9 + 4 + 1 + 4 + 1 + 1 + 1);
    assert_eq!(read(&bytes), Ok(job.clone()));
    let (table, levels) = replay(&bytes).unwrap();
    assert_eq!(table, case_c());
    let rows: Vec<[u16; 4]> = levels.iter().map(|l| [l.cells, l.red, l.green, l.leaves]).collect();
    assert_eq!(rows, [[1, 1, 0, 0], [8, 1, 3, 4], [16, 0, 0, 16]]);
    assert_eq!(levels, counts(&job.mesh, &table).unwrap());
    assert_eq!(replay(&bytes[1..]), Err(Refusal::FORM));
    assert_eq!(read(b"E"), Err(Refusal::COUNTS));

    let refused = |steps| write(&Job { steps, ..job.clone() }).unwrap_err();
    assert_eq!(refused(vec![vec![(1, REFINE)]]), Refusal::MARKS);
    assert_eq!(refused(vec![vec![(0, REFINE)], vec![(2, REFINE), (1, REFINE)]]), Refusal::MARKS);
    assert_eq!(refused(vec![vec![]; 65_536]), Refusal::FORM);
    // More marks than the library can be told of.
    assert_eq!(refused(vec![vec![(0, DELETE)]; 70_000]), Refusal::FORM);
    assert_eq!(refused(vec![vec![(0, REFINE)]; 70_000]), Refusal::MARKS);
}

/// The lengths here, in the header and in the documentation.
#[test]
fn lengths_are_the_same_everywhere() {
    let header = include_str!("../../../include/yuccadice.h");
    let documentation = include_str!("../../../docs/LIBRARY.md");
    let lengths = [
        ("DIGITS", DIGITS_LENGTH),
        ("TABLE", TABLE_LENGTH),
        ("ENDS", ENDS_LENGTH),
        ("SUMS", SUMS_LENGTH),
        ("COUNTS", COUNTS_LENGTH),
        ("STATUS", STATUS_LENGTH),
        ("POSITIONS", POSITIONS_LENGTH),
        ("COARSE_CELLS", COARSE_CELLS_LENGTH),
        ("MARKED", MARKED_LENGTH),
        ("MARKS", MARKS_LENGTH),
        ("STEP_ENDS", STEP_ENDS_LENGTH),
        ("BYTES", BYTES_LENGTH),
        ("STORE", STORE_LENGTH),
        ("STORES", STORES_LENGTH),
        ("MESSAGE", MESSAGE_LENGTH),
        ("HELD", HELD_LENGTH),
    ];
    let numbers_in = |line: &str| line.chars().filter(|&c| c != ',').collect::<String>();
    for (name, length) in lengths {
        assert!(header.contains(&format!("#define YD_{name}_LENGTH {length} ")), "{name}");
        let row = documentation.lines().find(|l| l.starts_with(&format!("| `YD_{name}_LENGTH` |"))).expect(name);
        assert!(numbers_in(row).contains(&format!(" | {length} | ")), "{name}");
    }
    assert_eq!(header.lines().filter(|l| l.starts_with("#define YD_") && l.contains("_LENGTH ")).count(), lengths.len());
}

#[test]
fn split_jobs() {
    use yuccadice::parts::{merge, split, Held, Stage, Store};
    // B on two parts, the coarse cell with part 1 and its family with part 2, all eight marked 2: part 2 is left empty.
    let (a, b, owners) = (mesh_a(), case_b(), [1, 2, 2, 2, 2, 2, 2, 2, 2]);
    assert_eq!(split(&a, &b, 17, &owners), Err(Refusal::PARTS));
    assert_eq!(split(&a, &b, 1, &owners), Err(Refusal::OWNERS));
    let mut stores = split(&a, &b, 2, &owners).unwrap();
    assert_eq!(stores.len(), 2);
    assert_eq!(stores[0].stage(), Err(Refusal::STORE));
    assert_eq!(stores[0].start(&[]), Err(Refusal::MARKS));
    assert_eq!(stores[0].start(&[0]), Ok(()));
    assert_eq!(stores[1].start(&[DELETE; 8]), Ok(()));
    assert_eq!(stores[0].stage(), Ok(Stage::Running(0)));
    assert_eq!((stores[0].part_step(), stores[0].held()), (Err(Refusal::STORE), Err(Refusal::STORE)));
    for _ in 0..5 {
        for k in 0..2 {
            while let Some(message) = stores[k].fetch().unwrap() {
                assert_eq!((message.sender(), message.receiver()), (k as u8 + 1, 2 - k as u8));
                assert_eq!(stores[k].hand_over(message.bytes()), Err(Refusal::MESSAGE));
                assert_eq!(stores[1 - k].hand_over(message.bytes()), Ok(()));
                assert_eq!(stores[1 - k].hand_over(message.bytes()), Err(Refusal::TAKEN));
            }
        }
        assert!(stores.iter_mut().all(|store| store.part_step().is_ok()));
    }
    assert!(stores.iter().all(|store| store.stage() == Ok(Stage::Done(Ok(())))));
    assert_eq!(stores[0].hand_over(&[4, 2, 1, 99, 0]), Err(Refusal::EARLY));
    assert_eq!(stores[0].held(), Ok(vec![Held { ghost: false, status: LEAF, coarse: 0, children: vec![] }]));
    assert_eq!(stores[1].held(), Ok(vec![]));
    assert_eq!(merge(&stores), Ok(vec![LEAF]));
    assert_eq!(merge(&stores[..1]), Err(Refusal::STORE));
    stores.swap(0, 1);
    assert_eq!(merge(&stores), Ok(vec![LEAF]));
    assert_eq!(Store::from_numbers(stores[0].numbers()[1..].to_vec()).part_step(), Err(Refusal::SHORT));
}
