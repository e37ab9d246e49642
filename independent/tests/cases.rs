//! The cases of document 01, and facts on all 64 patterns.

use independent::archive::{listing, put, read, Job};
use independent::conform::conform;
use independent::cutting::{family, CORNER_DIGIT, EDGES, MIDPOINT_DIGIT};
use independent::mesh::*;
use independent::step::step;
use std::collections::HashMap;

fn a() -> Coarse {
    examine_mesh(&[0, 0, 0, 16, 0, 0, 0, 16, 0, 0, 0, 16], &[0, 1, 2, 3]).unwrap()
}

fn table_b() -> Vec<u8> {
    vec![64, 0, 0, 0, 0, 0, 0, 0, 0]
}

fn table_c() -> Vec<u8> {
    let mut c = vec![64, 64, 11, 1, 0, 1, 0, 0, 0];
    c.extend([0; 16]);
    c
}

/// One step on mesh A with these marks.
fn step_a(table: &[u8], marked: &[(usize, u8)]) -> Vec<u8> {
    let mut marks = vec![0; table.len()];
    for &(cell, mark) in marked {
        marks[cell] = mark;
    }
    let new = step(&a(), table, &marks).unwrap();
    conform(&a(), &examine_table(&a(), &new).unwrap()).unwrap();
    new
}

fn text(pattern: u8) -> String {
    let children = family(pattern).unwrap();
    children.iter().map(|c| c.map(|d| d.to_string()).concat()).collect::<Vec<_>>().join(" ")
}

#[test]
fn families_of_the_document() {
    assert_eq!(text(0), "0479");
    assert_eq!(text(1), "0179 1479");
    assert_eq!(text(3), "0129 1249 2479");
    assert_eq!(text(7), "0123 1234 2347 3479");
    assert_eq!(text(11), "0129 1259 1459 2579");
    assert_eq!(text(33), "0178 0189 1478 1489");
    assert_eq!(text(63), "0123 1236 1256 1456 2368 2568 2578 3689");
    assert_eq!(family(64), Err(6));
    assert_eq!(family(255), Err(6));
}

/// Twice the weights of a digit's point on the local corners.
fn place(digit: u8) -> [i64; 4] {
    let mut place = [0; 4];
    for k in 0..4 {
        if CORNER_DIGIT[k] == digit as usize {
            place[k] = 2;
        }
    }
    for e in 0..6 {
        if MIDPOINT_DIGIT[e] == digit as usize {
            place[EDGES[e].0] = 1;
            place[EDGES[e].1] = 1;
        }
    }
    place
}

/// Eight times the child's share of the cell.
fn eighths(child: [u8; 4]) -> i64 {
    // Sum over all orders of the four columns.
    let rows = child.map(place);
    let mut sum = 0;
    for code in 0..256 {
        let order = [code & 3, code >> 2 & 3, code >> 4 & 3, code >> 6 & 3];
        let mut sign = 1;
        for i in 0..4 {
            for j in i + 1..4 {
                sign *= (order[j] as i64 - order[i] as i64).signum();
            }
        }
        sum += sign * (0..4).map(|i| rows[i][order[i]]).product::<i64>();
    }
    assert_eq!(sum.abs() % 2, 0);
    sum.abs() / 2
}

#[test]
fn every_family_fills_its_cell_and_fits() {
    for pattern in 0..64 {
        let children = family(pattern).unwrap();
        assert_eq!(children.iter().map(|&c| eighths(c)).sum::<i64>(), 8);
        assert!((1..=8).contains(&children.len()));
        assert_eq!(children.len() == 8, pattern == 63);
        assert!(children.windows(2).all(|w| w[0] < w[1]));
        assert!(children.iter().all(|c| c.windows(2).all(|w| w[0] < w[1])));
        // Just the corners and the midpoints of split edges are used.
        for digit in 0..10u8 {
            let corner = CORNER_DIGIT.contains(&(digit as usize));
            let split = (0..6).any(|e| pattern >> e & 1 == 1 && MIDPOINT_DIGIT[e] == digit as usize);
            assert_eq!(children.iter().flatten().any(|&d| d == digit), corner || split);
        }
        // A face within the cell is in two children, one on its boundary in one.
        let mut faces: HashMap<Vec<u8>, usize> = HashMap::new();
        for child in &children {
            for out in 0..4 {
                let face = (0..4).filter(|&k| k != out).map(|k| child[k]).collect();
                *faces.entry(face).or_insert(0) += 1;
            }
        }
        for (face, count) in faces {
            let on_boundary = (0..4).any(|k| face.iter().all(|&d| place(d)[k] == 0));
            assert_eq!(count, if on_boundary { 1 } else { 2 });
        }
        // The line on a face with two split edges, from the lower of the two
        // corners on the unsplit edge.
        for face in [[0, 1, 2], [0, 1, 3], [0, 2, 3], [1, 2, 3]] {
            let split = |a: usize, b: usize| {
                let e = EDGES.iter().position(|&e| e == (a.min(b), a.max(b))).unwrap();
                (pattern >> e & 1 == 1, MIDPOINT_DIGIT[e] as u8)
            };
            for out in 0..3 {
                let (low, high) = (face[if out == 0 { 1 } else { 0 }], face[if out == 2 { 1 } else { 2 }]);
                let third = face[out];
                let ((s, _), (s1, _), (s2, far)) = (split(low, high), split(low, third), split(high, third));
                if !s && s1 && s2 {
                    let low = CORNER_DIGIT[low] as u8;
                    assert!(children.iter().any(|c| c.contains(&low) && c.contains(&far)));
                }
            }
        }
    }
}

#[test]
fn steps_on_mesh_a() {
    assert_eq!(step_a(&[0], &[(0, 2)]), [0]);
    assert_eq!(step_a(&[0], &[(0, 1)]), table_b());
    assert_eq!(step_a(&table_b(), &[(1, 1)]), table_c());

    let new = step_a(&table_c(), &[(17, 1)]);
    assert_eq!(new[..9], [64, 64, 64, 21, 4, 11, 2, 0, 1]);
    let layout = examine_table(&a(), &new).unwrap();
    assert_eq!(counts(&layout)[2], [30, 0, 0, 30]);

    let all: Vec<(usize, u8)> = (9..17).map(|k| (k, 2)).collect();
    assert_eq!(step_a(&table_c(), &all), table_b());
    assert_eq!(step_a(&table_c(), &all[..7]), table_c());

    let mut more = all.clone();
    more.push((17, 1));
    let new = step_a(&table_c(), &more);
    assert_eq!(new[1], 56);
    assert_eq!(new[2], 64);
}

#[test]
fn the_first_family_by_name() {
    let layout = examine_table(&a(), &table_c()).unwrap();
    assert_eq!(layout.levels, 3);
    // New corners after the coarse ones: midpoints 12, 13, 14, 23, 24, 34.
    assert_eq!(layout.corners[4], [(0, 512), (1, 512)]);
    assert_eq!(layout.corners[9], [(2, 512), (3, 512)]);
    assert_eq!(layout.cells[1].corners, [0, 4, 5, 6]);
    assert_eq!(layout.cells[2].corners, [4, 5, 6, 8]);
    assert_eq!(position(&a(), &layout.corners[9]), [0.0, 8.0, 8.0]);
    assert_eq!(ancestor(&layout, 0), (0, 0));
    assert_eq!(ancestor(&layout, 17), (0, 2));
    for (number, cell) in layout.cells.iter().enumerate() {
        assert_eq!(ancestor(&layout, number), (0, cell.level as usize));
    }
    assert_eq!(layout.cells[17].parent, Some(2));
    assert!(!layout.cells[17].regular && layout.cells[16].regular);
}

#[test]
fn unsound_tables() {
    assert!(examine_table(&a(), &table_c()).is_ok());
    let with = |at: usize, status: u8| {
        let mut table = table_c();
        table[at] = status;
        examine_table(&a(), &table)
    };
    // Green instead of red with the same children; a pattern that is not held;
    // a pattern of a cell that is not regular; a number that is no status.
    assert_eq!(with(1, 63), Err(6));
    assert_eq!(with(2, 7), Err(6));
    assert_eq!(with(17, 1), Err(6));
    assert_eq!(with(17, 65), Err(6));
    assert_eq!(examine_table(&a(), &[]), Err(6));
    assert_eq!(examine_table(&a(), &[0, 0]), Err(6));
    assert_eq!(examine_table(&a(), &table_b()[..8]), Err(6));
    assert_eq!(step(&a(), &[1, 0, 0], &[9]), Err(6));
}

#[test]
fn the_third_condition_alone() {
    // Two cells on one face; the first red, its child at a shared corner red
    // too, the second closed with 11: right patterns, yet a red cell has half
    // of an edge that the green one's children have.
    let coarse = examine_mesh(
        &[0, 0, 0, 16, 0, 0, 0, 16, 0, 0, 0, 16, 0, 0, -16],
        &[0, 1, 2, 3, 0, 1, 2, 4],
    )
    .unwrap();
    let mut table = vec![64, 11];
    table.extend([64, 11, 1, 0, 1, 0, 0, 0]); // as in C
    table.extend([0; 4]); // the green cell's children
    table.extend([0; 16]);
    let layout = grow(&coarse, |_, level| Ok(table[level].to_vec())).unwrap();
    assert_eq!(layout.cells.len(), table.len());
    assert!(!sound(&layout));
    assert_eq!(examine_table(&coarse, &table), Err(6));
    assert!(conform(&coarse, &layout).is_err());
    // With the second red, and its children closed as the first's, it is sound.
    let right = step(&coarse, &[64, 11, 0, 0, 0, 0, 0, 0, 0, 0, 0, 0, 0, 0], &{
        let mut marks = [0; 14];
        marks[2] = 1;
        marks
    })
    .unwrap();
    assert_eq!(right[..2], [64, 64]);
    assert_eq!(right[2..10], [64, 11, 1, 0, 1, 0, 0, 0]);
    assert_eq!(right[10], 11);
    conform(&coarse, &examine_table(&coarse, &right).unwrap()).unwrap();
}

#[test]
fn marks_that_are_refused() {
    let b = table_b();
    assert_eq!(step(&a(), &b, &[0; 8]), Err(7));
    assert_eq!(step(&a(), &b, &[0; 10]), Err(7));
    assert_eq!(step(&a(), &b, &[0, 0, 0, 3, 0, 0, 0, 0, 0]), Err(7));
    assert_eq!(step(&a(), &b, &[2, 0, 0, 0, 0, 0, 0, 0, 0]), Err(7));
    assert_eq!(step(&a(), &b, &[0; 9]), Ok(b));
}

#[test]
fn meshlist() {
    let mut job = Job {
        positions: a().positions.concat(),
        cells: vec![0, 1, 2, 3],
        steps: vec![vec![(0, 1)], vec![(1, 1)]],
    };
    let mut bytes = Vec::new();
    for p in [[0i32, 0, 0], [16, 0, 0], [0, 16, 0], [0, 0, 16]] {
        bytes.push(b'V');
        bytes.extend(p.map(i32::to_le_bytes).concat());
    }
    bytes.extend(b"T\x00\x00\x01\x00\x02\x00\x03\x00M\x00\x00\x01GM\x01\x00\x01GE");
    assert_eq!(put(&job), bytes);
    assert_eq!(read(&bytes), Ok(job.clone()));
    let expected = "level cells red green leaf\n0 1 1 0 0\n1 8 1 3 4\n2 16 0 0 16\n";
    assert_eq!(listing(&bytes), expected.as_bytes());
    assert_eq!(listing(&bytes[1..]), b"refused 17\n");
    assert_eq!(listing(b""), b"refused 17\n");
    assert_eq!(listing(b"E"), b"refused 1\n");
    job.steps[1][0].0 = 0;
    assert_eq!(listing(&put(&job)), b"refused 7\n");
    job.cells[3] = 4;
    assert_eq!(listing(&put(&job)), b"refused 3\n");
}
