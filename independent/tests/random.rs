//! Random meshes, tables, steps and archives.

use independent::archive::{flatten, form, listing, put, read, replay, write, write_flat};
use independent::conform::conform;
use independent::mesh::*;
use independent::random::*;
use independent::step::{step, step_without_count};
use std::collections::HashMap;

#[test]
fn meshes_are_varied() {
    let mut r = Random::new(1);
    let (mut largest, mut loose, mut round, mut closed) = (0, 0, 0, 0);
    for _ in 0..2000 {
        let mesh = coarse(&mut r);
        assert_eq!(examine_mesh(&mesh.positions.concat(), &mesh.cells.concat()), Ok(mesh.clone()));
        largest = largest.max(mesh.cells.len());
        let used = |k: usize| mesh.cells.iter().flatten().any(|&c| c as usize == k);
        loose += (0..mesh.positions.len()).any(|k| !used(k)) as usize;
        let mut edges: HashMap<(u16, u16), usize> = HashMap::new();
        for c in &mesh.cells {
            for (i, j) in independent::cutting::EDGES {
                *edges.entry((c[i], c[j])).or_insert(0) += 1;
            }
        }
        round += edges.values().any(|&n| n >= 4) as usize;
        closed += face_counts(&mesh.cells).values().all(|&n| n == 2) as usize;
    }
    println!("largest {largest}, loose {loose}, round an edge {round}, closed {closed}");
    assert!(largest > 200 && loose > 500 && round > 500 && closed > 20);
}

#[test]
fn steps_keep_tables_sound() {
    let mut r = Random::new(2);
    let mut refusals = [0; 10];
    let (mut steps, mut shrunk, mut deepest, mut most, mut patterns) = (0, 0, 0, 0, [0usize; 65]);
    for _ in 0..400 {
        let mesh = coarse(&mut r);
        let mut table = vec![LEAF; mesh.cells.len()];
        for _ in 0..12 {
            let layout = examine_table(&mesh, &table).expect("sound");
            conform(&mesh, &layout).unwrap();
            assert!(layout.corners.len() <= MOST_CORNERS);
            assert_eq!(step(&mesh, &table, &vec![0; table.len()]), Ok(table.clone()));
            deepest = deepest.max(layout.levels);
            most = most.max(table.len());
            for &s in &table {
                patterns[s as usize] += 1;
            }
            let marks = marks(&mut r, &layout);
            match step(&mesh, &table, &marks) {
                Ok(new) => {
                    steps += 1;
                    shrunk += (new.len() < table.len()) as usize;
                    table = new;
                }
                Err(number) => {
                    assert!(number == 8 || number == 9);
                    refusals[number as usize] += 1;
                    if number == 9 {
                        let new = step_without_count(&mesh, &layout, &marks).unwrap();
                        assert!(new.cells.len() > MOST_CELLS && sound(&new));
                    }
                }
            }
        }
    }
    let unseen = (0..65).filter(|&s| patterns[s] == 0).count();
    println!(
        "{steps} steps, {shrunk} shrank, levels {deepest}, cells {most}, refusals {refusals:?}, {unseen} statuses unseen: {patterns:?}"
    );
    assert!(shrunk > 100 && unseen == 0 && refusals[9] > 10);
}

#[test]
fn deep_steps() {
    // One cell or few, refined again and again at the top: up to level 10.
    let mut r = Random::new(3);
    let mut refusals = [0; 10];
    for _ in 0..40 {
        let mesh = coarse_up_to(&mut r, 4);
        let mut table = vec![LEAF; mesh.cells.len()];
        for _ in 0..40 {
            let layout = examine_table(&mesh, &table).expect("sound");
            let top: Vec<usize> = (0..table.len())
                .filter(|&i| layout.cells[i].level as usize + 1 == layout.levels)
                .collect();
            let mut marks = if r.once_in(3) { marks(&mut r, &layout) } else { vec![0; table.len()] };
            marks[*r.pick(&top)] = 1;
            match step(&mesh, &table, &marks) {
                Ok(new) => table = new,
                Err(number) => refusals[number as usize] += 1,
            }
        }
        conform(&mesh, &examine_table(&mesh, &table).expect("sound")).unwrap();
    }
    println!("refusals {refusals:?}");
    assert!(refusals[8] > 10);
}

#[test]
fn damaged_tables() {
    let mut r = Random::new(4);
    let (mut answers, mut third) = ([0; 2], 0);
    for _ in 0..1500 {
        let mesh = coarse_up_to(&mut r, 12);
        let sound = sound_table(&mut r, &mesh);
        let table = damaged_table(&mut r, &mesh, &sound);
        let answer = examine_table(&mesh, &table);
        answers[answer.is_ok() as usize] += 1;
        if answer.is_err() && third_condition_alone(&mesh, &table) {
            third += 1;
        }
        match answer {
            Ok(layout) => {
                assert_eq!(independent::mesh::table(&layout), table);
                conform(&mesh, &layout).unwrap();
            }
            Err(number) => assert_eq!(number, 6),
        }
        if answers[0] % 3 == 0 {
            assert!(examine_table(&mesh, &sound).is_ok());
        }
    }
    println!("refused {} ({third} by the third condition alone), sound {}", answers[0], answers[1]);
    assert!(answers[0] > 500 && answers[1] > 50 && third > 30);
}

/// Whether length, limits and patterns are right.
fn third_condition_alone(mesh: &Coarse, table: &[u8]) -> bool {
    let right = grow(mesh, |cells, level| {
        let statuses = table.get(level.clone()).ok_or(6)?.to_vec();
        let too_deep = cells[level.start].level == TOP_LEVEL && statuses.iter().any(|&s| s != LEAF);
        if too_deep || close(cells, level.clone(), |i| table[i] == RED && cells[i].regular) != statuses {
            return Err(6);
        }
        Ok(statuses)
    });
    right.map_or(false, |layout| layout.cells.len() == table.len()) && table.len() <= MOST_CELLS
}

#[test]
fn damaged_marks_and_meshes() {
    let mut r = Random::new(5);
    let mut numbers = [0; 10];
    for _ in 0..1500 {
        let mesh = coarse_up_to(&mut r, 12);
        let table = sound_table(&mut r, &mesh);
        let layout = examine_table(&mesh, &table).unwrap();
        let marks = damaged_marks(&mut r, &layout);
        numbers[step(&mesh, &table, &marks).err().unwrap_or(0) as usize] += 1;
        let (positions, cells) = damaged_mesh(&mut r, &mesh);
        numbers[examine_mesh(&positions, &cells).err().unwrap_or(0) as usize] += 1;
    }
    println!("{numbers:?}");
    assert!((1..=5).all(|k| numbers[k] > 20) && numbers[7] > 500 && numbers[0] > 100);
}

#[test]
fn archives_go_there_and_back() {
    let mut r = Random::new(6);
    let mut numbers = [0; 18];
    for _ in 0..400 {
        let job = job(&mut r);
        let bytes = write(&job).unwrap();
        assert_eq!(read(&bytes), Ok(job.clone()));
        assert_eq!(write_flat(&flatten(&job)).as_ref(), Ok(&bytes));
        let (mesh, table) = replay(&bytes).unwrap();
        let layout = examine_table(&mesh, &table).unwrap();
        let lines = String::from_utf8(listing(&bytes)).unwrap();
        assert_eq!(lines.lines().count(), 1 + layout.levels);

        for _ in 0..3 {
            let bytes = damaged_archive(&mut r, &job);
            let answer = read(&bytes);
            assert_eq!(form(&bytes).is_none(), answer == Err(17));
            assert_eq!(replay(&bytes).err(), answer.clone().err());
            match answer {
                Ok(job) => {
                    numbers[0] += 1;
                    assert_eq!(write(&job), Ok(bytes));
                }
                Err(number) => {
                    numbers[number as usize] += 1;
                    assert_eq!(listing(&bytes), format!("refused {number}\n").into_bytes());
                }
            }
        }
        let damaged = damaged_job(&mut r, &job);
        assert_eq!(write_flat(&flatten(&damaged)), write(&damaged));
        match write(&damaged) {
            Ok(bytes) => assert_eq!(read(&bytes), Ok(damaged)),
            Err(number) => {
                numbers[number as usize] += 1;
                let reading = read(&put(&damaged)).err();
                assert!(reading == Some(number) || reading == Some(17) || number == 1);
            }
        }
    }
    println!("{numbers:?}");
    assert!(numbers[8] > 10 && numbers[9] > 10);
    assert!(numbers[0] > 50 && numbers[7] > 50 && numbers[17] > 300);
    assert!((1..=5).map(|k| numbers[k]).sum::<usize>() > 50);
}
