//! Writes the cases of the program try_archives and the lines that it must print.
//!
//!     archive_cases INPUT LINES [SEED]
//!
//! A case is a header of two u16 and five u32 numbers, least byte first, and five lists whose lengths the five are. The first
//! number is 1 for an archive, whose bytes are the first list, and 2 for a job, whose lists are coordinates (i32), corner
//! numbers (u16), marked cells (u16), marks (bytes) and ends of steps (u16); 65,535 ends the input. The second number tells which
//! lent table is short by one, 0 for none: of an archive the five of `read` are 1 to 5 and the two of `replay` 6 and 7, of a job
//! the table of `write` is 1.
//!
//! An archive has its listing, and then two lines or three. `read`: the refusal's number, 0 where it is accepted; how many
//! corners, cells, marks and steps, 0 where it is refused; checksums of the five whole tables that were lent. Where it is
//! accepted, the job that was read is written: a line as for a job. `replay`: the refusal's number or 0, how many cells and
//! levels, checksums of both tables. A job has one line, of `write`: the refusal's number or 0, how many bytes, a checksum of the
//! whole table.

use independent::archive::*;
use independent::mesh::*;
use independent::random::*;
use independent::step::step;
use independent::trial::*;
use independent::Refusal;
use std::collections::{BTreeMap, BTreeSet};

/// Full lengths of the lent tables.
const POSITIONS: usize = 1536;
const CELLS: usize = 1024;
const MARKS: usize = 16_384;
const ENDS: usize = 65_536;
const COUNTS: usize = 44;

/// The most bytes of an archive, and numbers of each list of a job, that the program takes.
const MOST_ARCHIVE: usize = 70_000;
const MOST_LISTS: [usize; 5] = [2000, 2000, 20_000, 20_000, 70_000];

/// The document's example: A, M(0,1), G, M(1,1), G, E.
fn example() -> Job {
    Job { positions: A.to_vec(), cells: vec![0, 1, 2, 3], steps: vec![vec![(0, 1)], vec![(1, 1)]] }
}

enum Case {
    Archive(Vec<u8>),
    Job(Flat),
}

/// For each kind of case how often each refusal was met; 0 is accepted.
type Met = BTreeMap<String, BTreeMap<Refusal, usize>>;

struct Cases {
    r: Random,
    /// The kind, the case, and which table is short.
    all: Vec<(String, Case, usize)>,
}

impl Cases {
    fn archive(&mut self, kind: &str, bytes: Vec<u8>) {
        self.all.push((format!("archive, {kind}"), Case::Archive(bytes), 0));
    }

    fn job(&mut self, kind: &str, flat: Flat) {
        self.all.push((format!("job, {kind}"), Case::Job(flat), 0));
    }

    /// A random job of few bytes.
    fn small(&mut self, most_bytes: usize) -> Job {
        loop {
            let job = job(&mut self.r);
            if put(&job).len() <= most_bytes {
                return job;
            }
        }
    }

    /// The same with a step that has marks.
    fn marked(&mut self, most_bytes: usize) -> Job {
        loop {
            let job = self.small(most_bytes);
            if job.steps.iter().any(|marked| !marked.is_empty()) {
                return job;
            }
        }
    }
}

// ------------------------------------------------------------ expected lines

/// The refusal's number, or 0.
fn number<T>(answer: &Result<T, Refusal>) -> Refusal {
    answer.as_ref().err().copied().unwrap_or(0)
}

fn push(lines: &mut String, line: Line) {
    lines.push_str(&(line.fields.join(" ") + "\n"));
}

fn write_line(lines: &mut String, answer: &Result<Vec<u8>, Refusal>) {
    let mut line = Line::default();
    line.answer(answer, &[answer.as_ref().map_or(0, Vec::len)]);
    line.number(checksum_bytes(&over(bytes(MOST_BYTES), answer.as_deref().unwrap_or(&[]))));
    push(lines, line);
}

fn archive_lines(archive: &[u8], short: usize, lines: &mut String) -> Refusal {
    lines.push_str(std::str::from_utf8(&listing(archive)).expect("a listing is text"));
    let long = read(archive);
    let job = if (1..=5).contains(&short) { Err(15) } else { long.clone() };
    let tables = job.as_ref().map(flatten).unwrap_or_default();
    let mut line = Line::default();
    let sizes = [tables.positions.len() / 3, tables.cells.len() / 4, tables.marks.len(), tables.ends.len()];
    line.answer(&job, &sizes);
    line.number(checksum_signed(&over(signed(POSITIONS), &tables.positions)));
    line.number(checksum_words(&over(words(CELLS), &tables.cells)));
    line.number(checksum_words(&over(words(MARKS), &tables.marked)));
    line.number(checksum_bytes(&over(bytes(MARKS), &tables.marks)));
    line.number(checksum_words(&over(words(ENDS), &tables.ends)));
    push(lines, line);
    if job.is_ok() {
        let again = write_flat(&tables);
        assert_eq!(again.as_deref(), Ok(archive));
        write_line(lines, &again);
    }
    let replayed = if short >= 6 { Err(15) } else { replay(archive) };
    let (mut table, mut numbers, mut levels) = (Vec::new(), Vec::new(), 0);
    if let Ok((coarse, status)) = &replayed {
        let layout = examine_table(coarse, status).expect("steps give a sound table");
        numbers = counts(&layout).into_iter().flatten().map(|n| n as u16).collect();
        levels = layout.levels;
        table.clone_from(status);
    }
    let mut line = Line::default();
    line.answer(&replayed, &[table.len(), levels]);
    line.number(checksum_bytes(&over(bytes(MOST_CELLS), &table)));
    line.number(checksum_words(&over(words(COUNTS), &numbers)));
    push(lines, line);
    number(&long)
}

fn job_line(flat: &Flat, short: usize, lines: &mut String) -> Refusal {
    let long = write_flat(flat);
    write_line(lines, if short == 0 { &long } else { &Err(15) });
    number(&long)
}

fn case_bytes(case: &Case, short: usize) -> Vec<u8> {
    let (kind, lengths) = match case {
        Case::Archive(bytes) => (1u16, [bytes.len(), 0, 0, 0, 0]),
        Case::Job(f) => (2, [f.positions.len(), f.cells.len(), f.marked.len(), f.marks.len(), f.ends.len()]),
    };
    let mut out = Vec::new();
    out.extend(kind.to_le_bytes());
    out.extend((short as u16).to_le_bytes());
    out.extend(lengths.iter().flat_map(|&n| (n as u32).to_le_bytes()));
    match case {
        Case::Archive(bytes) => {
            assert!(bytes.len() <= MOST_ARCHIVE);
            out.extend(bytes);
        }
        Case::Job(f) => {
            assert!(lengths.iter().zip(MOST_LISTS).all(|(&n, most)| n <= most));
            out.extend(f.positions.iter().flat_map(|x| x.to_le_bytes()));
            out.extend(f.cells.iter().chain(&f.marked).flat_map(|x| x.to_le_bytes()));
            out.extend(&f.marks);
            out.extend(f.ends.iter().flat_map(|x| x.to_le_bytes()));
        }
    }
    out
}

// ----------------------------------------------------------------- archives

/// The document's example, every bit of it flipped, and every way to cut it short.
fn example_cases(cases: &mut Cases) {
    let bytes = put(&example());
    let expected = "level cells red green leaf\n0 1 1 0 0\n1 8 1 3 4\n2 16 0 0 16\n";
    assert_eq!(listing(&bytes), expected.as_bytes());
    cases.archive("the document's example", bytes.clone());
    for k in 0..8 * bytes.len() {
        let mut flipped = bytes.clone();
        flipped[k / 8] ^= 1 << (k % 8);
        cases.archive("a bit of the example flipped", flipped);
    }
    for k in 0..bytes.len() {
        cases.archive("the example cut short", bytes[..k].to_vec());
    }
}

/// So many random jobs; half of them with empty steps put in.
fn random_jobs(cases: &mut Cases, count: usize, most_bytes: usize) {
    for k in 0..count {
        let mut job = cases.small(most_bytes);
        if k % 2 == 0 {
            cases.archive("random job", put(&job));
            cases.job("random job", flatten(&job));
            continue;
        }
        for _ in 0..1 + cases.r.below(6) {
            let at = cases.r.below(job.steps.len() + 1);
            job.steps.insert(at, Vec::new());
        }
        cases.archive("empty steps", put(&job));
        cases.job("empty steps", flatten(&job));
    }
}

/// Jobs with a fault in the mesh or in the steps, so many for each refusal, as archives and to be written.
fn damaged_jobs(cases: &mut Cases, count: usize) {
    let wanted = [1, 2, 3, 4, 5, 7, 8, 9];
    let mut found = [[0; 18]; 2];
    while wanted.iter().any(|&k| found.iter().any(|f| f[k] < count)) {
        let sound = cases.small(1500);
        let job = damaged_job(&mut cases.r, &sound);
        let (bytes, tables) = (put(&job), flatten(&job));
        if bytes.len() > 4000 {
            continue;
        }
        let n = &mut found[0][number(&read(&bytes)) as usize];
        *n += 1;
        if *n <= count {
            cases.archive("damaged job", bytes);
        }
        let n = &mut found[1][number(&write_flat(&tables)) as usize];
        *n += 1;
        if *n <= count {
            cases.job("damaged job", tables);
        }
    }
}

/// The bytes of random jobs with faults of many kinds, mostly outside the form.
fn damaged_archives(cases: &mut Cases, count: usize) {
    for _ in 0..count {
        let job = cases.small(1500);
        let bytes = damaged_archive(&mut cases.r, &job);
        if bytes.len() < 3000 {
            cases.archive("damaged bytes", bytes);
        }
        let mut bytes = put(&job);
        let k = cases.r.below(bytes.len());
        bytes[k] ^= 1 << cases.r.below(8);
        cases.archive("a bit flipped", bytes);
        let mut bytes = put(&job);
        bytes.truncate(cases.r.below(bytes.len()));
        cases.archive("cut short", bytes);
    }
}

/// Each way to be outside the form by itself, and few bytes that are in the form.
fn forms(cases: &mut Cases, count: usize) {
    let mark = |cell: u16, mark: u8| [&b"M"[..], &cell.to_le_bytes(), &[mark]].concat();
    for _ in 0..count {
        let job = cases.marked(1200);
        let bytes = put(&job);
        let before_end = bytes[..bytes.len() - 1].to_vec();
        let r = &mut cases.r;

        let more = match r.below(4) {
            0 => vec![b'E'],
            1 => vec![r.below(256) as u8],
            2 => bytes.clone(),
            _ => (0..1 + r.below(9)).map(|_| r.below(256) as u8).collect(),
        };
        let after_end = [bytes.clone(), more].concat();
        let late = mark(r.below(3) as u16, 1 + r.below(2) as u8);
        let late_mark = [before_end.clone(), late.clone(), vec![b'E']].concat();
        let no_step = Job { steps: Vec::new(), ..job.clone() };
        let no_step = put(&no_step);
        let lone_mark = [&no_step[..no_step.len() - 1], &late, b"E"].concat();

        // In a step with marks: one again, or one that is less.
        let full: Vec<usize> = (0..job.steps.len()).filter(|&k| !job.steps[k].is_empty()).collect();
        let mut falling = job.clone();
        let marked = &mut falling.steps[*r.pick(&full)];
        let at = r.below(marked.len());
        let lower = if r.once_in(2) { 0 } else { r.below(1 + marked[at].0 as usize) as u16 };
        let again = (*r.pick(&[marked[at].0, lower]), 1 + r.below(2) as u8);
        marked.insert(at + 1, again);
        let mut odd = job.clone();
        let marked = &mut odd.steps[*r.pick(&full)];
        let at = r.below(marked.len());
        marked[at].1 = *r.pick(&[0, 3, 4, 128, 255]);

        // A record where its letter may not stand.
        let corner = [&b"V"[..], &[0; 12]].concat();
        let cell = [&b"T"[..], &[0, 0, 1, 0, 2, 0, 3, 0]].concat();
        let after_corners = 13 * (job.positions.len() / 3);
        let after_cells = after_corners + 9 * (job.cells.len() / 4);
        let (at, record) = match r.below(5) {
            0 => (after_cells, corner),
            1 => (after_corners + 9, corner),
            2 => (before_end.len(), corner),
            3 => (before_end.len(), cell),
            _ => (after_corners, mark(0, 1)),
        };
        let order = [&bytes[..at], &record, &bytes[at..]].concat();
        let letter = [before_end.clone(), vec![*r.pick(b"vtmge\0\xff0 \n")], vec![b'E']].concat();

        for (kind, bytes) in [
            ("bytes after E", after_end),
            ("M after the last G", late_mark),
            ("M without a G", lone_mark),
            ("marks not ascending", put(&falling)),
            ("a mark that is not 1 or 2", put(&odd)),
            ("records out of order", order),
            ("unknown letter", letter),
            ("no E", before_end),
        ] {
            assert_eq!(read(&bytes), Err(17), "{kind}");
            cases.archive(kind, bytes);
        }
    }
    for bytes in [&b""[..], b"E", b"G", b"GE", b"GGGE", b"EE", b"V", b"VE", b"TE", b"ME", b"GM", b"M\0\0\x01E", b"M\0\0\x01GE"] {
        cases.archive("few bytes", bytes.to_vec());
    }
    let corner = [&b"V"[..], &[0; 12]].concat();
    let cell = [&b"T"[..], &[0, 0, 1, 0, 2, 0, 3, 0]].concat();
    cases.archive("few bytes", [&corner[..], b"E"].concat());
    cases.archive("few bytes", [&cell[..], b"E"].concat());
    cases.archive("few bytes", [&corner[..], &cell, b"E"].concat());
}

/// Two faults: the form comes before the mesh, and the mesh before the steps.
fn two_faults(cases: &mut Cases, count: usize) {
    let mut done = 0;
    while done < count {
        let mut job = cases.marked(800);
        let coarse = examine_mesh(&job.positions, &job.cells).expect("a sound job");
        (job.positions, job.cells) = damaged_mesh(&mut cases.r, &coarse);
        job.steps.push(vec![(60_000, 1)]);
        let mut bytes = put(&job);
        if bytes.len() > 2000 || !matches!(read(&bytes), Err(1..=5)) {
            continue;
        }
        done += 1;
        cases.archive("mesh and steps wrong", bytes.clone());
        cases.job("mesh and steps wrong", flatten(&job));
        bytes.pop();
        cases.archive("form and mesh wrong", bytes);
    }
    for k in 0..count {
        let sound = cases.small(300);
        let mut job = too_far(&mut cases.r, &sound);
        if put(&job).len() > 6000 {
            continue;
        }
        job.steps.push(vec![(60_000, 2)]);
        if k % 2 == 0 {
            cases.archive("too far, then 7", put(&job));
            cases.job("too far, then 7", flatten(&job));
        } else {
            let at = cases.r.below(job.steps.len());
            job.steps.insert(at, vec![(60_000, 2)]);
            cases.archive("7, then too far", put(&job));
            cases.job("7, then too far", flatten(&job));
        }
    }
}

/// A job of so many bytes on this mesh: steps that mark these cells with 2, which does nothing to coarse cells, and then empty
/// steps.
fn of_size(positions: &[i32], cells: &[u16], marked: usize, bytes: usize) -> Job {
    let mut job = Job { positions: positions.to_vec(), cells: cells.to_vec(), steps: Vec::new() };
    let mut left = bytes - put(&job).len();
    let one = 4 * marked + 1;
    while marked > 0 && left >= one {
        job.steps.push((0..marked as u16).map(|k| (k, 2)).collect());
        left -= one;
    }
    job.steps.extend(vec![Vec::new(); left]);
    assert_eq!(put(&job).len(), bytes);
    job
}

/// 65,536 bytes and about so many, right and wrong.
fn byte_limits(cases: &mut Cases) {
    let one = [0, 1, 2, 3];
    let many = (corners(512), apart(256));
    for bytes in [65_535, 65_536, 65_537] {
        let kind = format!("{bytes} bytes");
        let empty = of_size(&A, &one, 0, bytes);
        let full = of_size(&many.0, &many.1, 256, bytes);
        let lone = of_size(&A, &one, 1, bytes);
        for job in [&empty, &full, &lone] {
            // The archive of empty steps alone is the longest to replay.
            if bytes >= 65_536 || job == &full {
                cases.archive(&kind, put(job));
                cases.job(&kind, flatten(job));
            }
        }
        // Wrong as well: a flat cell, and a last step on a cell that is not there.
        let mut flat_cell = full.clone();
        flat_cell.positions.copy_within(0..3, 3);
        let mut no_cell = full.clone();
        let last = no_cell.steps.iter_mut().rfind(|marked| !marked.is_empty()).expect("a step with marks");
        last[255].0 = 256;
        if bytes >= 65_536 {
            for job in [&flat_cell, &no_cell] {
                cases.archive(&format!("{kind}, mesh or step wrong"), put(job));
                cases.job(&format!("{kind}, mesh or step wrong"), flatten(job));
            }
        }
    }
    cases.archive("70,000 bytes", put(&of_size(&A, &one, 0, 70_000)));
    cases.archive("70,000 bytes", vec![b'V'; 70_000]);
    cases.archive("65,536 bytes that are no records", vec![b'V'; 65_536]);
    cases.job("20,000 marks", flatten(&of_size(&many.0, &many.1, 200, 81_000)));
    cases.job("70,000 ends", flatten(&Job { steps: vec![Vec::new(); 70_000], ..example() }));
}

/// Most corners, cells and levels, and one more.
fn mesh_limits(cases: &mut Cases) {
    for (corner_count, cell_count) in [(512, 256), (513, 256), (512, 257), (4, 1), (3, 1), (4, 0), (0, 0)] {
        let cells = if cell_count == 1 { vec![0, 1, 2, 3] } else { apart(cell_count) };
        let job = Job { positions: corners(corner_count), cells, steps: vec![vec![]] };
        cases.archive("counts of the mesh", put(&job));
        cases.job("counts of the mesh", flatten(&job));
    }
    for far in [500_000, 500_001, -500_000, -500_001, i32::MAX, i32::MIN] {
        let mut job = example();
        job.positions[cases.r.below(3)] = far;
        cases.archive("far positions", put(&job));
        cases.job("far positions", flatten(&job));
    }
    // 256 cells apart, each red: 2,304 cells. Each first child red adds 16.
    let (positions, cells) = (corners(512), apart(256));
    for (count, answer) in [(112, Ok(MOST_CELLS)), (113, Err(9))] {
        let all = (0..256).map(|k| (k, 1)).collect();
        let firsts = (0..count).map(|k| (256 + 8 * k, 1)).collect();
        let job = Job { positions: positions.clone(), cells: cells.clone(), steps: vec![all, firsts] };
        assert_eq!(replay(&put(&job)).map(|(_, table)| table.len()), answer);
        cases.archive("4,096 and 4,097 cells", put(&job));
        cases.job("4,096 and 4,097 cells", flatten(&job));
    }
    // One cell of the top level, again and again.
    let (mut job, coarse) = (example(), examine_mesh(&A, &[0, 1, 2, 3]).unwrap());
    job.steps.clear();
    let mut table = vec![LEAF];
    loop {
        let layout = examine_table(&coarse, &table).unwrap();
        let at = layout.cells.iter().position(|c| c.level as usize + 1 == layout.levels).unwrap();
        job.steps.push(vec![(at as u16, 1)]);
        cases.archive("levels to 10 and 11", put(&job));
        cases.job("levels to 10 and 11", flatten(&job));
        match step(&coarse, &table, &marks_at(table.len(), [at])) {
            Ok(new) => table = new,
            Err(refusal) => break assert_eq!((refusal, layout.levels), (8, 11)),
        }
    }
    // Marks on refined cells, and on the first cell that is not there.
    for marked in [(0, 1), (0, 2), (1, 1), (24, 1), (25, 1), (25, 2), (65_535, 1)] {
        let mut job = example();
        job.steps.push(vec![marked]);
        cases.archive("one mark after the example", put(&job));
        cases.job("one mark after the example", flatten(&job));
    }
}

// ------------------------------------------------------- flat tables that do not fit

fn flat_faults(cases: &mut Cases, count: usize) {
    for k in 0..count {
        let job = cases.marked(1200);
        let right = flatten(&job);
        let n = right.marks.len();
        let r = &mut cases.r;
        let mut made: Vec<(&str, Flat)> = Vec::new();

        let mut f = right.clone();
        match r.below(4) {
            0 => f.marked.push(60_000),
            1 => f.marks.push(1),
            2 => f.marked.truncate(r.below(n)),
            _ => f.marks.truncate(r.below(n)),
        }
        made.push(("marked and marks differ in number", f));

        let mut f = right.clone();
        let at = f.ends.iter().position(|&e| e > 0).expect("a step with marks");
        f.ends.insert(at + 1, r.below(f.ends[at] as usize) as u16);
        made.push(("end before start", f));

        let mut f = right.clone();
        let at = r.below(f.ends.len());
        f.ends[at] = n as u16 + 1 + *r.pick(&[0, 1, 5, 60_000]);
        made.push(("end behind the last mark", f));

        let mut f = right.clone();
        match r.below(3) {
            0 => f.ends.clear(),
            1 => {
                f.marked.push(0);
                f.marks.push(2);
            }
            _ => {
                let last = f.ends.iter().rposition(|&e| (e as usize) < n);
                f.ends.truncate(last.map_or(0, |k| k + 1));
            }
        }
        made.push(("marks behind the last step", f));

        let mut f = right.clone();
        let at = r.below(n);
        f.marks[at] = *r.pick(&[0, 3, 4, 255]);
        made.push(("a mark that is not 1 or 2", f));

        let full: Vec<usize> = (0..job.steps.len()).filter(|&k| !job.steps[k].is_empty()).collect();
        let mut falling = job.clone();
        let marked = &mut falling.steps[*r.pick(&full)];
        let at = r.below(marked.len());
        let again = (*r.pick(&[marked[at].0, 0]), marked[at].1);
        marked.insert(at + 1, again);
        made.push(("marks not ascending", flatten(&falling)));

        for (kind, mut f) in made {
            assert_eq!(write_flat(&f), Err(7), "{kind}");
            // The mesh comes first.
            if k % 4 == 0 {
                f.positions[0] = 500_001;
                assert_eq!(write_flat(&f), Err(2), "{kind}");
            }
            cases.job(kind, f);
        }
    }
    // The turn of the steps: 8 or 9 in a step before the fault, and after it.
    for _ in 0..count {
        let sound = cases.small(300);
        let job = too_far(&mut cases.r, &sound);
        let mut f = flatten(&job);
        if f.marks.len() > 1500 {
            continue;
        }
        f.ends.push(0);
        cases.job("too far, then an end before its start", f.clone());
        f.ends.pop();
        f.marked.push(0);
        f.marks.push(1);
        cases.job("too far, then marks behind the last step", f.clone());
        f.marks.push(1);
        assert_eq!(write_flat(&f), Err(7));
        cases.job("too far, and different numbers of marks", f);
        let mut f = flatten(&job);
        f.ends.insert(0, 60_000);
        assert_eq!(write_flat(&f), Err(7));
        cases.job("end behind the last mark, then too far", f);
    }
}

// -------------------------------------------------------------- short tables

/// Tables lent short by one, over cases of each refusal: 15 comes first. So many for each table and refusal.
fn short_tables(cases: &mut Cases, count: usize) {
    let mut left: BTreeMap<(usize, Refusal), usize> = BTreeMap::new();
    let mut more = Vec::new();
    for (_, case, _) in &cases.all {
        match case {
            Case::Archive(bytes) if bytes.len() < 4000 => {
                let refusal = number(&read(bytes));
                for short in 1..=7 {
                    let n = left.entry((short, refusal)).or_insert(count);
                    if *n > 0 {
                        *n -= 1;
                        more.push(("archive, table short".to_string(), Case::Archive(bytes.clone()), short));
                        break;
                    }
                }
            }
            Case::Job(flat) => {
                let refusal = number(&write_flat(flat));
                if flat.ends.len() > 99 && refusal != 17 {
                    continue;
                }
                let n = left.entry((8, refusal)).or_insert(count);
                if *n > 0 {
                    *n -= 1;
                    more.push(("job, table short".to_string(), Case::Job(flat.clone()), 1));
                }
            }
            _ => {}
        }
    }
    cases.all.extend(more);
}

// ------------------------------------------------------------------ the files

/// What must be met.
fn examine(met: &Met) {
    let all = |start: &str| -> BTreeSet<Refusal> {
        met.iter().filter(|(kind, _)| kind.starts_with(start)).flat_map(|(_, by)| by.keys().copied()).collect()
    };
    let refusals = [0, 1, 2, 3, 4, 5, 7, 8, 9, 17];
    for start in ["archive", "archive, table short", "job", "job, table short"] {
        assert!(all(start).into_iter().eq(refusals), "{start}: {:?}", all(start));
    }
    for (kind, some) in [
        ("archive, random job", &[0][..]),
        ("archive, empty steps", &[0]),
        ("archive, 65536 bytes", &[0]),
        ("archive, 65537 bytes", &[17]),
        ("archive, 65536 bytes, mesh or step wrong", &[4, 7]),
        ("archive, 65537 bytes, mesh or step wrong", &[17]),
        ("archive, form and mesh wrong", &[17]),
        ("archive, a bit of the example flipped", &[0, 1, 2, 3, 7, 17]),
        ("archive, a bit flipped", &[0, 17]),
        ("archive, cut short", &[17]),
        ("archive, too far, then 7", &[8, 9]),
        ("archive, 7, then too far", &[7]),
        ("job, random job", &[0]),
        ("job, 65536 bytes", &[0]),
        ("job, 65537 bytes", &[17]),
        ("job, 65537 bytes, mesh or step wrong", &[4, 7]),
        ("job, too far, then an end before its start", &[8, 9]),
        ("job, too far, then marks behind the last step", &[8, 9]),
        ("job, 20,000 marks", &[17]),
        ("job, 70,000 ends", &[17]),
    ] {
        assert!(some.iter().all(|k| met[kind].contains_key(k)), "{kind}: {:?}", met[kind]);
    }
}

fn main() {
    let args: Vec<String> = std::env::args().collect();
    if !(3..=4).contains(&args.len()) {
        eprintln!("archive_cases INPUT LINES [SEED]");
        std::process::exit(2);
    }
    let seed = args.get(3).map_or(2026, |n| n.parse().expect("a seed"));
    let mut cases = Cases { r: Random::new(seed), all: Vec::new() };
    example_cases(&mut cases);
    random_jobs(&mut cases, 120, 1500);
    random_jobs(&mut cases, 20, 12_000);
    damaged_jobs(&mut cases, 12);
    damaged_archives(&mut cases, 60);
    forms(&mut cases, 12);
    two_faults(&mut cases, 24);
    byte_limits(&mut cases);
    mesh_limits(&mut cases);
    flat_faults(&mut cases, 24);
    short_tables(&mut cases, 2);

    let (mut input, mut expected) = (Vec::new(), String::new());
    let mut met = Met::new();
    for (kind, case, short) in &cases.all {
        input.extend(case_bytes(case, *short));
        let refusal = match case {
            Case::Archive(bytes) => archive_lines(bytes, *short, &mut expected),
            Case::Job(flat) => job_line(flat, *short, &mut expected),
        };
        *met.entry(kind.clone()).or_default().entry(refusal).or_default() += 1;
    }
    input.extend([255; 24]);

    let archives = cases.all.iter().filter(|(_, case, _)| matches!(case, Case::Archive(_))).count();
    eprintln!(
        "{archives} archives and {} jobs to write, {} and {} bytes",
        cases.all.len() - archives,
        input.len(),
        expected.len()
    );
    for (kind, by) in &met {
        let by: Vec<String> = by.iter().map(|(refusal, count)| format!("{refusal} {count} times")).collect();
        eprintln!("{kind}: {}", by.join(", "));
    }
    examine(&met);
    assert!(input.len() < 3_000_000);
    std::fs::write(&args[1], input).expect("the input is written");
    std::fs::write(&args[2], expected).expect("the lines are written");
}
