//! The plain listing against the independent one, on random archives, right and wrong.

use independent::archive::{listing, put, read, Job, MOST_BYTES};
use independent::random::{damaged_archive, damaged_job, job, Random};
use independent::trial::{apart, corners, A};
use plain::archive::Lister;

struct Both {
    lister: Lister,
    /// How often each answer was given, 0 for accepted.
    answers: [usize; 18],
}

impl Both {
    fn new() -> Both {
        Both { lister: Lister::new(), answers: [0; 18] }
    }

    fn list(&mut self, bytes: &[u8]) {
        assert_eq!(self.lister.list(bytes), listing(bytes));
        self.answers[read(bytes).err().unwrap_or(0) as usize] += 1;
    }
}

#[test]
fn listings_agree() {
    let mut r = Random::new(31);
    let mut both = Both::new();
    for _ in 0..400 {
        let mut job = job(&mut r);
        both.list(&put(&job));
        both.list(&damaged_archive(&mut r, &job));
        both.list(&put(&damaged_job(&mut r, &job)));
        for _ in 0..r.below(4) {
            let at = r.below(job.steps.len() + 1);
            job.steps.insert(at, Vec::new());
        }
        let mut bytes = put(&job);
        both.list(&bytes);
        let at = r.below(bytes.len());
        bytes[at] ^= 1 << r.below(8);
        both.list(&bytes);
        both.list(&bytes[..at]);
    }
    println!("{:?}", both.answers);
    assert!([0, 1, 2, 3, 4, 5, 7, 8, 9, 17].iter().all(|&k| both.answers[k] > 4));
}

#[test]
fn limits_agree() {
    let mut both = Both::new();
    for bytes in [MOST_BYTES - 1, MOST_BYTES, MOST_BYTES + 1] {
        let mut job = Job { positions: A.to_vec(), cells: vec![0, 1, 2, 3], steps: Vec::new() };
        job.steps = vec![Vec::new(); bytes - put(&job).len()];
        both.list(&put(&job));
    }
    let all: Vec<(u16, u8)> = (0..256).map(|k| (k, 1)).collect();
    for count in [112, 113] {
        let firsts = (0..count).map(|k| (256 + 8 * k, 1)).collect();
        both.list(&put(&Job { positions: corners(512), cells: apart(256), steps: vec![all.clone(), firsts] }));
    }
    assert_eq!((both.answers[0], both.answers[9], both.answers[17]), (3, 1, 1));
}

/// The archives of crates/try_archives: the listing is what the case's lines begin with.
#[test]
fn stored_cases_agree() {
    let crates = concat!(env!("CARGO_MANIFEST_DIR"), "/../../crates/try_archives/");
    let input = std::fs::read(format!("{crates}stdin")).unwrap();
    let lines = std::fs::read_to_string(format!("{crates}stdout")).unwrap();
    let mut lister = Lister::new();
    let (mut rest, mut lines) = (&input[..], &lines[..]);
    let mut archives = 0;
    loop {
        let (header, tail) = rest.split_at(24);
        let long = |k: usize| u32::from_le_bytes(header[4 * k..4 * k + 4].try_into().unwrap()) as usize;
        let (lengths, line_count) = match header[0] {
            1 => {
                let expected = lister.list(&tail[..long(1)]);
                let expected = std::str::from_utf8(&expected).unwrap();
                lines = lines.strip_prefix(expected).expect("the case's listing");
                archives += 1;
                // Reading, writing back where it is accepted, and replaying.
                ([1, 0, 0, 0, 0], if lines.starts_with("0 ") { 3 } else { 2 })
            }
            2 => ([4, 2, 2, 1, 2], 1),
            _ => break,
        };
        for _ in 0..line_count {
            lines = lines.split_once('\n').unwrap().1;
        }
        rest = &tail[(0..5).map(|k| lengths[k] * long(k + 1)).sum()..];
    }
    assert!(lines.is_empty() && archives > 1000);
}
