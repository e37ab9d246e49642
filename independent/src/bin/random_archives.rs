//! Writes random archives, each with what it comes to:
//!
//!     random_archives DIR COUNT [SEED]
//!
//! NNN.mesh is the archive, NNN.listing what meshlist must print of it, NNN.fingerprint the fingerprint of the last mesh, where it is accepted. Six in
//! ten are sound jobs, two go too far (8 or 9), one has a fault in its mesh or marks, one in its bytes.

use independent::archive::{listing, put};
use independent::fingerprint::fingerprint;
use independent::random::{damaged_archive, damaged_job, job, too_far, Random};
use std::fs::write;
use std::path::Path;

fn main() -> std::io::Result<()> {
    let words: Vec<String> = std::env::args().skip(1).collect();
    let number = |i: usize| words.get(i).map(|word| word.parse::<u64>());
    let (count, seed) = match (number(1), number(2).unwrap_or(Ok(1))) {
        (Some(Ok(count)), Ok(seed)) => (count, seed),
        _ => {
            eprintln!("usage: random_archives DIR COUNT [SEED]");
            std::process::exit(2)
        }
    };
    let mut r = Random::new(seed);
    for k in 0..count {
        let mut sound = job(&mut r);
        while sound.steps.is_empty() {
            sound = job(&mut r);
        }
        let bytes = match k % 10 {
            0..=5 => put(&sound),
            6 | 7 => put(&too_far(&mut r, &sound)),
            8 => put(&damaged_job(&mut r, &sound)),
            _ => damaged_archive(&mut r, &sound),
        };
        let file = Path::new(&words[0]).join(format!("{:03}.mesh", k));
        write(&file, &bytes)?;
        write(file.with_extension("listing"), listing(&bytes))?;
        if let Ok(digits) = fingerprint(&bytes) {
            write(file.with_extension("fingerprint"), digits + "\n")?;
        }
    }
    Ok(())
}
