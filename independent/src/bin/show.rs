//! Shows archives by the independent program.
//!
//!     show list [FILE...]           the listing, as meshlist prints it
//!     show fingerprint [FILE...]    the fingerprint of the fine mesh (docs/FINGERPRINT.md)
//!     show text [FILE...]           the text that the fingerprint is taken of
//!
//! Where no file is named, standard input is taken. Of a refused archive each prints `refused ` and the number.
//! Status 0: all accepted; 1: one was refused; 2: an error.

use independent::archive::{listing, MOST_BYTES};
use independent::fingerprint::{fingerprint, text_of};
use independent::Refusal;
use std::fs::File;
use std::io::{self, Read, Write};
use std::process::exit;

fn fail(message: String) -> ! {
    eprintln!("show: {}", message);
    exit(2)
}

/// One byte more than an archive may have is read, so that a longer one is refused.
fn read(file: impl Read) -> io::Result<Vec<u8>> {
    let mut bytes = Vec::new();
    file.take(MOST_BYTES as u64 + 1).read_to_end(&mut bytes)?;
    Ok(bytes)
}

fn answer(text: Result<String, Refusal>) -> Vec<u8> {
    text.unwrap_or_else(|number| format!("refused {}\n", number)).into_bytes()
}

fn main() {
    let words: Vec<String> = std::env::args().skip(1).collect();
    let (what, files) = match words.split_first() {
        Some((what, files)) if ["list", "fingerprint", "text"].contains(&what.as_str()) => (what.as_str(), files),
        _ => fail("usage: show list|fingerprint|text [FILE...]".into()),
    };
    let mut archives = Vec::new();
    for name in files {
        match File::open(name).and_then(read) {
            Ok(bytes) => archives.push(bytes),
            Err(error) => fail(format!("{}: {}", name, error)),
        }
    }
    if files.is_empty() {
        match read(io::stdin()) {
            Ok(bytes) => archives.push(bytes),
            Err(error) => fail(format!("standard input: {}", error)),
        }
    }
    let mut refused = false;
    for bytes in archives {
        let shown = match what {
            "list" => listing(&bytes),
            "fingerprint" => answer(fingerprint(&bytes).map(|digits| digits + "\n")),
            _ => answer(text_of(&bytes)),
        };
        refused |= shown.starts_with(b"refused");
        if let Err(error) = io::stdout().write_all(&shown).and_then(|()| io::stdout().flush()) {
            fail(format!("standard output: {}", error));
        }
    }
    exit(if refused { 1 } else { 0 })
}
