//! Reads an archive from standard input and prints its listing.

use plain::archive::Lister;
use std::io::{Read, Write};

fn main() {
    let mut bytes = Vec::new();
    std::io::stdin().read_to_end(&mut bytes).expect("standard input can be read");
    let listing = Lister::new().list(&bytes);
    std::io::stdout().write_all(&listing).expect("standard output can be written");
}
