//! Prints the 64 families, one line each.

fn main() {
    for pattern in 0..64 {
        print!("{pattern}");
        for child in independent::cutting::family(pattern).expect("a pattern up to 63") {
            print!(" {}", child.map(|d| d.to_string()).concat());
        }
        println!();
    }
}
