//! The fingerprint and its SHA-256.

use independent::archive::{put, Job};
use independent::fingerprint::{fingerprint, text_of};
use independent::sha256::sha256;

const A: [i32; 12] = [0, 0, 0, 16, 0, 0, 0, 16, 0, 0, 0, 16];

#[test]
fn known_digests() {
    assert_eq!(sha256(b""), "e3b0c44298fc1c149afbf4c8996fb92427ae41e4649b934ca495991b7852b855");
    assert_eq!(sha256(b"abc"), "ba7816bf8f01cfea414140de5dae2223b00361a396177a9cb410ff61f20015ad");
    let two_blocks = b"abcdbcdecdefdefgefghfghighijhijkijkljklmklmnlmnomnopnopq";
    assert_eq!(sha256(two_blocks), "248d6a61d20638b8e5c026930c3e6039a33ce45964ff2167f6ecedd419db06c1");
    let million = vec![b'a'; 1_000_000];
    assert_eq!(sha256(&million), "cdc76e5c9914fb9281a1c7e284d73e67f1809a48a497200e046d39ccc7112cd0");
}

#[test]
fn example_of_the_document() {
    // A, whose one cell is refined.
    let job = Job { positions: A.to_vec(), cells: vec![0, 1, 2, 3], steps: vec![vec![(0, 1)]] };
    let expected = "0 0 0 0 0 0\n1 1 1 16384 0 0\n2 2 2 0 16384 0\n3 3 3 0 0 16384\n\
                    4 0 1 8192 0 0\n5 0 2 0 8192 0\n6 0 3 0 0 8192\n7 1 2 8192 8192 0\n8 1 3 8192 0 8192\n9 2 3 0 8192 8192\n\
                    0 65535 0 1 64 0 1 2 3\n1 0 0 1 0 0 4 5 6\n1 0 1 1 0 4 5 6 8\n1 0 2 1 0 4 5 7 8\n1 0 3 1 0 4 1 7 8\n\
                    1 0 4 1 0 5 6 8 9\n1 0 5 1 0 5 7 8 9\n1 0 6 1 0 5 7 2 9\n1 0 7 1 0 6 8 9 3\n";
    let archive = put(&job);
    assert_eq!(text_of(&archive).as_deref(), Ok(expected));
    assert_eq!(fingerprint(&archive), Ok(sha256(expected.as_bytes())));
    assert_eq!(fingerprint(&archive[1..]), Err(17));
}
