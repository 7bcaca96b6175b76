//! Decoding a program file.
use crate::timing::best;
use std::hint::black_box;
use tarczolin_tests::calls::check_word;
use tarczolin_tests::files::text;
use tarczolin_tests::oracle::decode::decode;
use tarczolin_tests::table;

/// The longest accepted file: six threads of equal code, each four compare and swaps and twelve skips; three 02 lines.
fn longest() -> Vec<u8> {
    let swap = vec![0x13, 3, 7, 0, 0xff, 0xff, 0xff, 0xff, 1, 0, 0, 0, 3];
    let skip = vec![0x22, 3, 1, 0, 0, 0, 3, 1];
    let mut frames = Vec::new();
    for _ in 0..6 {
        frames.push(vec![0x01]);
        frames.extend(vec![skip.clone(); 12]);
        frames.extend(vec![swap.clone(); 4]);
    }
    frames.extend([vec![2, 0, 1], vec![2, 2, 3], vec![2, 4, 5]]);
    text(&frames)
}

/// A file of 4,096 bytes that is refused only for its last character: the longest accepted one, then one long line of
/// digits that ends with another character.
fn full() -> Vec<u8> {
    let mut file = longest();
    file.resize(4094, b'0');
    file.extend(b"x\n");
    file
}

/// Prints the best times for one file.
fn row(name: &str, file: &[u8], asked: &str) {
    let (library, plain) = best(|| check_word(black_box(file)), || decode(black_box(file)).is_ok());
    println!("{}", table::row(&format!("decoding {name}"), library, plain, asked));
}

pub fn report() {
    println!(
        "tarczolin_check beside a plain Rust decoder (one pass, a list of instructions for each thread, no other allocation)"
    );
    row("the longest accepted file", &longest(), "3");
    row("4,096 bytes that are refused for the last", &full(), "");
    row("one empty thread", b"01\n", "");
}
