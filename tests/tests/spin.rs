//! Spin's verdict on a program, where Spin is installed, is the library's: a violation, or none.
use tarczolin_tests::calls::{violation, Answer, SCHEDULE};
use tarczolin_tests::files::{lines, read, text};
use tarczolin_tests::oracle::decode::decode;
use tarczolin_tests::random::program::{frames_parted, SMALL};
use tarczolin_tests::random::Random;
use tarczolin_tests::share;
use tarczolin_tests::spin;

/// Whether an assertion fails, by both; without Spin by none.
fn agree(name: &str, file: &[u8]) -> bool {
    let fails = match violation(file, &mut [0; SCHEDULE]) {
        Answer::Answered(_) => true,
        Answer::None => false,
        refused => panic!("{name}: {refused:?}"),
    };
    assert_eq!(spin::verdict(&decode(file).unwrap()).fails, fails, "{name}: {}", file.escape_ascii());
    fails
}

#[test]
fn spin_says_the_same() {
    if !spin::is_installed() {
        println!("Spin is not installed: its verdicts are not compared");
        return;
    }
    let names = [
        "no-thread",
        "empty-thread",
        "store-load-pair",
        "load-assert-beside-store",
        "message-passing",
        "queue-broken",
        "queue-repaired",
    ];
    for name in names {
        agree(name, &read(&format!("examples/{name}.hex")));
    }
    // one more than the greatest is the least, below every number; a swap that fails leaves its location
    let made = [
        "01 1200000000000001 21000000000001 25000000000000 01 1000007fffffff",
        "01 20000080000000 21000000000001 25000080000000",
        "030000000005 01 1300000000000005000000000a 110100 2301000000000a 01 110000",
        "01 110000 2200000000000101 23000000000002 01 10000000000001",
        "01 110000 2400000000000101 23000000000001 01 10000080000000",
    ];
    let made: Vec<bool> = made.iter().map(|words| agree(words, &lines(words))).collect();
    assert!(made.contains(&true) && made.contains(&false), "{made:?}");
    let mut random = Random::new(17);
    let failing = (0..share::of(12)).filter(|k| agree(&k.to_string(), &text(&frames_parted(&mut random, SMALL)))).count();
    println!("{failing} of the random programs fail");
}
