//! Adding zero is reading: a fetch and add whose operand's value is zero when it is done stands in no `41` line.
use tarczolin_tests::calls::{self, Answer};
use tarczolin_tests::files::lines;

fn counts(file: &str) -> (u64, u64) {
    let (mut listed, mut failing) = (7, 8);
    assert_eq!(calls::count(&lines(file), &mut listed, &mut failing), Answer::Answered(0), "{file}");
    (listed, failing)
}

fn graph(file: &str, schedule: &[u8]) -> String {
    let mut out = [b'?'; 512];
    let Answer::Answered(length) = calls::graph(&lines(file), schedule, &mut out) else { panic!("{file}") };
    String::from_utf8(out[..length as usize].to_vec()).unwrap().replace('\n', " ")
}

fn judged(file: &str, graph: &str) -> Answer {
    calls::judge(&lines(file), &lines(graph), &mut [0; 24])
}

/// Three threads: 1 listed instead of 6, whether the zero is a constant or stands in a register; adding 1 keeps 6.
#[test]
fn three_threads() {
    let three = |code: &str| counts(&format!("01 {code} ").repeat(3));
    assert_eq!(three("1200000000000000"), (1, 0));
    assert_eq!(three("1200000100000001"), (1, 0), "a register that holds zero");
    assert_eq!(three("20010000000001 210100ffffffff 1200000100000001"), (1, 0), "a sum that wraps to zero");
    assert_eq!(three("1200000000000001"), (6, 0));
    assert_eq!(three("20010000000001 1200000100000001"), (6, 0), "a register that holds one");
    assert_eq!(three("13000000000000000000000000"), (6, 0), "a compare and swap of 0 to 0 writes");
}

/// What the operand is when the access is done decides: one instruction writes in one run and not in another.
#[test]
fn by_the_value_at_the_time() {
    let file = "01 110100 1200010100000001 01 10000000000001";
    assert_eq!(graph(file, &[0, 0, 1]), "400000ffff 400001ffff 41000100 ");
    assert_eq!(graph(file, &[1, 0, 0]), "4000000100 400001ffff 41000100 41010001 ");
    assert_eq!(counts(file), (2, 0));
}

#[test]
fn judged_by_the_same_words() {
    let one = "01 1200000000000000";
    assert_eq!(graph(one, &[0]), "400000ffff ");
    assert_eq!(judged(one, "400000ffff"), Answer::Answered(1));
    assert_eq!(judged(one, "400000ffff 41000000"), Answer::None, "in a 41 line: no");
    let two = "01 1200000000000000 01 10000000000005";
    assert_eq!(judged(two, "4000000100 41000100"), Answer::Answered(2));
    assert_eq!(judged(two, "4000000100 410001000000"), Answer::None);
    assert_eq!(judged("01 1200000000000001", "400000ffff"), Answer::None, "adding one writes");
}

/// What is left to a thread could write by a register, whatever it holds now, and could not by a constant zero.
#[test]
fn what_is_left_to_others() {
    assert_eq!(counts("01 110000 01 110001 20010000000001 1200000100000001"), (2, 0));
    assert_eq!(counts("01 110000 01 110001 1200000000000001"), (2, 0));
    assert_eq!(counts("01 110000 01 110001 1200000000000000"), (1, 0));
}
