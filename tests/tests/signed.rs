//! Signed comparisons, `24 r p n` and `25 r p`: every pair of values near the points where two's complement turns, and the refusals.
use tarczolin_tests::calls::{self, Answer};
use tarczolin_tests::files::{lines, text};
use tarczolin_tests::oracle::decode::decode;

/// 0, 7fffffff, 80000000 and ffffffff, with what stands up to two beside them.
fn values() -> Vec<u32> {
    let turns = [0u32, 0x7fff_ffff, 0x8000_0000, 0xffff_ffff];
    let mut all: Vec<u32> = turns.iter().flat_map(|t| (0..5).map(|k| t.wrapping_add(k).wrapping_sub(2))).collect();
    all.sort();
    all.dedup();
    all
}

/// The integer that 32 bits mean: below 2^31 the number itself, from there on 2^32 less.
fn meant(value: u32) -> i64 {
    value as i64 - if value < 1 << 31 { 0 } else { 1 << 32 }
}

fn counts(frames: &[Vec<u8>]) -> (u64, u64) {
    let (mut listed, mut failing) = (7, 8);
    assert_eq!(calls::count(&text(frames), &mut listed, &mut failing), Answer::Answered(0));
    (listed, failing)
}

fn constant(value: u32) -> Vec<u8> {
    [vec![0], value.to_be_bytes().to_vec()].concat()
}

#[test]
fn every_pair_near_the_turns() {
    assert_eq!([0x7fff_ffff, 0x8000_0000, 0xffff_ffff].map(meant), [2_147_483_647, -2_147_483_648, -1]);
    for a in values() {
        for b in values() {
            let set = |r: u8, value: u32| [vec![0x20, r], constant(value)].concat();
            let compared = |kind: u8, p: Vec<u8>| [vec![kind, 0], p].concat();
            for p in [constant(b), vec![1, 0, 0, 0, 1]] {
                let front = vec![vec![0x01], set(0, a), set(1, b)];
                let assertion = [front.clone(), vec![compared(0x25, p.clone())]].concat();
                assert_eq!(counts(&assertion), (1, (meant(a) > meant(b)) as u64), "assert {a:08x} <= {b:08x}");
                let skip = [compared(0x24, p), vec![1]].concat();
                let skipped = [front, vec![skip, vec![0x11, 2, 0]]].concat();
                let mut schedule = [9; 24];
                let steps = (meant(a) <= meant(b)) as u64;
                assert_eq!(calls::start(&text(&skipped), &mut schedule), Answer::Answered(steps), "unless {a:08x} <= {b:08x}");
            }
        }
    }
}

/// 3, 4, 5, 6 and 7 as for `22` and `23`.
#[test]
fn refusals() {
    let full = format!("01 {}", "25000000000000 ".repeat(16));
    let table: [(&str, Option<(u8, u64)>); 17] = [
        ("01 2400000000000001", Some((7, 2))),
        ("01 2400000000000001 25000000000000", None),
        ("01 2400000000000002 25000000000000", Some((7, 2))),
        ("01 240000000000000f", Some((7, 2))),
        ("01 2400000000000010", Some((4, 2))),
        ("01 2400000000000000", Some((4, 2))),
        ("01 2404000000000001 110000", Some((4, 2))),
        ("01 2400020000000001 110000", Some((4, 2))),
        ("01 2400010000000401 110000", Some((4, 2))),
        ("01 24000000000000", Some((3, 2))),
        ("01 250000000000000f", Some((3, 2))),
        ("01 250400000000 00", Some((3, 2))),
        ("01 25040000000000", Some((4, 2))),
        ("01 25000100000004", Some((4, 2))),
        ("25000000000000", Some((5, 1))),
        ("01 26000000000000", Some((3, 2))),
        (&full, None),
    ];
    for (file, refusal) in table {
        let answer = refusal.map_or(Answer::Answered(0), |(number, place)| Answer::Refused(number, place));
        assert_eq!(calls::check(&lines(file)), answer, "{file}");
        let oracle = decode(&lines(file)).map_or_else(|r| Answer::Refused(r.number, r.place), |_| Answer::Answered(0));
        assert_eq!(oracle, answer, "the oracle on {file}");
    }
    let longer = format!("{full} 25000000000000");
    assert_eq!(calls::check(&lines(&longer)), Answer::Refused(6, 18), "the 17th instruction");
}
