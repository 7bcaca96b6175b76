//! What the bench measures the list against gives the right list: plain Rust's search and plain Rust's walk, beside the
//! brute-force lister. A check of the measures, without the library.
use tarczolin_tests::files::{lines, text};
use tarczolin_tests::oracle::decode::decode;
use tarczolin_tests::oracle::listing::{self, Listed};
use tarczolin_tests::random::program::{frames_parted, Size, SMALL};
use tarczolin_tests::random::{schedule, Random};
use tarczolin_tests::search::walk::walk;
use tarczolin_tests::search::Search;
use tarczolin_tests::share;

#[test]
fn same_lists() {
    let mut random = Random::new(37);
    let six = Size { threads: 6, instructions: 2, accesses: 6, ..SMALL };
    let mut shorter = 0;
    for k in 0..share::of(6_000) {
        let file = text(&frames_parted(&mut random, if k % 2 == 0 { SMALL } else { six }));
        let program = decode(&file).unwrap();
        let right = listing::list(&program);
        let mut list = Vec::new();
        let mut search = Search::new(&program);
        search.list(None, &mut |schedule, fails| {
            list.push(Listed { schedule: schedule.to_vec(), fails });
            false
        });
        assert!(list == right, "{}", file.escape_ascii());
        let walked = walk(&program);
        assert!(walked.rows == right.iter().flat_map(listing::row).collect::<Vec<u8>>(), "{}", file.escape_ascii());
        shorter += (search.reached < walked.full) as usize;
        let from = schedule::full(&mut random, &program);
        assert_eq!(search.next(Some(&from)), listing::after(&right, &from), "{}", file.escape_ascii());
    }
    assert!(!share::whole() || shorter >= 1_000, "the search reaches fewer full schedules than there are {shorter} times");
}

/// The rules at work: prefixes visited, dead ends among them, full schedules reached, schedules listed. What is reached is listed.
#[test]
fn prefixes() {
    let sums = "01 110000 21000000000001 10000100000000 ";
    let own = |t: usize| format!("01 10{:02x}0000000001 1200000000000001 1200000000000001 ", t + 1);
    let adds = "01 1200000000000001 1200010000000001 ";
    let table = [
        ("five alike, each load, add 1, store", format!("{} 020001020304", sums.repeat(5)), (415, 0, 120, 120)),
        ("six alike, each load, add 1, store", format!("{} 02000102030405", sums.repeat(6)), (2_372, 0, 720, 720)),
        ("four, each a store of its own and two fetch and adds", (0..4).map(own).collect(), (7_659, 0, 2_520, 2_520)),
        ("six, each two fetch and adds at two locations", adds.repeat(6), (1_480_032, 0, 518_400, 518_400)),
    ];
    for (name, words, expected) in table {
        let program = decode(&lines(&words)).unwrap();
        let mut search = Search::new(&program);
        let (listed, _) = search.count();
        assert_eq!((search.prefixes, search.dead_ends, search.reached, listed), expected, "{name}");
    }
}
