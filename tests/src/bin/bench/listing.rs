//! Listing.
use std::hint::black_box;
use std::time::Instant;
use tarczolin_tests::calls::{self, Answer, ROW};
use tarczolin_tests::files::lines;
use tarczolin_tests::oracle::decode::decode;
use tarczolin_tests::search::walk::walk;
use tarczolin_tests::search::Search;
use tarczolin_tests::table;

/// The best times of the library and of plain Rust over so many rounds, measured in turns, in nanoseconds, and what each gave.
fn turns<T, U>(rounds: usize, mut library: impl FnMut() -> T, mut plain: impl FnMut() -> U) -> ((f64, T), (f64, U)) {
    let mut both = (once(&mut library), once(&mut plain));
    for _ in 1..rounds {
        both.0 .0 = both.0 .0.min(once(&mut library).0);
        both.1 .0 = both.1 .0.min(once(&mut plain).0);
    }
    both
}

fn once<T>(run: &mut impl FnMut() -> T) -> (f64, T) {
    let began = Instant::now();
    let given = black_box(run());
    (began.elapsed().as_nanos() as f64, given)
}

/// The library's counts.
fn count(file: &[u8]) -> (u64, u64) {
    let (mut listed, mut failing) = (0, 0);
    assert_eq!(calls::count(file, &mut listed, &mut failing), Answer::Answered(0));
    (listed, failing)
}

/// The library's list by start and continue, as far as so many schedules; how many there were.
fn by_calls(file: &[u8], most: u64) -> u64 {
    let mut out = [0; 24];
    let mut answer = calls::start(file, &mut out);
    let mut listed = 0;
    while let Answer::Answered(length) = answer {
        listed += 1;
        if listed == most {
            break;
        }
        let last = out;
        answer = calls::continue_from(file, &last[..length as usize], &mut out);
        assert!(answer == Answer::None || last < out, "strictly ascending");
    }
    listed
}

/// The library's whole list by rows, so many at a time; how many there were.
fn by_rows(file: &[u8], room: usize) -> u64 {
    let mut out = vec![0; room * ROW];
    let mut answer = calls::rows(file, &mut out);
    let mut listed = 0;
    while let Answer::Answered(rows) = answer {
        listed += rows;
        if rows < room as u64 {
            return listed;
        }
        let last: [u8; ROW] = out[(room - 1) * ROW..].try_into().expect("a row's length");
        answer = calls::rows_after(file, &last[2..2 + last[0] as usize], &mut out);
    }
    panic!("{answer:?}")
}

/// Start and continue in plain Rust: the search anew for each schedule, the file decoded each time.
fn by_searches(file: &[u8], most: u64) -> u64 {
    let mut last = None;
    for listed in 0..most {
        let next = Search::new(&decode(file).unwrap()).next(last.as_deref());
        if next.is_none() {
            return listed;
        }
        last = next;
    }
    most
}

fn alike() {
    let file = lines(&format!("{} 020001020304", "01 110000 21000000000001 10000100000000 ".repeat(5)));
    let program = decode(&file).unwrap();
    let mut search = Search::new(&program);
    let (listed, _) = search.count();
    let searched = || Search::new(&decode(&file).unwrap()).count();
    println!("five alike threads, each load, add 1, store: {listed} listed");
    println!("  by the rules {} prefixes are visited (asked: at most 1,000), {} of them full", search.prefixes, search.reached);
    let ((called, of_calls), (walked, all)) = turns(3, || by_calls(&file, u64::MAX), || walk(&program));
    let ((counted, of_count), (searched, of_search)) = turns(30, || count(&file), searched);
    let ((rowed, of_rows), _) = turns(30, || by_rows(&file, 1024), || ());
    assert!(of_count == of_search && [of_calls, of_rows, all.listed(), of_search.0] == [listed; 4], "all agree");
    println!("  plain Rust, a walk over all {} schedules with a hash set of graphs: {:.1} ms", all.full, walked / 1e6);
    println!(
        "  the whole list by one call of rows: library {:.3} ms, the walk divided by {:.0} (asked: 20 or more)",
        rowed / 1e6,
        walked / rowed
    );
    println!("  count: library {:.3} ms, the walk divided by {:.0}", counted / 1e6, walked / counted);
    println!("  count: plain Rust's search {:.3} ms, ratio {:.2}", searched / 1e6, counted / searched);
    println!("  start and {of_calls} continues: library {:.3} ms, the walk divided by {:.0}", called / 1e6, walked / called);
}

fn two() {
    let file = lines(&format!("01 {} 01 {}", "10000000000001 ".repeat(12), "110000 ".repeat(12)));
    let ((rowed, of_rows), (searched, of_search)) =
        turns(2, || by_rows(&file, 1024), || Search::new(&decode(&file).unwrap()).count());
    assert_eq!(of_rows, of_search.0, "both agree");
    println!("twelve stores beside twelve loads of one location: {of_rows} listed");
    println!("{}", table::row_by("1,024 rows a call, 12 stores beside 12 loads", rowed, searched, "for a count", ""));
    let many = 2_000;
    let ((called, _), (next, _)) = turns(3, || by_calls(&file, many), || by_searches(&file, many));
    let each = many as f64;
    println!("{}", table::row("a start or continue, 12 stores beside 12 loads", called / each, next / each, ""));
}

fn six() {
    let file = lines(&(0..6).map(|l| format!("01 {}", format!("10{l:02x}0000000001 ").repeat(4))).collect::<String>());
    let searched = || Search::new(&decode(&file).unwrap()).count();
    let ((counted, of_count), (searched, of_search)) = turns(30, || count(&file), searched);
    assert_eq!((of_count, of_search), ((1, 0), (1, 0)));
    println!("six threads, each four stores to its own location, about 3 * 10^15 schedules: 1 listed (asked: at once)");
    println!("{}", table::row("a count, six threads of four private stores: 1 listed", counted, searched, ""));
}

pub fn report() {
    println!("The list beside plain Rust: a search by the same rules R1, R2, R3 with the same test at a full schedule, unproved");
    alike();
    six();
    two();
}
