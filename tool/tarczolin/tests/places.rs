//! Members of the list by their places: pieces from one place to another, the place of a schedule, cuts of equal size, and members drawn.
mod common;

use common::json::{fits_the_schema, parse, Value};
use common::{folder, run, run_with};
use std::collections::BTreeMap;
use tarczolin_tests::files::{lines, read, text};
use tarczolin_tests::random::program::{frames_parted, Size, SMALL};
use tarczolin_tests::random::Random;
use tarczolin_tests::share;

/// Seven stores beside seven loads and an assertion: 3,432 listed, and only the last one fails.
fn one_failing() -> Vec<u8> {
    lines(&format!("01 {} 01 {} 23000000000001", "10000000000001 ".repeat(7), "110000 ".repeat(7)))
}

/// Six threads of four fetch and adds: the longest list that there can be.
fn longest() -> Vec<u8> {
    lines(&format!("01 {}", "1200000000000001 ".repeat(4)).repeat(6))
}

const LISTED: u64 = 3_246_670_537_110_000;

/// The same with an assertion of the first thread, which fails where that thread's last step is the last of all.
fn longest_failing() -> Vec<u8> {
    let adds = "1200000000000001 ".repeat(4);
    lines(&format!("01 {adds}25000000000016 {}", format!("01 {adds}").repeat(5)))
}

/// The lines of a list, its counts left out.
fn listed(file: &[u8], words: &[&str]) -> Vec<String> {
    let ran = run_with(&[&["list", "-"], words].concat(), file);
    let mut all: Vec<String> = ran.out.lines().map(str::to_string).collect();
    let counts = all.pop().unwrap_or_else(|| panic!("{words:?}: {}", ran.err));
    let failing = all.iter().filter(|line| line.starts_with("5001")).count();
    assert_eq!(counts, format!("51{:016x}{failing:016x}", all.len()), "{words:?}");
    assert_eq!(ran.status, (failing > 0) as i32, "{words:?}");
    all
}

fn places(from: u64, to: u64) -> [String; 4] {
    ["--from".to_string(), from.to_string(), "--to".to_string(), to.to_string()]
}

#[test]
fn pieces_from_place_to_place() {
    let file = one_failing();
    let whole = listed(&file, &[]);
    assert_eq!(whole.len(), 3_432);
    for (from, to) in
        [(1, 2), (1, 3433), (2, 2), (17, 1500), (3432, 3433), (3000, 9000), (3433, 3434), (5000, 6000), (1, u64::MAX)]
    {
        let words = places(from, to);
        let words = words.each_ref().map(String::as_str);
        let wanted = &whole[(from as usize - 1).min(3432)..(to.min(3433) as usize - 1).max(from as usize - 1).min(3432)];
        assert_eq!(listed(&file, &words), wanted, "{words:?}");
        assert_eq!(listed(&file, &[&words[..], &["--jobs", "3"]].concat()), wanted, "{words:?}");
        let failing = wanted.iter().filter(|line| line.starts_with("5001")).count();
        let counted = run_with(&[&["count", "-"], &words[..]].concat(), &file);
        assert_eq!(counted.out, format!("{} listed, {failing} failing\n", wanted.len()), "{words:?}");
        assert_eq!(counted.status, (failing > 0) as i32);
    }
    assert_eq!(listed(&file, &["--from", "3431"]), &whole[3430..]);
    assert_eq!(listed(&file, &["--to", "3"]), &whole[..2]);
    assert_eq!(listed(&file, &["--to", "1"]), Vec::<String>::new());
    assert_eq!(listed(&file, &["--from", "3431", "--until", &whole[3430][4..]]), &whole[3430..3431]);
    assert_eq!(listed(&file, &["--after", &whole[5][4..], "--to", "9"]), &whole[6..8]);
    // a program whose only schedule has no step
    assert_eq!(listed(b"01\n", &["--from", "1"]), ["5000"]);
    assert_eq!(listed(b"01\n", &["--from", "2"]), Vec::<String>::new());
    assert_eq!(listed(b"01\n", &["--from", "1", "--to", "1"]), Vec::<String>::new());
}

#[test]
fn pieces_by_places_are_the_list() {
    let mut random = Random::new(71);
    for _ in 0..share::of(60) {
        let file = text(&frames_parted(&mut random, Size { threads: 4, accesses: 8, ..SMALL }));
        let whole = listed(&file, &[]);
        let at = 1 + random.below(whole.len() + 2) as u64;
        let (front, back) = (listed(&file, &["--to", &at.to_string()]), listed(&file, &["--from", &at.to_string()]));
        assert_eq!([front, back].concat(), whole, "{at}: {}", file.escape_ascii());
    }
}

/// Places of a list that nobody walks.
#[test]
fn pieces_of_any_list() {
    let file = longest();
    let piece = listed(&file, &["--from", "3000000000000000", "--to", "3000000000000003"]);
    assert_eq!(piece.len(), 3);
    for (place, line) in (3_000_000_000_000_000u64..).zip(&piece) {
        let ran = run_with(&["rank", "-", &line[4..]], &file);
        assert_eq!((ran.status, ran.out), (0, format!("place {place} of {LISTED}\n")));
    }
    let last = listed(&file, &["--from", &LISTED.to_string()]);
    assert_eq!(last, [format!("5000{}", [5, 4, 3, 2, 1, 0].map(|t| format!("{t:02x}").repeat(4)).concat())]);
    assert_eq!(listed(&file, &["--from", &(LISTED + 1).to_string()]), Vec::<String>::new());
    let ran = run_with(&["show", "-", "--from", "3000000000000001", "--to", "3000000000000002", "--json"], &file);
    let objects: Vec<Value> = ran.out.lines().map(parse).collect();
    assert!(objects.iter().all(fits_the_schema) && objects.len() == 2, "{}", ran.out);
    assert_eq!(objects[0].get("position"), Some(&Value::Number(3_000_000_000_000_001)));
    assert_eq!(objects[0].get("schedule"), Some(&Value::Text(piece[1][4..].to_string())));
    assert_eq!(objects[1].get("listed"), Some(&Value::Number(LISTED as i64)));
}

/// A page of a list that nobody walks, by how many fail.
#[test]
fn pages_of_any_list() {
    let at = folder("places").join("page.html");
    let to = at.display().to_string();
    let page = |file: &[u8], words: &[&str]| {
        let ran = run_with(&[&["show", "-", "--html", &to], words].concat(), file);
        let text = std::fs::read_to_string(&at).unwrap();
        (ran.status, ran.out.replace(&to, "PAGE"), ran.err, text)
    };
    let (status, out, err, text) = page(&longest(), &["--from", "1000000000000"]);
    assert_eq!((status, out), (0, format!("{LISTED} executions, 0 failing; 500 of them, 0 failing, in PAGE\n")));
    let left = LISTED - 1_000_000_000_000 + 1 - 500;
    assert!(err.contains(&format!("{left} more, 0 failing, are left out of the page: it holds at most 500")), "{err}");
    assert!(text.contains("id=\"e1000000000000\"") && text.contains("id=\"e1000000000499\""));
    let (_, out, err, text) = page(&longest(), &["--from", "7", "--to", "10"]);
    assert_eq!((out, err), (format!("{LISTED} executions, 0 failing; 3 of them, 0 failing, in PAGE\n"), String::new()));
    assert!(text.contains("id=\"e7\"") && text.contains("id=\"e9\"") && !text.contains("id=\"e10\""));
    let (status, out, _, _) = page(&longest(), &["--only", "failing"]);
    assert_eq!((status, out), (0, format!("{LISTED} executions, 0 failing; 0 of them, 0 failing, in PAGE\n")));
    // the first failing one lies far behind what is looked at, and stands in front
    let (status, out, err, text) = page(&longest_failing(), &[]);
    assert!(status == 1 && out.contains("; 500 of them, 1 failing, in PAGE\n"), "{out}{err}");
    assert!(err.contains("the failing ones first of 1000000 that were looked at; --from, --to and"), "{err}");
    let first = run_with(&["violation", "-"], &longest_failing()).out;
    let place = run_with(&["rank", "-", first.trim()], &longest_failing()).out;
    let place = place.split(' ').nth(1).unwrap();
    assert!(text.find(&format!("id=\"e{place}\" class=\"fails\"")).unwrap() < text.find("id=\"e1\"").unwrap(), "{place}");
}

#[test]
fn the_place_of_a_schedule() {
    let queue = "examples/queue-broken.asm";
    assert_eq!(run(&["rank", queue, "00000102020201"]).out, "place 2 of 6\n");
    assert_eq!(run(&["rank", queue, "02020201010000"]).status, 2, "three steps more than there are");
    let whole = "examples/whole.hex";
    assert_eq!(run(&["rank", whole, "000201"]).out, "not listed: 1 of 3 listed ones are smaller\n");
    assert_eq!(run(&["rank", whole, "020100"]).out, "not listed: 3 of 3 listed ones are smaller\n");
    assert_eq!(run_with(&["rank", "-", "(no step)"], b"01\n").out, "place 1 of 1\n");
    let file = one_failing();
    for (place, line) in (1..).zip(listed(&file, &[])).step_by(311) {
        let ran = run_with(&["rank", "-", &line[4..], "--memory", "0"], &file);
        assert_eq!((ran.status, ran.out), (0, format!("place {place} of 3432\n")));
    }
    let object = parse(run(&["rank", whole, "000201", "--json"]).out.trim());
    assert!(fits_the_schema(&object));
    assert_eq!((object.get("smaller"), object.get("position")), (Some(&Value::Number(1)), Some(&Value::Null)));
}

/// Under total store order places are walked to, and that is said.
#[test]
fn places_under_total_store_order() {
    let pair = "examples/store-load-pair.hex";
    let said = "tarczolin: under total store order no call finds a place of the list: the list is walked from its beginning\n";
    let whole = run(&["list", pair, "--model", "tso"]).out;
    let whole: Vec<&str> = whole.lines().collect();
    for (from, to) in [(1, 2), (2, 4), (3, 9), (5, 6), (2, 2)] {
        let words = places(from, to);
        let words = words.each_ref().map(String::as_str);
        let ran = run(&[&["list", pair, "--model", "tso"], &words[..]].concat());
        let mut found: Vec<&str> = ran.out.lines().collect();
        found.pop();
        let wanted = &whole[(from as usize - 1).min(4)..(to as usize - 1).min(4)];
        let behind = if from > 4 { "tarczolin: the list has no place 5: it is shorter\n" } else { "" };
        assert_eq!((found.as_slice(), ran.err), (wanted, format!("{said}{behind}")), "{words:?}");
    }
    let ran = run(&["rank", pair, &whole[2][4..], "--model", "tso"]);
    assert_eq!((ran.status, ran.out.as_str(), ran.err.as_str()), (0, "place 3\n", said));
    let other = run(&["rank", pair, "010001001110", "--model", "tso"]);
    assert!(other.status == 0 && other.out.starts_with("not listed: "), "{}{}", other.out, other.err);
    let ran = run(&["show", pair, "--model", "tso", "--from", "2", "--to", "3"]);
    assert_eq!((ran.out.matches("execution ").count(), ran.err.as_str()), (1, said));
    let ran = run(&["rank", pair, "0000", "--model", "tso"]);
    assert!(ran.status == 2 && ran.err.contains("refusal 21 at step 2"), "{}", ran.err);
}

/// The numbers of members of the pieces that these cuts make of a list.
fn sizes(whole: &[String], cuts: &[String]) -> Vec<usize> {
    let mut front = 0;
    let size = |cut: &String| {
        let end = whole.partition_point(|line| line[4..] <= **cut);
        let size = end - front;
        front = end;
        size
    };
    cuts.iter().map(size).collect()
}

fn cuts(file: &[u8], words: &[&str]) -> Vec<String> {
    let ran = run_with(&[&["cuts", "-"], words].concat(), file);
    assert_eq!((ran.status, ran.err.as_str()), (0, ""), "{words:?}");
    ran.out.lines().map(str::to_string).collect()
}

/// Pieces of equal numbers of members, whatever threads are alike.
#[test]
fn cuts_are_even() {
    let mut random = Random::new(72);
    let programs = (0..share::of(40)).map(|_| text(&frames_parted(&mut random, Size { threads: 5, accesses: 9, ..SMALL })));
    for file in programs.chain([one_failing(), read("tests/programs/000-ttaslock-4-alike.hex")]) {
        let whole = listed(&file, &[]);
        for pieces in [1, 2, 3, 7, 64] {
            let found = cuts(&file, &[&pieces.to_string()]);
            assert_eq!(found.len(), pieces.min(whole.len()), "{}", file.escape_ascii());
            let sizes = sizes(&whole, &found);
            let (least, most) = (sizes.iter().min().unwrap(), sizes.iter().max().unwrap());
            assert!(most - least <= 1 && sizes.iter().sum::<usize>() == whole.len(), "{sizes:?}: {}", file.escape_ascii());
        }
    }
}

#[test]
fn cuts_of_any_list() {
    let (file, pieces) = (longest(), 7u64);
    let found = cuts(&file, &["7"]);
    for (piece, cut) in (1..).zip(&found) {
        let ran = run_with(&["rank", "-", cut], &file);
        assert_eq!(ran.out, format!("place {} of {LISTED}\n", (piece as u128 * LISTED as u128 / pieces as u128)));
    }
    assert_eq!(found.len(), 7);
    // the range is cut at once too, into pieces of any length, the last of which ends behind the list
    assert_eq!(cuts(&file, &["7", "--by", "range"]).len(), 7);
    let ran = run(&["cuts", "examples/store-load-pair.hex", "2", "--model", "tso", "--by", "members"]);
    assert!(ran.status == 2 && ran.err.contains("no call finds a place of the list; --by range"), "{}", ran.err);
}

#[test]
fn members_drawn() {
    let queue = "examples/queue-broken.asm";
    let ran = run(&["sample", queue, "4", "--seed", "7"]);
    assert_eq!(run(&["sample", queue, "4", "--seed", "7"]), ran, "the same seed draws the same");
    assert!(ran.out.starts_with("seed 7: 4 of 6, each drawn from all of them, so that one may come twice\n"), "{}", ran.out);
    let whole = listed(&read("examples/queue-broken.hex"), &[]);
    let lines: Vec<&str> = ran.out.lines().collect();
    let failing = lines[1..5].iter().filter(|line| line.ends_with(" fails")).count();
    for line in &lines[1..5] {
        let words: Vec<&str> = line.split(' ').collect();
        let member = &whole[words[0].parse::<usize>().unwrap() - 1];
        assert_eq!((words[1], words.len() == 3), (&member[4..], member.starts_with("5001")));
    }
    assert_eq!((lines[5], ran.status), (format!("4 drawn, {failing} failing").as_str(), (failing > 0) as i32));
    // where no seed is given one is taken and told, by which the same are drawn again
    let any = run(&["sample", queue, "3", "--json"]);
    let objects: Vec<Value> = any.out.lines().map(parse).collect();
    assert!(objects.iter().all(fits_the_schema) && objects.len() == 4, "{}", any.out);
    let Some(Value::Number(seed)) = objects[3].get("seed") else { panic!("{}", any.out) };
    assert_eq!(run(&["sample", queue, "3", "--json", "--seed", &seed.to_string()]), any);
}

/// Each member is as likely as any other: of 30,000 draws from six each comes about 5,000 times.
#[test]
fn drawn_evenly() {
    let ran = run(&["sample", "examples/queue-broken.asm", "30000", "--seed", "1"]);
    let mut times = BTreeMap::new();
    for line in ran.out.lines().skip(1).take(30_000) {
        *times.entry(line.split(' ').next().unwrap().to_string()).or_insert(0) += 1;
    }
    assert!(times.len() == 6 && times.values().all(|times| (4_700..5_300).contains(times)), "{times:?}");
}

#[test]
fn drawn_from_any_list() {
    let file = longest();
    let ran = run_with(&["sample", "-", "5", "--seed", "3"], &file);
    assert_eq!(ran.status, 0, "{}", ran.err);
    let lines: Vec<&str> = ran.out.lines().collect();
    assert_eq!((lines.len(), lines[6]), (7, "5 drawn, 0 failing"));
    let places: Vec<u64> = lines[1..6].iter().map(|line| line.split(' ').next().unwrap().parse().unwrap()).collect();
    assert!(places.iter().all(|place| (1..=LISTED).contains(place)) && places.iter().any(|place| *place > LISTED / 2));
    for line in &lines[1..6] {
        let (place, schedule) = line.split_once(' ').unwrap();
        assert_eq!(run_with(&["rank", "-", schedule], &file).out, format!("place {place} of {LISTED}\n"));
    }
}

/// What cannot be done is refused in words.
#[test]
fn refused_in_words() {
    let whole = "examples/whole.hex";
    let said = |words: &[&str], told: &str| {
        let ran = run(words);
        assert!(ran.status == 2 && ran.out.is_empty() && ran.err.contains(told), "{words:?}: {}{}", ran.out, ran.err);
    };
    said(&["list", whole, "--from", "0"], "--from takes a number from 1 on, not 0");
    said(&["list", whole, "--to", "x"], "--to takes a number from 1 on, not x");
    said(&["list", whole, "--from", "18446744073709551616"], "--from takes a number from 1 on");
    said(&["list", whole, "--from", "5", "--to", "4"], "--to 4 stands before --from 5");
    said(&["list", whole, "--from", "2", "--after", "000102"], "--from and --after cannot be given together");
    said(&["count", whole, "--to", "2", "--until", "000102"], "--to and --until cannot be given together");
    said(&["show", whole, "000102", "--to", "2"], "--from, --to and --only choose from the list");
    said(&["rank", whole], "usage: tarczolin rank FILE SCHEDULE");
    said(&["rank", whole, "00"], "refusal 21 at step 1: the schedule ends too early");
    said(&["rank", whole, "0007"], "refusal 20 at step 1: there is no thread 7");
    said(&["rank", whole, &"00".repeat(60)], "refusal 20 at step 1");
    said(&["rank", "examples/accesses-25-refused.hex", "00"], "refusal 6 at line 27");
    said(&["sample", whole, "0"], "sample takes a number from 1 to 100000, not 0");
    said(&["sample", whole, "3", "--seed", "-1"], "--seed takes a number from 0 on, not -1");
    said(&["sample", whole, "3", "--model", "tso"], "no option --model here");
    said(&["sample", "examples/accesses-25-refused.hex", "1"], "refusal 6 at line 27");
    said(&["cuts", whole, "2", "--by", "size"], "--by takes the word members or range, not size");
    said(&["list", whole, "--memory", "x"], "--memory takes a number of bytes");
}
