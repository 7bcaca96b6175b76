//! covers: what it prints, how it ends, and whose refusal it tells.
mod common;

use common::json::Value;
use common::{run, run_with};
use std::collections::BTreeSet;
use tarczolin_tests::files::text;
use tarczolin_tests::random::program::{frames, SMALL};
use tarczolin_tests::random::Random;
use tarczolin_tests::share;

const ADDS: &[u8] = b"01\n1200000000000001\n01\n1200000000000001\n";
const LOADS: &str = "examples/load-add-store.hex";

/// The lost update is the outcome that fetch and add does not have; both outcomes of the other are told.
#[test]
fn the_lost_update() {
    let ran = run_with(&["covers", "-", LOADS], ADDS);
    assert_eq!(ran.status, 1, "{}", ran.err);
    assert!(
        ran.out.starts_with(&format!("not covered: {LOADS} has an outcome that standard input lacks\n\nexecution: ")),
        "{}",
        ran.out
    );
    assert!(ran.out.contains("schedule 00 01 00 01, does not fail\n"), "{}", ran.out);
    assert!(ran.out.ends_with("outcome    x0=1\n\noutcomes of standard input:\n  x0=2\n"), "{}", ran.out);
    let ran = run_with(&["covers", LOADS, "-"], ADDS);
    assert_eq!((ran.status, ran.out.as_str()), (0, "covered\n"));
}

/// Only what fails differs.
#[test]
fn a_failure_is_an_outcome() {
    let asserted = "examples/load-assert-beside-store.hex";
    let ran = run_with(&["covers", "-", asserted], b"01\n110000\n01\n10000000000001\n");
    assert_eq!(ran.status, 1);
    assert!(ran.out.ends_with("outcome    x0=1, fails\n\noutcomes of standard input:\n  x0=1\n"), "{}", ran.out);
    assert_eq!(run_with(&["covers", asserted, "-"], b"01\n110000\n01\n10000000000001\n").status, 0);
}

/// Nothing is used, nothing fails.
#[test]
fn programs_without_accesses() {
    assert_eq!(run_with(&["covers", "examples/empty-thread.hex", "-"], b"").out, "covered\n");
    let ran = run_with(&["covers", "-", "examples/empty-thread.hex"], b"01\n23000000000001\n");
    assert!(ran.out.contains("outcome    no location is used, and nothing fails\n"), "{}", ran.out);
}

/// The first file's refusal comes first, and each is told of its file.
#[test]
fn refusals_of_either_file() {
    let bad = "examples/accesses-25-refused.hex";
    for (words, told) in [([bad, "-"], bad), ([LOADS, bad], bad), (["-", bad], "standard input")] {
        let ran = run_with(&["covers", words[0], words[1]], b"02\n");
        assert_eq!((ran.status, ran.out.as_str()), (2, ""), "{words:?}");
        assert!(ran.err.starts_with(&format!("tarczolin: {told}: ")), "{words:?}: {}", ran.err);
        let object = run_with(&["covers", words[0], words[1], "--json"], b"02\n").out;
        assert!(object.starts_with(&format!("{{\"command\":\"covers\",\"file\":\"{told}\",\"error\":")), "{object}");
    }
    assert_eq!(run(&["covers", LOADS]).status, 2);
}

/// Two files in a folder of their own, compared with these options.
fn compared(name: &str, old: &[u8], new: &[u8], options: &[&str]) -> common::Ran {
    let folder = common::folder(&format!("covers-{name}"));
    let [first, second] = [("old", old), ("new", new)].map(|(name, content)| {
        let path = folder.join(name);
        std::fs::write(&path, content).unwrap();
        path.display().to_string()
    });
    let ran = run(&[&["covers", &first, &second], options].concat());
    let short = |text: String| text.replace(&format!("{}/", folder.display()), "");
    common::Ran { status: ran.status, out: short(ran.out), err: short(ran.err) }
}

/// Which number a text's location gets nobody sees: what is the same by name is the same.
#[test]
fn locations_by_name() {
    let (old, new) = (b"thread\n  store head 1\n  store tail 2\n", b"thread\n  store tail 1\n  store head 2\n");
    let ran = compared("swapped", old, new, &[]);
    let wanted = "\
not covered: new has an outcome that old lacks

execution: schedule 00 00, does not fail
#0   T0  store tail = 1    2 | store tail 1
#1   T0  store head = 2    3 | store head 2
memory     head = 2, tail = 1
outcome    head=2, tail=1

outcomes of old:
  head=1, tail=2
";
    assert_eq!((ran.status, ran.out.as_str()), (1, wanted), "{}", ran.err);
    let same = compared("same", old, b"thread\n  store tail 2\n  store head 1\n", &[]);
    assert_eq!((same.status, same.out.as_str()), (0, "covered\n"), "{}", same.err);
    let ran = compared("by-number", old, new, &["--by", "number"]);
    assert_eq!((ran.status, ran.out.as_str()), (0, "covered\n"), "that is asked for: {}", ran.err);
}

/// Names of remark lines count as those of a text, and starting values as accesses do; a name that nothing uses does not.
#[test]
fn names_of_remarks_and_starting_values() {
    let text = b"init tail 1\nthread\n  store head 1\n";
    let file = b"# name x5 tail\n# name x2 head\n# name x3 unused\n030500000001\n01\n10020000000001\n";
    for (old, new) in [(&text[..], &file[..]), (file, text)] {
        let ran = compared("remarks", old, new, &[]);
        assert_eq!((ran.status, ran.out.as_str()), (0, "covered\n"), "{}", ran.err);
    }
    let ran = compared("started", text, b"thread\n  store head 1\n", &[]);
    assert!(
        ran.status == 1 && ran.out.ends_with("outcome    tail=0, head=1\n\noutcomes of old:\n  tail=1, head=1\n"),
        "{}",
        ran.out
    );
    let ran = compared("alone", b"thread\n  store head 1\n", b"thread\n  store other 1\n  store head 1\n", &["--json"]);
    assert!(ran.out.contains("\"outcome\":{\"memory\":{\"head\":1,\"other\":1},\"fails\":false}"), "{}", ran.out);
    assert!(ran.out.contains("\"outcomes\":[{\"memory\":{\"head\":1,\"other\":0},\"fails\":false}]"), "{}", ran.out);
}

/// Where it is not known which location is which, nothing is answered.
#[test]
fn names_that_do_not_fit() {
    let stores = |names: &[&str]| format!("thread\n{}", names.iter().map(|l| format!("  store {l} 1\n")).collect::<String>());
    let refused = |name: &str, old: &[&str], new: &[&str], said: &str| {
        let ran = compared(name, stores(old).as_bytes(), stores(new).as_bytes(), &[]);
        assert_eq!((ran.status, ran.out.as_str()), (2, ""), "{name}: {}", ran.err);
        assert!(ran.err.contains(said), "{name}: {}", ran.err);
        let numbers = compared(name, stores(old).as_bytes(), stores(new).as_bytes(), &["--by", "number"]);
        assert_ne!(numbers.status, 2, "{name}: {}", numbers.err);
    };
    refused("one", &["head"], &["x0"], "new: the locations of old have names, those of new only numbers; name all of them");
    refused("other", &["x1"], &["head"], "new: the locations of new have names, those of old only numbers; name all of them");
    refused(
        "some",
        &["x0", "head"],
        &["x0", "tail", "head"],
        "head of old is location 1, and tail of new is location 1, and not every",
    );
    refused("moved", &["x0", "head"], &["x1", "head"], "x0 of old is location 0, and head of new is location 0, and not every");
    let ran = compared("agreed", stores(&["x0", "head"]).as_bytes(), stores(&["head", "x0"]).as_bytes(), &[]);
    assert_eq!((ran.status, ran.out.as_str()), (0, "covered\n"), "{}", ran.err);
    let (old, new) = (stores(&["a", "b", "c", "d", "e"]), stores(&["e", "f", "g", "h", "i"]));
    let ran = compared("many", old.as_bytes(), new.as_bytes(), &[]);
    let said = "new: together the two programs name 9 locations, and there are at most 8: a, b, c, d, e, f, g, h, i";
    assert!(ran.status == 2 && ran.err.contains(said), "{}", ran.err);
    let ran = compared("numbers", stores(&["head"]).as_bytes(), stores(&["tail", "tail"]).as_bytes(), &["--by", "number"]);
    assert_eq!((ran.status, ran.out.as_str()), (0, "covered\n"), "{}", ran.err);
    let ran = compared("called", stores(&["head"]).as_bytes(), b"thread\n  store tail 2\n", &["--by", "number"]);
    assert!(
        ran.out.ends_with("outcome    x0=2\n\noutcomes of old:\n  x0=1\n") && ran.out.contains("store x0 = 2 "),
        "{}",
        ran.out
    );
}

/// A fence reads a location that nobody names: it is no matter of the comparison, in a text, where it is left out, and in a program file,
/// where it stays.
#[test]
fn fences_name_no_location() {
    let text = |swapped: bool, fence: &str| {
        let [a, b] = if swapped { ["tail", "head"] } else { ["head", "tail"] };
        format!("thread\n  store {a} 1\n{fence}  store {b} 1\nthread\n  n = load tail\n  assert n == 0\n")
    };
    let fenced = text(true, "  fence\n");
    let file = run_with(&["asm", "--remarks", "-"], fenced.as_bytes()).out;
    assert!(file.contains("# fence T0 1\n") && file.contains("\n1203070000000000\n"), "{file}");
    let stores = |names: std::ops::Range<usize>| names.map(|k| format!("  store n{k} 1\n")).collect::<String>();
    let all = format!("thread\n{}  store tail 1\n  store head 1\n", stores(0..6));
    for new in [fenced.as_bytes(), file.as_bytes()] {
        for old in [text(true, ""), text(false, "  fence\n"), text(false, "")] {
            for (one, other) in [(old.as_bytes(), new), (new, old.as_bytes())] {
                let ran = compared("fenced", one, other, &[]);
                assert_eq!((ran.status, ran.out.as_str()), (0, "covered\n"), "{old}{}", ran.err);
            }
        }
        let ran = compared("fenced-all", all.as_bytes(), new, &[]);
        assert_eq!(ran.status, 1, "eight names in all, and no ninth for a fence: {}", ran.err);
        assert!(ran.out.ends_with("n5=1, tail=1, head=1\n") && !ran.out.contains("x7"), "{}", ran.out);
    }
    let ran = compared("fenced-only", b"thread\n  store head 1\n", b"# fence T0 0\n01\n1203070000000000\n", &[]);
    assert!(ran.status == 1 && ran.out.contains("outcome    head=0\n"), "no location without a name: {}{}", ran.out, ran.err);
}

/// The file with other numbers for its locations, and name lines that say which is which.
fn renumbered(frames: &[Vec<u8>], to: &[u8; 8]) -> Vec<u8> {
    let names: String = (0..8).map(|l| format!("# name x{} place{l}\n", to[l])).collect();
    let moved = frames.iter().map(|frame| {
        let mut frame = frame.clone();
        match frame[0] {
            0x03 | 0x10 => frame[1] = to[frame[1] as usize],
            0x11..=0x13 => frame[2] = to[frame[2] as usize],
            _ => {}
        }
        frame
    });
    [names.into_bytes(), text(&moved.collect::<Vec<_>>())].concat()
}

/// Programs that differ only in their locations' numbers have the same list and the same answer against any other, the first listed
/// schedule that it lacks among it.
#[test]
fn numbers_change_nothing() {
    let mut random = Random::new(0x636f);
    let mut seen = [0; 2];
    for k in 0..share::of(150) {
        let [old, new] = [(); 2].map(|()| frames(&mut random, SMALL));
        let to: [u8; 8] = std::array::from_fn(|l| ((l * 3 + k) % 8) as u8);
        let (old, one) = (renumbered(&old, &[7, 6, 5, 4, 3, 2, 1, 0]), renumbered(&new, &[0, 1, 2, 3, 4, 5, 6, 7]));
        let other = renumbered(&new, &to);
        assert_eq!(run_with(&["list", "-"], &one), run_with(&["list", "-"], &other));
        let [one, other] = [one, other].map(|new| compared("renumbered", &old, &new, &["--json"]));
        assert!(one.status < 2, "{}", one.err);
        assert_eq!(one.out, other.out);
        seen[one.status as usize] += 1;
    }
    assert!(!share::whole() || seen.iter().all(|times| *times > 5), "{seen:?}");
}

const DEKKER: &str = "examples/suite/dekker.asm";
const PAIR: &str = "examples/store-load-pair.hex";

/// Each program under its own model, first that of the old one: the direction is told in words.
#[test]
fn under_two_models() {
    let ran = run(&["covers", DEKKER, DEKKER, "--under", "sc,tso"]);
    let front = format!(
        "not covered: {DEKKER} under total store order has an outcome that {DEKKER} under sequential consistency lacks\n\n"
    );
    assert!(
        ran.status == 1 && ran.out.starts_with(&format!("{front}execution: schedule 00 00 01 01 10 00 11 01, fails\n")),
        "{ran:?}"
    );
    let lacked = "outcome    wants_left=1, wants_right=1, inside=2, fails\n";
    let known =
        format!("{lacked}\noutcomes of {DEKKER} under sequential consistency:\n  wants_left=1, wants_right=1, inside=0\n");
    assert!(ran.out.contains(&known) && ran.out.ends_with("  wants_left=1, wants_right=1, inside=1\n"), "{}", ran.out);
    for (models, old, new) in
        [("tso,sc", "total store order", "sequential consistency"), ("tso", "total store order", "total store order")]
    {
        let ran = run(&["covers", DEKKER, DEKKER, "--under", models]);
        let covered = format!("covered: each outcome of {DEKKER} under {new} is one of {DEKKER} under {old}\n");
        assert_eq!((ran.status, ran.out), (0, covered), "{models}");
    }
    // the pair has another execution under total store order, and no other outcome
    assert_eq!(run(&["covers", PAIR, PAIR, "--under", "sc,tso"]).status, 0);
    assert_eq!(run(&["covers", PAIR, PAIR, "--under", "sc,sc"]).status, 0);
    let ran = run(&["covers", PAIR, PAIR, "--under", "x86"]);
    assert!(ran.status == 2 && ran.err.contains("--under takes the word sc or tso or sc,tso or tso,sc"), "{}", ran.err);
    assert!(run(&["covers", PAIR, PAIR, "--model", "tso"]).err.contains("covers takes --under"), "no --model");
}

/// A file is refused under its own model alone, and fences count under total store order alone.
#[test]
fn files_under_their_models() {
    let long = "examples/accesses-24.hex";
    for (models, files) in [("tso,sc", [long, PAIR]), ("sc,tso", [PAIR, long])] {
        let ran = run(&["covers", files[0], files[1], "--under", models]);
        assert!(ran.status == 2 && ran.err.contains(&format!("{long}: refusal 41")), "{models}: {ran:?}");
    }
    let text = String::from_utf8(std::fs::read(tarczolin_tests::files::path(DEKKER)).unwrap()).unwrap();
    let fenced = text.replace("  other = load", "  fence\n  other = load");
    assert_eq!(fenced.matches("fence\n").count(), 2);
    let ran = compared("fenced-dekker", fenced.as_bytes(), fenced.as_bytes(), &["--under", "sc,tso"]);
    assert_eq!(ran.status, 0, "{ran:?}");
    assert!(ran.err.starts_with("tarczolin: old: 2 fences are left out") && ran.err.lines().count() == 1, "{}", ran.err);
    let ran = compared("bare-dekker", fenced.as_bytes(), text.as_bytes(), &["--under", "tso"]);
    assert!(ran.status == 1 && ran.out.contains("inside=2, fails\n"), "{ran:?}");
}

/// A program and another under any two models: covered exactly where each outcome that `outcomes` tells of the new one is one of the old.
#[test]
fn covered_by_the_outcomes() {
    let mut random = Random::new(0x6375);
    let mut seen = [0; 2];
    let folder = common::folder("covers-outcomes");
    for k in 0..share::of(120) {
        let models = [["sc", "tso"], ["tso", "sc"], ["tso", "tso"], ["sc", "sc"]][k % 4];
        let one = text(&frames(&mut random, SMALL));
        let other = if k % 8 < 4 { one.clone() } else { text(&frames(&mut random, SMALL)) };
        let paths = [("old", &one), ("new", &other)].map(|(name, file)| {
            let path = folder.join(name);
            std::fs::write(&path, file).unwrap();
            path.display().to_string()
        });
        // all eight values: what a program does not name is 0 in it
        let named = |which: usize| {
            let ran = run(&["outcomes", &paths[which], "--model", models[which], "--json"]);
            let all = ran.out.lines().map(common::json::parse).filter(|one| one.get("outcome").is_some());
            let value =
                |one: &Value, l: usize| one.get("memory").unwrap().get(&format!("x{l}")).cloned().unwrap_or(Value::Number(0));
            all.map(|one| format!("{:?} {:?}", (0..8).map(|l| value(&one, l)).collect::<Vec<_>>(), one.get("fails")))
                .collect::<BTreeSet<_>>()
        };
        let covered = named(1).is_subset(&named(0));
        let ran = run(&["covers", &paths[0], &paths[1], "--under", &models.join(",")]);
        assert_eq!(ran.status, !covered as i32, "{models:?} {}{}", one.escape_ascii(), other.escape_ascii());
        seen[ran.status as usize] += 1;
    }
    assert!(!share::whole() || seen.iter().all(|times| *times > 15), "{seen:?}");
}
