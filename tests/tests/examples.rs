//! Every program file that document 01 and docs/CONTRACT.md tell of, with its exact answer.
use tarczolin_tests::calls::{check, Answer};
use tarczolin_tests::files::{lines, path, read};
use tarczolin_tests::oracle::decode::decode;

const ACCEPTED: Answer = Answer::Answered(0);

fn expect(name: &str, file: &[u8], answer: Answer) {
    let oracle = match decode(file) {
        Ok(_) => ACCEPTED,
        Err(r) => Answer::Refused(r.number, r.place),
    };
    assert_eq!(check(file), answer, "the library on {name}");
    assert_eq!(oracle, answer, "the oracle on {name}");
}

#[test]
fn examples_of_document_01() {
    let names = [
        "empty-thread",
        "no-thread",
        "whole",
        "whole-with-remarks",
        "whole-without-02",
        "load-add-store",
        "load-add-store-alike",
        "compare-and-swap-3",
        "compare-and-swap-3-alike",
        "fetch-and-add-3",
        "fetch-and-add-3-alike",
        "store-load-pair",
        "load-assert-beside-store",
        "six-stores",
        "add-wraps",
        "accesses-24",
        "adding-zero-3",
        "message-passing",
        "queue-broken",
        "queue-repaired",
    ];
    for name in names {
        expect(name, &read(&format!("examples/{name}.hex")), ACCEPTED);
    }
    expect("the 25th access", &read("examples/accesses-25-refused.hex"), Answer::Refused(6, 27));
    let entries = std::fs::read_dir(path("examples")).unwrap().map(|entry| entry.unwrap().path());
    let files = entries.filter(|at| at.extension().is_some_and(|e| e == "hex")).count();
    assert_eq!(files, names.len() + 1, "every program file of examples/ is in this table");
}

#[test]
fn whole_case_as_printed() {
    let file = lines("01 10000000000001 01 110000 01 110000 020102");
    assert_eq!(file, read("examples/whole.hex"));
    expect("the whole case", &file, ACCEPTED);
}

#[test]
fn programs_of_the_papers() {
    for entry in std::fs::read_dir(path("tests/programs")).unwrap() {
        let at = entry.unwrap().path();
        if at.extension().is_some_and(|e| e == "hex") {
            expect(&at.display().to_string(), &std::fs::read(&at).unwrap(), ACCEPTED);
        }
    }
}

/// The decided readings on program files, by their numbers.
#[test]
fn decided_readings() {
    let loads = |n: usize| "110000 ".repeat(n);
    let twelve = format!("01 23000000000001 {}", loads(12));
    let six = "01 ".repeat(6);
    let table: Vec<(&str, Vec<u8>, Answer)> = vec![
        ("1: empty file", vec![], ACCEPTED),
        ("33: 02 in a file without threads", lines("020001 020102"), Answer::Refused(8, 1)),
        ("2: 02 before any thread", lines("020001"), Answer::Refused(8, 1)),
        ("3: one member", lines("01 01 0200"), Answer::Refused(3, 3)),
        ("3: seven members", lines(&format!("{six} 0200010203040506")), Answer::Refused(3, 7)),
        ("3: six members", lines(&format!("{six} 02000102030405")), ACCEPTED),
        ("4: equal members", lines("01 01 020000"), Answer::Refused(8, 3)),
        ("5: one code begins the other", lines("01 110000 01 110000 110000 020001"), Answer::Refused(8, 6)),
        ("6: thread number above 5", lines("01 01 0200ff"), Answer::Refused(8, 3)),
        ("7: 4,096 digits", vec![b'0'; 4096], Answer::Refused(2, 1)),
        ("7: 4,097 digits", vec![b'0'; 4097], Answer::Refused(1, 0)),
        ("8: accesses that no run reaches count", lines(&format!("{twelve} {twelve} 01 110000")), Answer::Refused(6, 30)),
        ("8: without the 25th", lines(&format!("{twelve} {twelve} 01")), ACCEPTED),
        ("9: a skip to just behind the end", lines("01 2200000000000001 110000"), ACCEPTED),
        ("9: a skip past the end", lines("01 2200000000000002 110000"), Answer::Refused(7, 2)),
        ("10: 7 after 8", lines("01 2200000000000001 01 020001"), Answer::Refused(8, 4)),
        ("10: the earliest of two", lines("01 2200000000000001 01 2200000000000001"), Answer::Refused(7, 2)),
        ("11: all four bytes of a register", lines("01 10000100000100"), Answer::Refused(4, 2)),
    ];
    for (name, file, answer) in table {
        expect(name, &file, answer);
    }
}

/// One file for each refusal of the list, and the order in which a line is checked.
#[test]
fn order_of_refusals() {
    let table = [
        ("2 before 3", "01 0x", 2, 2),
        ("3 before 4", "01 1109", 3, 2),
        ("4 before 5", "110900", 4, 1),
        ("5: an instruction before any thread", "110000", 5, 1),
        ("5: a thread behind a 02", "01 01 020001 01", 5, 4),
        ("5: an instruction behind a 02", "01 01 020001 110000", 5, 4),
        ("5 before 6", "01 01 01 01 01 01 020001 01", 5, 8),
        ("6: a seventh thread", "01 01 01 01 01 01 01", 6, 7),
        ("8 before a later 2", "01 020001 0x", 8, 2),
        ("2 of a later line before 7", "01 2200000000000001 0x", 2, 3),
        ("8: in an earlier 02", "01 01 01 020001 020102", 8, 5),
        ("8: not ascending", "01 01 020100", 8, 3),
        ("8: other code", "01 110000 01 110100 020001", 8, 5),
        ("7 in the second thread", "01 01 2200000000000001", 7, 3),
        ("4: a skip of 0", "01 2200000000000000 110000", 4, 2),
        ("4: a skip of 16", "01 2200000000000010 110000", 4, 2),
        ("4: operand kind 2", "01 10000200000000", 4, 2),
        ("3: a thread of two bytes", "0101", 3, 1),
        ("3: kind 00", "01 00", 3, 2),
    ];
    for (name, words, number, place) in table {
        expect(name, &lines(words), Answer::Refused(number, place));
    }
    expect("2: an empty line", b"01\n\n", Answer::Refused(2, 2));
    expect("2: a lone 0a", b"\n", Answer::Refused(2, 1));
    expect("2: no last 0a", b"01\n110000", Answer::Refused(2, 2));
    expect("2: G", b"01\n10000000000G01\n", Answer::Refused(2, 2));
    expect("b: a capital", b"01\n10000000000A01\n", ACCEPTED);
    expect("1 before all", &[b'\n'; 4097], Answer::Refused(1, 0));
}
