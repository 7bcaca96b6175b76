//! The listing program, run: its whole output on program files, against the oracle.
use std::fs::File;
use std::io::{Read, Write};
use std::process::{Child, Command, Stdio};
use std::time::Duration;
use tarczolin_tests::files::{lines, path, read, text};
use tarczolin_tests::oracle::calls::report;
use tarczolin_tests::oracle::decode::decode;
use tarczolin_tests::oracle::graph::Graph;
use tarczolin_tests::oracle::machine::run_full;
use tarczolin_tests::random::damage::{file as damaged, ALL};
use tarczolin_tests::random::program::{frames, SMALL};
use tarczolin_tests::random::Random;

/// How many schedules the program prints at a time.
const PIECE: usize = 256;

fn started(input: Stdio) -> Child {
    let program = path("crates/explorer/out/explorer");
    let mut command = Command::new(&program);
    command.stdin(input).stdout(Stdio::piped()).stderr(Stdio::piped());
    command.spawn().unwrap_or_else(|e| panic!("{}: {e} (make explorer builds it)", program.display()))
}

/// What the program prints for this input, which it is handed through a pipe.
fn printed(file: &[u8]) -> Vec<u8> {
    let mut child = started(Stdio::piped());
    let mut input = child.stdin.take().unwrap();
    let whole = file.to_vec();
    // the program need not read a long file to its end, so a write may fail
    let writer = std::thread::spawn(move || input.write_all(&whole).is_ok());
    let output = child.wait_with_output().unwrap();
    writer.join().unwrap();
    assert!(output.status.success() && output.stderr.is_empty(), "{output:?}");
    output.stdout
}

fn expect(name: &str, file: &[u8]) {
    assert_eq!(String::from_utf8(printed(file)), String::from_utf8(report(file)), "{name}");
}

#[test]
fn the_example_of_document_01() {
    let output = "5000000102 5000010002 5000010200 5100000000000000030000000000000000";
    assert_eq!(printed(&read("examples/whole.hex")), lines(output));
}

/// Nothing on standard input, as a pipe and as a file: the program of no thread.
#[test]
fn nothing_on_standard_input() {
    let output = lines("5000 5100000000000000010000000000000000");
    assert_eq!(printed(b""), output);
    let read = started(Stdio::null()).wait_with_output().unwrap();
    assert_eq!((read.stdout, read.status.success()), (output.clone(), true));
    assert_eq!(printed(&lines("020001")), lines("52080001"), "02 names threads that are not there");
    assert_eq!(printed(&lines("030000000001")), output, "only a starting value");
    assert_eq!(printed(&lines("01 030000000000")), lines("52280002"), "40 is printed as the byte 28");
}

#[test]
fn every_program_of_the_repository() {
    let mut files = 0;
    for folder in ["examples", "tests/programs"] {
        for entry in std::fs::read_dir(path(folder)).unwrap() {
            let at = entry.unwrap().path();
            // the oracle walks every schedule, and this one has too many
            let too_many = at.file_stem().is_some_and(|s| s == "accesses-24");
            if at.extension().is_some_and(|e| e == "hex") && !too_many {
                expect(&at.display().to_string(), &std::fs::read(&at).unwrap());
                files += 1;
            }
        }
    }
    assert!(files > 80, "{files} files");
    let one = format!("50{} 51{:016x}{:016x}", "00".repeat(13) + &"01".repeat(12), 1, 0);
    assert_eq!(printed(&read("examples/accesses-24.hex")), lines(&one), "24 loads of one location");
}

#[test]
fn random_programs() {
    let mut random = Random::new(50);
    for k in 0..400 {
        expect(&format!("random program {k}"), &text(&frames(&mut random, SMALL)));
    }
}

#[test]
fn random_refused_files() {
    let mut random = Random::new(52);
    for &damage in &ALL {
        for _ in 0..8 {
            let file = damaged(&mut random, damage);
            if decode(&file).is_err() {
                expect(&format!("{damage:?}"), &file);
            }
        }
    }
}

/// Two threads, so many stores and so many loads of one location: every schedule is listed.
fn race(location: u8, stores: usize, loads: usize) -> String {
    format!("01 {}01 {}", format!("10{location:02x}0000000001 ").repeat(stores), format!("1100{location:02x} ").repeat(loads))
}

/// Lists of more schedules than are printed at a time.
#[test]
fn many_pieces() {
    for (stores, loads, listed) in [(5, 5, 252), (6, 4, 210), (6, 6, 924), (7, 6, 1716)] {
        let file = lines(&race(0, stores, loads));
        let output = printed(&file);
        assert_eq!(output.iter().filter(|&&b| b == b'\n').count(), listed + 1);
        assert_eq!(output, report(&file), "{stores} stores, {loads} loads");
    }
}

/// A list that ends where a piece ends: 8 times 8 times 4 graphs, too many schedules for the oracle to walk.
#[test]
fn as_many_as_a_piece_holds() {
    let file = lines(&format!("{} {} {}", race(0, 1, 7), race(1, 1, 7), race(2, 1, 3)));
    let program = decode(&file).unwrap();
    let output = String::from_utf8(printed(&file)).unwrap();
    let mut rows: Vec<&str> = output.lines().collect();
    assert_eq!(rows.pop(), Some("5100000000000001000000000000000000"));
    assert_eq!(rows.len(), PIECE);
    assert!(rows.windows(2).all(|w| w[0] < w[1]), "strictly ascending");
    let mut graphs: Vec<Vec<u8>> = Vec::new();
    for row in rows {
        let frame: Vec<u8> = (0..row.len() / 2).map(|k| u8::from_str_radix(&row[2 * k..2 * k + 2], 16).unwrap()).collect();
        assert_eq!(&frame[..2], &[0x50, 0]);
        graphs.push(Graph::of(&run_full(&program, &frame[2..]).unwrap()).text());
    }
    graphs.sort();
    graphs.dedup();
    assert_eq!(graphs.len(), PIECE, "no graph twice");
}

#[test]
fn long_files() {
    for (name, file, output) in [
        ("4,096 digits", vec![b'0'; 4096], "52020001"),
        ("4,097 digits", vec![b'0'; 4097], "52010000"),
        ("4,098 line ends", vec![b'\n'; 4098], "52010000"),
        (
            "a program, then lines to 4,097 bytes",
            [read("examples/whole.hex"), vec![b'\n'; 4097]].concat()[..4097].to_vec(),
            "52010000",
        ),
    ] {
        assert_eq!(printed(&file), lines(output), "{name}");
        assert_eq!(report(&file), lines(output), "the oracle on {name}");
    }
}

/// A million bytes are refused at once: the program ends while most of them are not even in the pipe.
#[test]
fn a_file_that_is_not_read_to_its_end() {
    let mut child = started(Stdio::piped());
    let mut input = child.stdin.take().unwrap();
    let writer = std::thread::spawn(move || input.write_all(&vec![b'0'; 1_000_000]).is_ok());
    let mut output = Vec::new();
    child.stdout.take().unwrap().read_to_end(&mut output).unwrap();
    assert!(child.wait().unwrap().success());
    assert_eq!(output, lines("52010000"));
    assert!(!writer.join().unwrap(), "nobody read a million bytes");
}

/// A file that comes byte by byte is read to its end.
#[test]
fn a_slow_file() {
    let mut child = started(Stdio::piped());
    let mut input = child.stdin.take().unwrap();
    for byte in read("examples/whole.hex") {
        input.write_all(&[byte]).unwrap();
        std::thread::sleep(Duration::from_millis(1));
    }
    drop(input);
    assert_eq!(child.wait_with_output().unwrap().stdout, report(&read("examples/whole.hex")));
}

/// Where nothing can be read, nothing is printed but the reason.
#[test]
fn no_file() {
    let output = started(Stdio::from(File::open(path("tests")).unwrap())).wait_with_output().unwrap();
    assert!(output.stdout.is_empty());
    assert_eq!(output.stderr, b"standard input cannot be read\n");
}
