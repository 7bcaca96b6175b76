//! The table of docs/PERFORMANCE.md: the rows that are printed, and the script that puts them there.
use std::path::{Path, PathBuf};
use std::process::Command;
use tarczolin_tests::files::{path, read};
use tarczolin_tests::table::{grouped, ratio, row, row_by, time};

#[test]
fn rows_as_they_are_printed() {
    let times = [0.5, 58.04, 999.0, 6_810.0, 12_345.0, 338e6, 2.5e9].map(time);
    assert_eq!(times, ["0.50 ns", "58.0 ns", "999 ns", "6.81 us", "12.3 us", "338 ms", "2.50 s"]);
    assert_eq!([9.996, 99.96, 999.6, 999.6e3].map(time), ["10.0 ns", "100 ns", "1.00 us", "1.00 ms"]);
    assert_eq!([0.849, 0.1, 0.0019, 0.00001].map(ratio), ["0.85", "0.10", "1 / 526", "1 / 100,000"]);
    assert_eq!([7, 720, 1_225_550, 100_000].map(grouped), ["7", "720", "1,225,550", "100,000"]);
    assert_eq!(row("a", 30.0, 20.0, "2"), "| a | 30.0 ns | 20.0 ns | 1.50 | 2 |");
    assert_eq!(row_by("a", 3e3, 3e5, "by b", ""), "| a | 3.00 us | 300 us by b | 1 / 100 | |");
}

/// What the script says where it writes what was printed into a document, and the document then.
fn written(name: &str, document: &str, printed: &str) -> (bool, String, String) {
    let folder = Path::new(env!("CARGO_TARGET_TMPDIR"));
    let [into, recorded]: [PathBuf; 2] = ["md", "txt"].map(|end| folder.join(format!("performance-{name}.{end}")));
    std::fs::write(&into, document).unwrap();
    std::fs::write(&recorded, printed).unwrap();
    let script = path("tests/performance.py");
    let ran = Command::new("python3").arg(script).arg("--into").args([&into, &recorded]).output().unwrap();
    let said = String::from_utf8([ran.stdout, ran.stderr].concat()).unwrap();
    (ran.status.success(), said, std::fs::read_to_string(into).unwrap())
}

/// The parts of a document: in front of the marks, between them, behind them.
fn parts(document: &str) -> [&str; 3] {
    let (front, rest) = document.split_once("<!-- make bench writes what follows -->\n").unwrap();
    let (inner, end) = rest.split_once("<!-- make bench writes what precedes -->\n").unwrap();
    [front, inner, end]
}

/// Rows come between the marks of the document as it is, with whether their bounds are met; nothing else changes.
#[test]
fn the_table_is_written() {
    let document = String::from_utf8(read("docs/PERFORMANCE.md")).unwrap();
    let rows = [row("slow", 30.0, 10.0, "2"), row_by("quick", 3e3, 3e5, "by b", "1 / 20"), row("unasked", 9.0, 1.0, "")];
    let (done, said, text) = written("all", &document, &format!("A title\n{}\n| 2 | 3 | 4 |\nmore\n", rows.join("\nsaid\n")));
    assert!(done && said.starts_with("3 rows in "), "{said}");
    let ([front, _, end], [new_front, inner, new_end]) = (parts(&document), parts(&text));
    assert_eq!((front, end), (new_front, new_end));
    assert!(inner.ends_with(&format!("|---|---|---|---|---|\n{}\n\n", rows.join("\n"))) && !inner.contains("said"), "{inner}");
    assert!(inner.starts_with("\nMeasured on ") && inner.contains("\nOf 2 bounds 1 are not met: slow.\n"), "{inner}");
    let (_, _, again) = written("again", &text, &rows[1]);
    assert!(parts(&again)[1].contains("\nAll 1 bounds are met.\n") && !again.contains("unasked"), "{again}");
}

#[test]
fn nothing_is_written_where_something_is_wrong() {
    let document = String::from_utf8(read("docs/PERFORMANCE.md")).unwrap();
    let right = row("a", 1.0, 2.0, "");
    let long = row(&"a".repeat(100), 1.0, 2.0, "");
    for (document, printed) in [(&document, "no row\n"), (&document, &long), (&parts(&document)[0].to_string(), &right)] {
        let (done, said, text) = written("wrong", document, printed);
        assert!(!done && said.ends_with("nothing is written\n") && text == *document, "{said}");
    }
}
