//! The page of show --html: what stands in it.
mod common;

use common::run;
use std::path::PathBuf;

/// A folder for the pages of these tests.
fn folder() -> PathBuf {
    common::folder("pages")
}

/// The page of a program, with these further words.
fn page(name: &str, program: &str, words: &[&str]) -> (PathBuf, String) {
    let at = folder().join(format!("{name}.html"));
    let file = at.display().to_string();
    let ran = run(&[&["show", program, "--html", &file], words].concat());
    assert!(ran.out.contains(" execution"), "{ran:?}");
    let text = std::fs::read_to_string(&at).unwrap();
    (at, text)
}

fn count(text: &str, part: &str) -> usize {
    text.matches(part).count()
}

/// Every tag that is opened is closed, in order.
fn balanced(page: &str) {
    let mut open: Vec<&str> = Vec::new();
    for tag in page.split('<').skip(1).map(|rest| rest.split_once('>').expect("a tag ends").0) {
        let name = tag.trim_start_matches('/').split(' ').next().unwrap();
        match tag {
            _ if tag.starts_with('!') || tag.ends_with('/') || ["meta", "br"].contains(&name) => {}
            _ if tag.starts_with('/') => assert_eq!(open.pop(), Some(name)),
            _ => open.push(name),
        }
    }
    assert!(open.is_empty(), "{open:?}");
}

#[test]
fn columns_and_graph() {
    let (_, text) = page("queue", "examples/queue-broken.hex", &[]);
    balanced(&text);
    assert_eq!((count(&text, "<section "), count(&text, "class=\"fails\">\n<h2>")), (6, 3));
    assert_eq!(count(&text, "<svg class=\"graph\""), 6);
    assert_eq!(count(&text, "<p class=\"end\">at the end: x0 = "), 6);
    assert!(text.contains("<select id=\"thread\"><option value=\"\">all</option><option value=\"0\">T0</option>"));
    assert!(text.contains("keys: <kbd>n</kbd> next"));
    let second = text.split("<section ").find(|part| part.starts_with("id=\"e2\"")).unwrap();
    for cells in ["load x2 -&gt; r1 = 0 | initial", "load x1 -&gt; r1 = 7 | T0 store #1"] {
        let cell = |words: &str| format!("<td title=\"{words}\"><div>{words}</div></td>");
        let [step, seen] = [0, 1].map(|k| cell(cells.split(" | ").nth(k).unwrap()));
        assert!(second.contains(&(step + &seen)), "{cells} in {second}");
    }
    assert!(second.contains("assert r1 == 7 FAILS: r1 = 0"));
    // seven steps and one failed assertion; two, two and three steps of the threads follow each other
    assert_eq!((count(second, "<g class=\"step"), count(second, "<g class=\"failed\" ")), (7, 1));
    assert_eq!(count(second, "<path class=\"po\""), 4);
    // five reads; two writes of tail; from the first fetch and add to the second, and from the load of slot 1 to its store
    assert_eq!((count(second, "<path class=\"rf\""), count(second, "<path class=\"co\"")), (5, 1));
    assert_eq!(count(second, "<path class=\"fr\""), 2);
    assert!(second.contains("<title>initial is read by T2 #2</title>"));
    assert!(second.contains("<title>T2 #2 reads before T1 #1</title>"));
}

/// How light a colour is, by WCAG 2.
fn luminance(colour: &str) -> f64 {
    let part = |k: usize| {
        let value = u8::from_str_radix(&colour[k..k + 2], 16).unwrap() as f64 / 255.0;
        if value <= 0.03928 {
            value / 12.92
        } else {
            ((value + 0.055) / 1.055).powf(2.4)
        }
    };
    0.2126 * part(1) + 0.7152 * part(3) + 0.0722 * part(5)
}

/// Every colour of words and lines stands out from what it is written on by 4.5 to 1 (AA), light and dark.
#[test]
fn contrast() {
    let style = include_str!("../src/html/style.css");
    let themes: Vec<&str> = style.split(":root {").skip(1).map(|rest| rest.split('}').next().unwrap()).collect();
    assert_eq!(themes.len(), 2, "light and dark");
    for theme in themes {
        let colour =
            |name: &str| theme.split(&format!("--{name}: ")).nth(1).unwrap_or_else(|| panic!("{name}")).get(..7).unwrap();
        let ratio = |ink: &str, paper: &str| {
            let (a, b) = (luminance(colour(ink)), luminance(colour(paper)));
            (a.max(b) + 0.05) / (a.min(b) + 0.05)
        };
        for ink in ["ink", "soft", "rf", "co", "fr", "po", "bad", "t0", "t1", "t2", "t3", "t4", "t5"] {
            for paper in ["paper", "box"] {
                assert!(ratio(ink, paper) >= 4.5, "{ink} on {paper}: {:.2}", ratio(ink, paper));
            }
        }
        assert!(ratio("on-bad", "bad") >= 4.5 && ratio("bad", "bad-paper") >= 4.5);
    }
}

/// Nothing is fetched from anywhere: no address, no script, no picture, no style of another file.
#[test]
fn self_contained() {
    let (_, text) = page("whole", "examples/whole.hex", &[]);
    for word in ["http", "//", "<script ", "<link", "<img", "@import", "src=", "url(\""] {
        assert!(!text.contains(word), "{word}");
    }
    assert_eq!(count(&text, "url("), count(&text, "url(#"), "only arrow heads of the page itself");
}

/// One execution by its schedule: a page and a drawing of it alone, and nothing of a list is said.
#[test]
fn one_execution() {
    let (_, text) = page("one", "examples/queue-broken.asm", &["00000102020201"]);
    balanced(&text);
    assert_eq!((count(&text, "<section "), count(&text, "<svg class=\"graph\"")), (1, 1));
    assert!(text.contains("One execution by its schedule, <b>1 failing</b>."));
    let at = folder().join("drawn");
    let ran = run(&["show", "examples/queue-broken.asm", "00000102020201", "--svg", &at.display().to_string()]);
    assert_eq!(ran.status, 1, "{}", ran.err);
    assert!(std::fs::read_to_string(at.join("00000102020201-fails.svg")).unwrap().contains(">consumer</text>"));
    let ran = run(&["show", "examples/queue-broken.asm", "00000102020201", "--only", "failing"]);
    assert!(ran.status == 2 && ran.err.contains("a schedule names one execution"), "{}", ran.err);
    for words in
        [["show", "--html", "--svg"], ["show", "--svg", "--json"], ["graph", "--dot", "--svg"], ["graph", "--dot", "--json"]]
    {
        let [command, one, other] = words;
        let value = |option| ["--html", "--svg"].contains(&option) && command == "show";
        let given = |option| if value(option) { vec![option, "x"] } else { vec![option] };
        let ran = run(&[&[command, "examples/queue-broken.asm", "00000102020201"][..], &given(one), &given(other)].concat());
        assert!(ran.status == 2 && ran.err.contains("cannot be given together"), "{words:?}: {}", ran.err);
    }
}

#[test]
fn chosen_executions() {
    let (_, text) = page("failing", "examples/queue-broken.hex", &["--only", "failing", "--from", "4"]);
    let positions = [2, 3, 4, 5, 6].map(|k| text.contains(&format!("id=\"e{k}\"")));
    assert_eq!(positions, [false, false, true, true, false]);
    let (_, text) = page("many", "tests/programs/000-ttaslock-4.hex", &[]);
    assert!(count(&text, "<section ") == 500 && text.contains("left out of the page"));
    let ran = run(&["show", "examples/whole.hex", "--html", "no/such/folder/page.html"]);
    assert!(ran.status == 2 && ran.err.contains("no/such/folder/page.html"));
}
