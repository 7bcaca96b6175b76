//! The page of show --html in a browser: how it is laid out, used and printed. These need chromium, and the gate runs them where it is.
mod common;

use common::{folder, run_with};
use std::path::{Path, PathBuf};
use std::process::Command;

/// Six threads with long names and values, as much as a program holds.
const WIDE: &str = include_str!("browser/wide.asm");
const SCHEDULE: &str = "00030401020105030400020505000200040301040502";

/// A page of a program, a script behind it.
fn page(name: &str, words: &[&str], input: &str, script: &str) -> PathBuf {
    let page = run_with(&[&["show"], words, &["--html", "-"]].concat(), input.as_bytes());
    assert!(page.status < 2, "{}", page.err);
    let at = folder("browser").join(format!("{name}.html"));
    std::fs::write(&at, page.out.replace("</body>", &format!("<script>{{\n{script}}}</script>\n</body>"))).unwrap();
    at
}

/// What chromium says of a page, with these words. Each caller has a profile of its own.
fn chromium(profile: &str, words: &[&str], page: &Path) -> String {
    let profile = format!("--user-data-dir={}", folder("browser").join(profile).display());
    let output = Command::new("chromium")
        .args(["--headless", "--no-sandbox", "--disable-gpu", "--disable-dev-shm-usage", "--window-size=1280,1200", &profile])
        .args(words)
        .arg(format!("file://{}", page.display()))
        .output()
        .expect("chromium starts");
    String::from_utf8_lossy(&output.stdout).into_owned()
}

/// The title that a page's script has written.
fn title(profile: &str, words: &[&str], page: &Path) -> String {
    let dom = chromium(profile, &[words, &["--dump-dom"]].concat(), page);
    let behind = dom.split("<title>").nth(1).unwrap_or_else(|| panic!("a page: {dom}"));
    behind.split("</title>").next().unwrap().chars().take(600).collect()
}

/// Words stand in their boxes, rows of the columns beside those of the drawing, no arrow passes behind a box, and programs of
/// three to six threads fit 1,280 pixels.
#[test]
#[ignore = "needs chromium"]
fn laid_out_in_a_browser() {
    let script = include_str!("browser/laid_out.js");
    let cases: [(&str, &[&str], &str); 6] = [
        ("queue", &["examples/queue-broken.asm"], "6"),
        ("lock", &["tests/programs/000-ttaslock-3.hex"], "108"),
        ("four", &["tests/programs/000-fais-array-4.hex", "--from", "1"], "24"),
        ("five", &["tests/programs/000-fais-5.hex"], "120"),
        ("six", &["examples/six-stores.hex"], "1"),
        ("wide", &["-", SCHEDULE], "1"),
    ];
    for (name, words, executions) in cases {
        let page = page(name, words, WIDE, script);
        assert_eq!(title("laid_out", &[], &page), format!("LOOKED AT {executions}: well"), "{name}");
    }
    let picture = folder("browser").join("queue.png");
    let words = format!("--screenshot={}", picture.display());
    chromium("laid_out", &[&words], &page("queue-seen", &["examples/queue-broken.asm"], "", ""));
    let bytes = std::fs::read(&picture).expect("a picture").len();
    assert!(bytes > 30_000, "a picture of {bytes} bytes shows nothing");
}

/// Keys, filters, the table that stays, dark and light.
#[test]
#[ignore = "needs chromium"]
fn used_in_a_browser() {
    let page = page("used", &["examples/queue-broken.asm"], "", include_str!("browser/used.js"));
    for (setting, name) in
        [("--blink-settings=preferredColorScheme=0", "dark"), ("--blink-settings=preferredColorScheme=1", "light")]
    {
        assert_eq!(title("used", &[setting], &page), format!("USED {name}: well"));
    }
}

/// The pages of paper that a page takes.
fn pages(name: &str, page: &Path) -> usize {
    let at = folder("browser").join(format!("{name}.pdf"));
    chromium("printed", &[&format!("--print-to-pdf={}", at.display())], page);
    let bytes = std::fs::read(&at).expect("a print");
    String::from_utf8_lossy(&bytes).matches("/Type /Page\n").count()
}

/// All executions are printed, those that a filter hides too, and one of 22 steps on one sheet behind that of the program.
#[test]
#[ignore = "needs chromium"]
fn printed_by_a_browser() {
    let words = ["examples/queue-broken.asm"];
    let whole = pages("whole", &page("printed", &words, "", ""));
    let hide = "document.querySelectorAll('section').forEach(section => { section.hidden = true; });";
    let filtered = pages("filtered", &page("printed-filtered", &words, "", hide));
    assert!(whole == filtered && whole >= 4, "{whole} pages, and {filtered} where all are hidden");
    assert_eq!(pages("wide", &page("printed-wide", &["-", SCHEDULE], WIDE, "")), 2);
}
