//! The programs of the guide in C, C++ and Rust, compiled and run, and what `make install` puts where.
mod common;

use common::folder;
use std::process::{Command, Output};
use tarczolin_tests::files::{path, read};

/// Runs a shell command from the top of the repository.
fn shell(script: &str) -> Output {
    let output = Command::new("sh").args(["-c", script]).current_dir(path(".")).output().unwrap();
    assert!(output.status.code().is_some(), "{script}");
    output
}

fn text(name: &str) -> String {
    String::from_utf8(read(name)).unwrap()
}

#[test]
fn the_guide_shows_the_programs() {
    let guide = text("docs/GUIDE.md");
    assert!(guide.contains(&format!("```c\n{}```", text("examples/first.c"))));
    assert!(guide.contains(&format!("```rust\n{}```", text("tool/tarczolin-sys/examples/first.rs"))));
}

#[test]
fn c_and_cpp() {
    let folder = folder("c").display().to_string();
    let library = "target/staticlib/libtarczolin.a";
    let strict = "-Wall -Wextra -Werror -pedantic -Iinclude";
    for compile in [
        format!("cc -std=c99 {strict} examples/first.c {library} -o {folder}/first"),
        format!("c++ -x c++ {strict} examples/first.c -x none {library} -o {folder}/first"),
    ] {
        let built = shell(&compile);
        assert!(built.status.success(), "{compile}\n{}", String::from_utf8_lossy(&built.stderr));
        for (file, status, said) in [
            ("queue-broken", 1, "00000102020201\n"),
            ("queue-repaired", 0, "none\n"),
            ("accesses-25-refused", 2, "refusal 6 at line 27\n"),
        ] {
            let ran = shell(&format!("{folder}/first < examples/{file}.hex"));
            assert_eq!((ran.status.code(), String::from_utf8_lossy(&ran.stdout).as_ref()), (Some(status), said), "{file}");
        }
    }
}

/// The guide's own lines build and run: in a folder that has what the repository has, so that nothing is written beside it.
#[test]
fn the_build_lines_of_the_guide() {
    let at = folder("build_lines");
    for name in ["include", "examples", "target", "tool", "tests", "Cargo.toml", "Cargo.lock"] {
        let _ = std::os::unix::fs::symlink(std::fs::canonicalize(path(name)).unwrap(), at.join(name));
    }
    let guide = text("docs/GUIDE.md").replace('\n', " ");
    let line = |front: &str| {
        let from = guide.find(&format!("`{front}")).unwrap_or_else(|| panic!("{front}")) + 1;
        guide[from..].split('`').next().unwrap().to_string()
    };
    let folder = at.display();
    for (build, said) in [
        (line("cc -Iinclude") + " && ./first < examples/queue-broken.hex", "00000102020201\n"),
        (line("c++ -x c++") + " && ./first < examples/queue-broken.hex", "00000102020201\n"),
        (line("cargo run --offline"), "[00, 00, 01, 02, 02, 02, 01]\n"),
    ] {
        let ran = shell(&format!("cd {folder} && export CARGO_TARGET_DIR={folder}/cargo && {build}"));
        assert_eq!(String::from_utf8_lossy(&ran.stdout), said, "{build}: {}", String::from_utf8_lossy(&ran.stderr));
    }
}

/// Every name of a call in the header is in the library, and the constants are those of the Rust wrapper.
#[test]
fn the_header_fits() {
    let header = text("include/tarczolin.h");
    let tso = [("TSO_SCHEDULE", tarczolin_sys::tso::SCHEDULE), ("TSO_ROW", tarczolin_sys::tso::ROW)];
    let sc = [("SCHEDULE", tarczolin_sys::SCHEDULE), ("GRAPH", tarczolin_sys::GRAPH), ("ROW", tarczolin_sys::ROW)];
    for (name, value) in sc.into_iter().chain(tso) {
        assert!(header.contains(&format!("#define TARCZOLIN_{name} {value}\n")), "{name}");
    }
    assert!(header.contains(concat!("#define TARCZOLIN_VERSION \"", env!("CARGO_PKG_VERSION"), "\"")));
}

/// A library that was built elsewhere is taken as it is: nothing is proved, and the kit is not called.
#[test]
fn a_library_from_elsewhere() {
    let at = folder("from").join("lib/libtarczolin.a").display().to_string();
    let _ = std::fs::remove_file(&at);
    let made = shell(&format!("make -s library LIBRARY_FROM=target/staticlib/libtarczolin.a LIBRARY={at}"));
    assert!(made.status.success() && made.stdout.is_empty(), "{}", String::from_utf8_lossy(&made.stderr));
    assert!(std::fs::read(&at).unwrap() == read("target/staticlib/libtarczolin.a"));
    let tool = String::from_utf8(shell("make -n tool LIBRARY_FROM=/usr/local/lib/libtarczolin.a").stdout).unwrap();
    assert!(!tool.contains("rt ") && tool.contains("install -D -m 644 /usr/local/lib/libtarczolin.a "), "{tool}");
}

#[test]
fn make_alone_says_what_there_is() {
    let said = String::from_utf8(shell("make -s").stdout).unwrap();
    assert!(said.contains("make test ") && said.contains("make install PREFIX=P"), "{said}");
}
