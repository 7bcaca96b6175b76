//! The list made in pieces by separate runs of the command, joined: byte for byte the list.
mod common;

use common::{folder, run, run_with};
use std::path::{Path, PathBuf};
use std::process::Command;
use tarczolin_tests::files::{lines, path, read};

/// The recipes of docs/CLUSTER.md, which are files.
const RECIPES: [&str; 3] = ["piece", "by-parallel", "by-slurm"];

/// A folder with the recipes, a program and nothing of an earlier run.
fn recipes(name: &str, program: &[u8]) -> PathBuf {
    let folder = folder(&format!("cluster-{name}"));
    std::fs::remove_dir_all(&folder).unwrap();
    std::fs::create_dir_all(&folder).unwrap();
    for recipe in RECIPES {
        std::fs::copy(path(&format!("examples/cluster/{recipe}")), folder.join(recipe)).unwrap();
    }
    std::fs::write(folder.join("program.hex"), program).unwrap();
    folder
}

/// Runs a shell command in a folder, where `tarczolin` is the command: its exit status, and what it tells on standard error.
fn shell(folder: &Path, script: &str) -> (Option<i32>, String) {
    let tool = Path::new(env!("CARGO_BIN_EXE_tarczolin")).parent().unwrap().display();
    let script = format!("export PATH=\"{tool}:$PATH\" PARALLEL=--will-cite; {script}");
    let done = Command::new("bash").args(["-c", &script]).current_dir(folder).output().unwrap();
    // here nothing has to be fetched from another machine, and GNU parallel says so
    let told = String::from_utf8_lossy(&done.stderr)
        .replace("parallel: Warning: --return ignored as there are no remote --sshlogin.\n", "");
    (done.status.code(), told.trim().to_string())
}

/// The list that a recipe leaves is the list, and its status that of the list.
fn made(folder: &Path, script: &str) {
    assert_eq!(shell(folder, script), (Some(1), String::new()), "the list has a violation, and nothing is told");
    let list = std::fs::read_to_string(folder.join("list")).unwrap();
    let whole = run_with(&["list", "-"], &program()).out;
    assert!(list == whole && whole.lines().count() == 3_433);
    let pieces = std::fs::read_to_string(folder.join("cuts")).unwrap().lines().count();
    assert!(pieces == 12 && folder.join("piece-12").exists());
}

/// Where a piece cannot be made the recipe fails, and nothing is joined.
fn not_made(folder: &Path, script: &str) {
    std::fs::write(folder.join("piece"), "#!/bin/sh\n[ \"$1\" -ne 2 ] || exit 2\n").unwrap();
    std::fs::remove_file(folder.join("list")).unwrap();
    let (status, _) = shell(folder, script);
    assert!(status != Some(0) && !folder.join("list").exists(), "{status:?}");
}

fn program() -> Vec<u8> {
    lines(&format!("01 {} 01 {} 23000000000001", "10000000000001 ".repeat(7), "110000 ".repeat(7)))
}

#[test]
fn the_document_shows_the_recipes() {
    let document = String::from_utf8(read("docs/CLUSTER.md")).unwrap();
    for recipe in RECIPES {
        let file = String::from_utf8(read(&format!("examples/cluster/{recipe}"))).unwrap();
        assert!(document.contains(&format!("```sh\n{file}```")), "{recipe}");
    }
}

/// The pieces by xargs, which is everywhere.
#[test]
fn pieces_by_xargs() {
    let folder = recipes("xargs", &program());
    let make = "seq 12 | xargs -P 2 -I{} ./piece {}";
    made(&folder, &format!("tarczolin cuts program.hex 12 > cuts; {make} && tarczolin join $(seq -f piece-%g 12) > list"));
}

/// A violation is an answer, and what is refused is none.
#[test]
fn the_status_of_a_piece() {
    let folder = recipes("status", &read("examples/queue-broken.hex"));
    let ends = |script: &str| shell(&folder, script).0;
    assert_eq!(ends("tarczolin cuts program.hex 1 > cuts; ./piece 1"), Some(0));
    assert_eq!(ends("tarczolin list program.hex > whole"), Some(1), "the piece has violations");
    assert_eq!(std::fs::read(folder.join("piece-1")).unwrap(), std::fs::read(folder.join("whole")).unwrap());
    assert_eq!(ends("echo zz > program.hex; ./piece 1"), Some(2));
    assert_eq!(ends("rm program.hex; ./piece 1"), Some(2));
}

/// The pieces by GNU parallel, on this machine.
#[test]
fn pieces_by_gnu_parallel() {
    let there = Command::new("parallel").arg("--version").output().is_ok_and(|out| out.stdout.starts_with(b"GNU parallel"));
    if !there {
        println!("not run: GNU parallel is not installed here");
        return;
    }
    let folder = recipes("parallel", &program());
    made(&folder, "./by-parallel 12 2/:");
    not_made(&folder, "./by-parallel 12 2/:");
}

/// The pieces by a Slurm that is started for this and stopped behind it.
#[test]
#[ignore = "needs slurm-wlm and munge"]
fn pieces_by_slurm() {
    let folder = recipes("slurm", &program());
    let own = std::env::temp_dir().join(format!("slurm-{}", std::process::id()));
    let under = |command: &str| format!("{} {} '{command}'", path("tool/tarczolin/tests/slurm.sh").display(), own.display());
    made(&folder, &under("./by-slurm 12 > said"));
    let said = std::fs::read_to_string(folder.join("said")).unwrap();
    assert!(said.starts_with("Submitted batch job "), "{said}");
    not_made(&folder, &under("./by-slurm 12 > said"));
    std::fs::remove_dir_all(&own).unwrap();
}

#[test]
fn cuts_and_counts_of_pieces() {
    for (file, wanted) in [(program(), 5), (lines("01"), 1), (read("examples/whole.hex"), 3)] {
        let cuts = run_with(&["cuts", "-", &wanted.to_string()], &file).out;
        let cuts: Vec<&str> = cuts.lines().collect();
        assert_eq!(cuts.len(), wanted);
        let mut sum = (0, 0);
        for (k, until) in cuts.iter().enumerate() {
            let after = if k == 0 { vec![] } else { vec!["--after", cuts[k - 1]] };
            let words = [&["count", "-", "--until", until], &after[..]].concat();
            let out = run_with(&words, &file).out;
            assert_eq!(run_with(&[&words[..], &["--jobs", "3"]].concat(), &file).out, out);
            let numbers: Vec<u64> = out.split(' ').filter_map(|word| word.parse().ok()).collect();
            sum = (sum.0 + numbers[0], sum.1 + numbers[1]);
        }
        assert_eq!(format!("{} listed, {} failing\n", sum.0, sum.1), run_with(&["count", "-"], &file).out);
    }
    assert_eq!(run(&["cuts", "examples/whole.hex", "0"]).status, 2);
}

/// A run that was stopped goes on behind its last schedule.
#[test]
fn list_goes_on_behind_a_schedule() {
    let whole = run_with(&["list", "-"], &program()).out;
    let lines: Vec<&str> = whole.lines().collect();
    let rest = run_with(&["list", "-", "--after", &lines[1999][4..]], &program()).out;
    let rest: Vec<&str> = rest.lines().collect();
    assert_eq!(rest[..rest.len() - 1], lines[2000..3432]);
    assert_eq!(rest[rest.len() - 1], format!("51{:016x}{:016x}", 1432, 1));
}

/// A bound with a thread that the program has not is a slip: nothing would be listed behind it.
#[test]
fn bounds_name_threads_of_the_program() {
    for command in ["list", "count"] {
        for option in ["--after", "--until"] {
            let ran = run(&[command, "examples/whole.hex", option, "0003"]);
            let said = format!("tarczolin: {option}: there is no thread 03; the program has 3\n");
            assert_eq!((ran.status, ran.out.as_str(), ran.err), (2, "", said));
        }
    }
}

#[test]
fn join_sees_what_is_missing() {
    let folder = folder("cluster-join");
    let [front, back, short] = ["front", "back", "short"].map(|name| folder.join(name));
    let whole = run(&["list", "examples/whole.hex"]).out;
    std::fs::write(&front, run(&["list", "examples/whole.hex", "--until", "000102"]).out).unwrap();
    std::fs::write(&back, run(&["list", "examples/whole.hex", "--after", "000102"]).out).unwrap();
    std::fs::write(&short, "5000000102\n").unwrap();
    let [front, back, short] = [front, back, short].map(|path| path.display().to_string());
    assert_eq!(run(&["join", &front, &back]).out, whole);
    let wrong = run(&["join", &back, &front]);
    assert!(wrong.status == 2 && wrong.err.contains("does not go on with the list"), "{}", wrong.err);
    let wrong = run(&["join", "/dev/zero"]);
    assert!(
        wrong.status == 2 && wrong.err.len() < 200 && wrong.err.contains("does not go on with the list: ???"),
        "{}",
        wrong.err
    );
    let wrong = run(&["join", &short, &back]);
    assert!(wrong.status == 2 && wrong.err.contains("cut short"), "{}", wrong.err);
    assert_eq!(run(&["join", &front, "-"]).out, "", "an empty piece is cut short");
}

/// Pieces that do not fit leave nothing behind, whether they come from files or from a pipe; those that fit are read again.
#[test]
fn join_writes_all_or_nothing() {
    let folder = folder("cluster-whole");
    let [front, back] = ["front", "back"].map(|name| folder.join(name).display().to_string());
    let whole = run(&["list", "examples/whole.hex"]).out;
    std::fs::write(&front, run(&["list", "examples/whole.hex", "--until", "000102"]).out).unwrap();
    std::fs::write(&back, run(&["list", "examples/whole.hex", "--after", "000102"]).out).unwrap();
    let pipe = std::fs::read(&back).unwrap();
    assert_eq!(run_with(&["join", &front, "-"], &pipe).out, whole);
    let line = run_with(&["join", &front, "-", "--json"], &pipe).out;
    assert!(line.ends_with("{\"command\":\"join\",\"listed\":3,\"failing\":0}\n"), "{line}");
    for words in [["join", &front, &front], ["join", "-", &front], ["join", &front, "examples/whole.hex"]] {
        let wrong = run_with(&words, &pipe);
        assert_eq!((wrong.status, wrong.out.as_str()), (2, ""), "{words:?}");
        assert!(wrong.err.contains("does not go on with the list"), "{words:?}: {}", wrong.err);
    }
}

/// Under total store order too the cuts make pieces of the whole list.
#[test]
fn cuts_under_total_store_order() {
    let pair = "examples/store-load-pair.hex";
    let folder = folder("cluster-tso");
    let whole = run(&["list", pair, "--model", "tso"]).out;
    let cuts = run(&["cuts", pair, "3", "--model", "tso"]).out;
    let cuts: Vec<&str> = cuts.lines().collect();
    assert_eq!(cuts.len(), 3);
    let mut pieces = vec!["join".to_string()];
    for (k, until) in cuts.iter().enumerate() {
        let after = if k == 0 { vec![] } else { vec!["--after", cuts[k - 1]] };
        let piece = run(&[&["list", pair, "--model", "tso", "--until", until], &after[..]].concat());
        let path = folder.join(k.to_string());
        std::fs::write(&path, piece.out).unwrap();
        pieces.push(path.display().to_string());
    }
    assert_eq!(run(&pieces.iter().map(String::as_str).collect::<Vec<_>>()).out, whole);
    assert!(run(&["cuts", "examples/accesses-24.hex", "3", "--model", "tso"]).err.contains("refusal 41: "));
}
