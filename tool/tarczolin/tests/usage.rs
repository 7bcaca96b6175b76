//! Help behind each command, versions, suggestions, the end of options, the manual page, completions.
mod common;

use common::{run, run_with};
use std::process::Command;
use tarczolin::commands::{all, Values};

/// The names in the parser's table.
fn names() -> Vec<&'static str> {
    let names: Vec<&str> = all().iter().map(|command| command.name).collect();
    assert!(names.len() == 26 && names.contains(&"outcomes") && names.contains(&"completions"));
    names
}

#[test]
fn help_of_each_command() {
    let all = run(&["help"]).out;
    for command in names() {
        let help = run(&[command, "-h"]);
        assert_eq!((help.status, help.err.as_str()), (0, ""));
        assert!(
            help.out.starts_with(&format!("usage: tarczolin {command}")) && help.out.contains("\nexample: tarczolin "),
            "{}",
            help.out
        );
        assert_eq!(run(&[command, "--help"]), help);
        assert_eq!(run(&["help", command]), help);
        assert!(all.contains(&format!("\n  {command}")), "{all}");
    }
    assert_eq!(run(&["--help"]).out, all);
    assert!(run(&["help", "lits"]).err.contains("there is no command lits; is it list?"));
}

#[test]
fn versions() {
    let version = run(&["--version"]);
    assert_eq!((version.status, version.out.as_str()), (0, concat!("tarczolin ", env!("CARGO_PKG_VERSION"), "\n")));
    for command in names() {
        assert_eq!(run(&[command, "--version"]), version);
    }
}

#[test]
fn suggestions() {
    let err = |words: &[&str]| run(words).err;
    assert!(err(&["lsit", "x"]).contains("there is no command lsit; is it list?"));
    assert!(err(&["list", "x", "--job", "2"]).contains("there is no option --job here; is it --jobs?"));
    assert!(err(&["list", "x", "--json=1"]).contains("--json takes no value"));
    assert!(err(&["frobnicate"]).contains("there is no command frobnicate\n"));
    assert!(err(&["version"]).contains("is it --version?") && err(&["import"]).contains("is it import-litmus?"));
    assert!(err(&["list", "x", "-jobs", "2"]).contains("there is no option -jobs here; is it --jobs?"));
    assert!(err(&["list", "-x"]).contains("there is no option -x here; a file whose name begins so stands behind --"));
    assert!(err(&["man", "x"]).contains("usage: tarczolin man\n"));
    assert!(err(&["completions", "tcsh"]).contains("usage: tarczolin completions bash|zsh|fish\n"));
}

/// Behind -- a word is a file, whatever it looks like.
#[test]
fn the_end_of_options() {
    for name in ["--json", "-h", "-x"] {
        let ran = run(&["check", "--", name]);
        assert!(ran.status == 2 && ran.err.contains(&format!("{name}: No such file")), "{}", ran.err);
    }
    assert_eq!(run(&["check", "--json", "--", "examples/whole.hex"]).status, 0);
}

/// The words behind a name in a line of a script.
fn behind<'a>(text: &'a str, front: &str) -> Vec<&'a str> {
    let line = text.lines().find_map(|line| line.trim().strip_prefix(front)).unwrap_or_else(|| panic!("{front} in {text}"));
    line.trim_end_matches(";;").split([' ', '\'']).filter(|word| !word.is_empty()).collect()
}

/// The manual page and the completions have every command and every option of the parser's table, and no other.
#[test]
fn every_command_and_option_is_listed() {
    let man = run(&["man"]).out.replace("\\-", "-");
    let [bash, zsh, fish] = ["bash", "zsh", "fish"].map(|shell| run(&["completions", shell]).out);
    assert_eq!(behind(&bash, "[ \"$COMP_CWORD\" -eq 1 ] && words="), names());
    for command in all() {
        let name = command.name;
        let options: Vec<&str> = command.all_options().map(|option| option.name).collect();
        let dashed = |words: Vec<&'static str>| words.into_iter().filter(|word| word.starts_with("--")).collect::<Vec<_>>();
        let (bash, zsh): (&'static str, &'static str) = (bash.clone().leak(), zsh.clone().leak());
        assert_eq!(dashed(behind(bash, &format!("{name}) words="))), options, "bash");
        assert_eq!(dashed(behind(zsh, &format!("{name}) compadd -- "))), options, "zsh");
        assert!(zsh.contains(&format!("\n  '{name}:")), "zsh: {name}");
        assert!(fish.contains(&format!("__fish_use_subcommand -a {name} ")), "fish: {name}");
        let of_fish = fish.lines().filter(|line| line.contains(&format!("'__fish_seen_subcommand_from {name}' -l ")));
        let of_fish: Vec<String> =
            of_fish.map(|line| format!("--{}", line.split(" -l ").nth(1).unwrap().split(' ').next().unwrap())).collect();
        assert_eq!(of_fish, options, "fish");
        let page = man.split(".TP\n.B ").find(|part| part.starts_with(&command.usage())).unwrap_or_else(|| panic!("man: {name}"));
        let of_man: Vec<&str> = page.lines().filter_map(|line| line.strip_prefix("--")?.split(':').next()).collect();
        assert_eq!(of_man, options.iter().map(|option| &option[2..]).collect::<Vec<_>>(), "man: {name}");
        assert!(page.contains(command.about) && page.contains(&format!("Example: {}", command.example)), "man: {name}");
    }
}

/// The help and the manual page say what the exit status means, which models there are, and the whole text form.
#[test]
fn the_whole_is_told() {
    let man = run(&["man"]).out.replace("\\-", "-");
    let help = run(&["help"]).out;
    for text in [&man, &help].map(|text| text.replace('\n', " ")) {
        for words in
            ["the hostile side can force it (force)", "--model tso", "stay with sequential consistency", "total store order"]
        {
            assert!(text.contains(words), "{words} in {text}");
        }
    }
    assert!(man.contains("T2.r1!=0") && run(&["help", "outcomes"]).out.contains("T2.r1!=0"));
    let statements = [
        "# remark",
        "const FULL = 0x10",
        "init tail FULL",
        "thread producer",
        "store tail 1",
        "n = load tail",
        "n = fetch_add tail 1",
        "n = cas tail 0 1",
        "fence",
        "n = 1",
        "n += -1",
        "if n != 1 skip 2",
        "if n == 1 goto done",
        "goto done",
        "assert n <= 7",
        "fail",
        "done:",
    ];
    for statement in statements.iter().chain(&[
        "alike first second",
        "thread worker * 3 alike",
        "repeat 2 {",
        "def push(node) {",
        "const next[0..3]",
        "exists x = 1",
        "forbid x = 1",
        "forall x = 1",
        "expect none",
    ]) {
        assert!(man.contains(&format!("\n{statement}\n")), "{statement} in {man}");
        for text in [&help, &run(&["help", "asm"]).out] {
            assert!(text.contains(&format!("\n  {statement} ")), "{statement} in {text}");
        }
    }
    assert_eq!(run_with(&["check", "-"], format!("{}\n", statements.join("\n")).as_bytes()).status, 0, "these are a program");
    assert_eq!(run_with(&["check", "-"], b"thread first\nthread second\nalike first second\n").status, 0);
}

#[test]
fn completions_complete() {
    let bash = run(&["completions", "bash"]).out;
    let script = format!(
        "{bash}\ntried() {{ COMP_WORDS=(tarczolin $1); COMP_CWORD=$((${{#COMP_WORDS[@]}} - 1)); _tarczolin; echo \"${{COMPREPLY[*]}}\"; }}\n\
         tried li; tried 'list --j'; tried 'completions z'; tried 'help outc'\n\
         tried 'list --model s'; tried 'show x --by t'; tried 'covers --by n'; tried 'show --only f'; tried 'list --model = t'\n\
         tried 'list --model ='; tried 'show --html us'; tried 'list --jobs us'; tried 'graph --svg us'"
    );
    let done = Command::new("bash").args(["-c", &script]).current_dir("/").output().unwrap();
    let words = "list\n--jobs --json\nzsh\noutcomes\n";
    let values = "sc\ntime thread\nname number\nfailing\ntso\nsc tso\nusr\n\nusr\n";
    assert_eq!(String::from_utf8_lossy(&done.stdout), [words, values].concat());
    assert!(run(&["completions", "zsh"]).out.starts_with("#compdef tarczolin\n"));
}

/// Every value behind an option that is one of a few words is proposed by each shell's script.
#[test]
fn completions_know_values() {
    let [bash, zsh, fish] = ["bash", "zsh", "fish"].map(|shell| run(&["completions", shell]).out);
    let mut number = 0;
    for command in all() {
        for option in command.all_options() {
            let Some(Values::Words(known)) = option.values() else { continue };
            let (known, at) = (known.join(" "), format!("'{} {}') ", command.name, option.name));
            assert!(bash.contains(&format!("{at}COMPREPLY=($(compgen -W '{known}' -- \"$word\")); return ;;")), "{at}");
            assert!(zsh.contains(&format!("{at}compadd -- {known}; return ;;")), "{at}");
            let name = option.name.trim_start_matches('-');
            let line = format!("'__fish_seen_subcommand_from {}' -l {name} -x -a '{known}' ", command.name);
            assert!(fish.contains(&line), "{line}");
            number += 1;
        }
    }
    assert!(number >= 10, "{number}");
}

/// The scripts of zsh and fish are read by these shells, where they are installed, and fish proposes by its own.
#[test]
fn completions_of_other_shells() {
    let folder = common::folder("completions");
    for shell in ["zsh", "fish"] {
        let script = folder.join(format!("tarczolin.{shell}"));
        std::fs::write(&script, run(&["completions", shell]).out).unwrap();
        let Ok(read) = Command::new(shell).arg("-n").arg(&script).output() else {
            println!("not run: {shell} is not installed here");
            continue;
        };
        assert!(read.status.success() && read.stderr.is_empty(), "{}", String::from_utf8_lossy(&read.stderr));
        if shell == "fish" {
            let tried = format!(
                "source {}; complete -C 'tarczolin list --model '; complete -C 'tarczolin show --by t'",
                script.display()
            );
            let said = Command::new(shell).args(["-N", "-c", &tried]).env("HOME", &folder).output().unwrap();
            let said = String::from_utf8_lossy(&said.stdout).into_owned();
            let words: Vec<&str> = said.lines().map(|line| line.split('\t').next().unwrap()).collect();
            assert_eq!(words, ["sc", "tso", "thread", "time"]);
        }
    }
}
