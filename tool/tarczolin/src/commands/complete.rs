//! Completions for shells, made of the table of commands.
use super::command::Command;
use super::opt::Values;
use std::fmt::Write;

/// The script for a shell, if it is one of the three.
pub fn script(commands: &[&Command], shell: &str) -> Option<String> {
    match shell {
        "bash" => Some(bash(commands)),
        "zsh" => Some(zsh(commands)),
        "fish" => Some(fish(commands)),
        _ => None,
    }
}

fn names(commands: &[&Command]) -> String {
    commands.iter().map(|command| command.name).collect::<Vec<_>>().join(" ")
}

/// The words that may follow a command: its options, and where it takes one of a few words these.
fn followers(command: &Command, commands: &[&Command]) -> String {
    let words = match command.words {
        "[COMMAND]" => names(commands),
        words if words.contains('|') => words.replace('|', " "),
        _ => String::new(),
    };
    let options = command.all_options().map(|option| option.name).collect::<Vec<_>>().join(" ");
    format!("{words} {options}").trim_start().to_string()
}

/// A line of a case for each option of a command that takes a value: what is proposed behind it, as a shell says that.
fn behind_options(commands: &[&Command], words: &dyn Fn(&str) -> String, files: &str) -> String {
    let mut text = String::new();
    for command in commands {
        for option in command.all_options() {
            let proposed = match option.values() {
                None => continue,
                Some(Values::Words(known)) => words(&known.join(" ")),
                Some(Values::Files) => files.to_string(),
                Some(Values::Other) => ":".to_string(),
            };
            writeln!(text, "    '{} {}') {proposed}; return ;;", command.name, option.name).expect("text grows");
        }
    }
    text
}

/// The words of a line before the one that is completed: --model=tso is three words to bash.
const BASH_FRONT: &str = "_tarczolin() {
  local word=${COMP_WORDS[COMP_CWORD]} before=${COMP_WORDS[COMP_CWORD-1]} words
  COMPREPLY=()
  [ \"$word\" = = ] && word=
  [ \"$before\" = = ] && [ \"$COMP_CWORD\" -gt 2 ] && before=${COMP_WORDS[COMP_CWORD-2]}
";

fn bash(commands: &[&Command]) -> String {
    let words = |known: &str| format!("COMPREPLY=($(compgen -W '{known}' -- \"$word\"))");
    let values = behind_options(commands, &words, "COMPREPLY=($(compgen -f -- \"$word\"))");
    let mut text =
        format!("{BASH_FRONT}  case \"${{COMP_WORDS[1]}} $before\" in\n{values}  esac\n  case ${{COMP_WORDS[1]}} in\n");
    for command in commands {
        writeln!(text, "    {}) words='{}' ;;", command.name, followers(command, commands)).expect("text grows");
    }
    write!(text, "    *) words='' ;;\n  esac\n  [ \"$COMP_CWORD\" -eq 1 ] && words='{}'\n", names(commands)).expect("text grows");
    text += "  COMPREPLY=($(compgen -W \"$words\" -- \"$word\"))\n";
    text += "  [ \"$COMP_CWORD\" -gt 1 ] && COMPREPLY+=($(compgen -f -- \"$word\"))\n";
    text + "}\ncomplete -o filenames -F _tarczolin tarczolin\n"
}

fn zsh(commands: &[&Command]) -> String {
    let mut text = String::from("#compdef tarczolin\nlocal -a commands\ncommands=(\n");
    for command in commands {
        writeln!(text, "  '{}:{}'", command.name, command.about.replace(['\'', ':'], "")).expect("text grows");
    }
    text += ")\nif (( CURRENT == 2 )); then\n  _describe command commands\n  return\nfi\n";
    text += "local before=$words[CURRENT-1]\n[[ $PREFIX == --*=* ]] && before=${PREFIX%%=*} && compset -P '*='\n";
    let values = behind_options(commands, &|known| format!("compadd -- {known}"), "_files");
    write!(text, "case \"$words[2] $before\" in\n{values}esac\ncase $words[2] in\n").expect("text grows");
    for command in commands {
        writeln!(text, "  {}) compadd -- {} ;;", command.name, followers(command, commands)).expect("text grows");
    }
    text + "esac\n_files\n"
}

fn fish(commands: &[&Command]) -> String {
    let mut text = String::new();
    for command in commands {
        let about = command.about.replace('\'', "");
        writeln!(text, "complete -c tarczolin -n __fish_use_subcommand -a {} -d '{about}'", command.name).expect("text grows");
        for option in command.all_options() {
            let (name, about) = (option.name.trim_start_matches('-'), option.about.replace('\'', ""));
            let value = match option.values() {
                None => String::new(),
                Some(Values::Words(known)) => format!(" -x -a '{}'", known.join(" ")),
                Some(Values::Files) => " -r -F".to_string(),
                Some(Values::Other) => " -x".to_string(),
            };
            let seen = format!("'__fish_seen_subcommand_from {}'", command.name);
            writeln!(text, "complete -c tarczolin -n {seen} -l {name}{value} -d '{about}'").expect("text grows");
        }
    }
    text
}
