//! One cell of a test's code: a label, an instruction of x86, or both.
use super::operand::{operand, Operand, AT_AND_T};
use super::part::Part;
use crate::asm::{constant, Wrong};
use Operand::{Location, Number, Register};

/// What an instruction becomes.
#[derive(Clone, Debug, PartialEq, Eq)]
pub enum What {
    /// A statement, the registers that it reads, and the one that it gives a value.
    Statement {
        text: String,
        reads: Vec<String>,
        gives: Option<String>,
    },
    /// A fetch and add whose old value nobody asked for.
    Add {
        location: String,
        p: Operand,
    },
    /// A comparison, for the jumps right behind it.
    Compare {
        r: String,
        p: Operand,
    },
    /// A jump, always or where the comparison says equal or not.
    Jump {
        equal: Option<bool>,
        to: String,
    },
    Fence,
    /// A fence that x86 does without, and why.
    Needless(&'static str),
}

/// A cell: where it stands, its label, what it becomes, and the location that it names.
#[derive(Clone, Debug)]
pub struct Cell<'a> {
    pub part: Part<'a>,
    pub label: Option<Part<'a>>,
    pub what: Option<What>,
    pub location: Option<String>,
}

/// Reads a cell that is not empty.
pub fn cell(part: Part) -> Result<Cell, Wrong> {
    let (label, rest) = match part.split_once(':') {
        Some((label, rest)) => (Some(label.trim()), rest.trim()),
        None => (None, part),
    };
    let plain = |label: &Part| label.text().chars().all(|c| c.is_ascii_alphanumeric() || c == '_') && !label.is_empty();
    if let Some(label) = label.filter(|label| !plain(label)) {
        return Err(label.wrong(format!("a label is a name by itself, not {}", label.text())));
    }
    if rest.is_empty() {
        return Ok(Cell { part, label, what: None, location: None });
    }
    let (what, location) = instruction(rest)?;
    Ok(Cell { part: rest, label, what: Some(what), location })
}

/// What an instruction becomes, and the location that it names.
fn instruction(part: Part) -> Result<(What, Option<String>), Wrong> {
    let (first, rest) = part.word();
    let locked = first.text().eq_ignore_ascii_case("LOCK");
    let (name, rest) = if locked { rest.word() } else { (first, rest) };
    let mnemonic = name.text().to_uppercase();
    if let Some(what) = alone(&mnemonic).filter(|_| !locked && rest.is_empty()) {
        return Ok((what, None));
    }
    if mnemonic.starts_with('J') && !locked {
        return jump(part, &mnemonic, rest).map(|what| (what, None));
    }
    if KNOWN.iter().any(|known| ["L", "Q", "W", "B"].iter().any(|size| format!("{known}{size}") == mnemonic)) {
        return Err(name.wrong(AT_AND_T));
    }
    if mnemonic == "XCHG" {
        let message = "XCHG has no instruction here: none puts a value whatever was there and gives the old one";
        return Err(name.wrong(message));
    }
    if !KNOWN.contains(&mnemonic.as_str()) {
        return Err(unfit(part));
    }
    let operands: Result<Vec<Operand>, Wrong> = rest.split(',').into_iter().filter(|one| !one.is_empty()).map(operand).collect();
    let operands = operands?;
    let named = operands.iter().find_map(|one| if let Location(l) = one { Some(l.clone()) } else { None });
    let made = if locked { with_lock(&mnemonic, &operands) } else { without_lock(&mnemonic, &operands) };
    match made {
        Some(what) => Ok((what, named)),
        None if !locked && named.is_some() && !["MOV", "CMP"].contains(&mnemonic.as_str()) => {
            Err(part.wrong(format!("{} without LOCK is a load and a store of its own; write both", part.text())))
        }
        None => Err(unfit(part)),
    }
}

const KNOWN: [&str; 9] = ["MOV", "ADD", "SUB", "INC", "DEC", "XADD", "CMPXCHG", "CMP", "XCHG"];

fn unfit(part: Part) -> Wrong {
    part.wrong(format!(
        "{} is not of the part of x86 that fits: MOV, ADD, SUB, INC, DEC, LOCK ADD, SUB, INC, DEC, XADD, CMPXCHG, CMP with JE or JNE, \
         JMP and fences",
        part.text()
    ))
}

/// An instruction without operands.
fn alone(mnemonic: &str) -> Option<What> {
    match mnemonic {
        "MFENCE" => Some(What::Fence),
        "LFENCE" => Some(What::Needless("LFENCE is left out: x86 keeps the order of loads without it")),
        "SFENCE" => Some(What::Needless("SFENCE is left out: x86 keeps the order of stores without it")),
        _ => None,
    }
}

fn jump(part: Part, mnemonic: &str, to: Part) -> Result<What, Wrong> {
    let equal = match mnemonic {
        "JMP" => None,
        "JE" | "JZ" => Some(true),
        "JNE" | "JNZ" => Some(false),
        _ => return Err(unfit(part)),
    };
    if to.is_empty() || to.text().contains(char::is_whitespace) {
        return Err(part.wrong(format!("{mnemonic} names one label")));
    }
    Ok(What::Jump { equal, to: to.text().to_string() })
}

fn statement(text: String, operands: &[&Operand], gives: Option<&String>) -> What {
    let reads = operands.iter().filter_map(|one| if let Register(r) = one { Some(r.clone()) } else { None });
    What::Statement { text, reads: reads.collect(), gives: gives.cloned() }
}

fn without_lock(mnemonic: &str, operands: &[Operand]) -> Option<What> {
    Some(match (mnemonic, operands) {
        ("MOV", [Location(l), value @ (Number(p) | Register(p))]) => statement(format!("store {l} {p}"), &[value], None),
        ("MOV", [Register(r), Location(l)]) => statement(format!("{r} = load {l}"), &[], Some(r)),
        ("MOV", [Register(r), value @ (Number(p) | Register(p))]) => statement(format!("{r} = {p}"), &[value], Some(r)),
        ("ADD", [own @ Register(r), value @ (Number(p) | Register(p))]) => statement(format!("{r} += {p}"), &[own, value], None),
        ("SUB", [own @ Register(r), Number(p)]) => statement(format!("{r} += {}", negated(p)?), &[own], None),
        ("INC", [own @ Register(r)]) => statement(format!("{r} += 1"), &[own], None),
        ("DEC", [own @ Register(r)]) => statement(format!("{r} += -1"), &[own], None),
        ("CMP", [Register(r), p @ (Number(_) | Register(_))]) => What::Compare { r: r.clone(), p: p.clone() },
        _ => return None,
    })
}

fn with_lock(mnemonic: &str, operands: &[Operand]) -> Option<What> {
    let add = |l: &String, p: Operand| What::Add { location: l.clone(), p };
    Some(match (mnemonic, operands) {
        ("ADD", [Location(l), p @ (Number(_) | Register(_))]) => add(l, p.clone()),
        ("SUB", [Location(l), Number(p)]) => add(l, Number(negated(p)?)),
        ("INC", [Location(l)]) => add(l, Number("1".to_string())),
        ("DEC", [Location(l)]) => add(l, Number("-1".to_string())),
        ("XADD", [Location(l), Register(r)]) => statement(format!("{r} = fetch_add {l} {r}"), &[], Some(r)),
        // the old value comes to EAX, which had it already where the two are equal
        ("CMPXCHG", [Location(l), new @ Register(r)]) => {
            statement(format!("eax = cas {l} eax {r}"), &[new], Some(&"eax".to_string()))
        }
        _ => return None,
    })
}

/// The number that added is this one taken away.
fn negated(number: &str) -> Option<String> {
    constant(number)?.ok().map(|value| value.wrapping_neg().to_string())
}
