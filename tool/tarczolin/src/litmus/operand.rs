//! Operands of x86's instructions, as Intel writes them.
use super::part::Part;
use crate::asm::{constant, Wrong};

/// The registers of 32 bits. Others are known so that they can be told of.
const REGISTERS: [&str; 16] =
    ["EAX", "EBX", "ECX", "EDX", "ESI", "EDI", "EBP", "ESP", "R8D", "R9D", "R10D", "R11D", "R12D", "R13D", "R14D", "R15D"];
const OTHERS: [&str; 36] = [
    "RAX", "RBX", "RCX", "RDX", "RSI", "RDI", "RBP", "RSP", "R8", "R9", "R10", "R11", "R12", "R13", "R14", "R15", "AX", "BX",
    "CX", "DX", "SI", "DI", "BP", "SP", "AL", "BL", "CL", "DL", "AH", "BH", "CH", "DH", "SIL", "DIL", "BPL", "SPL",
];

pub const AT_AND_T: &str = "this is AT&T's syntax, and Intel's is taken: MOV [x],$1";

/// A number, a register, or a location in brackets.
#[derive(Clone, Debug, PartialEq, Eq)]
pub enum Operand {
    Number(String),
    Register(String),
    Location(String),
}

/// The register of this name, by small letters.
pub fn register(part: Part) -> Result<String, Wrong> {
    let name = part.text().to_uppercase();
    match name.as_str() {
        _ if REGISTERS.contains(&name.as_str()) => Ok(name.to_lowercase()),
        _ if OTHERS.contains(&name.as_str()) => {
            Err(part.wrong(format!("{} has not 32 bits, as every value has here; EAX has", part.text())))
        }
        _ => Err(part.wrong(format!("{} is no register; a location stands in brackets: [x]", part.text()))),
    }
}

/// A location by its name.
pub fn location(part: Part) -> Result<String, Wrong> {
    let name = part.text();
    let letters = |c: char| c.is_ascii_alphabetic() || c == '_';
    if !name.starts_with(letters) || !name.chars().all(|c| letters(c) || c.is_ascii_digit()) {
        return Err(part.wrong(format!("a location is a name by itself, not {name}")));
    }
    match register(part) {
        Ok(_) => Err(part.wrong(format!("{name} is a register; an address in a register has no place here"))),
        Err(_) => Ok(name.to_string()),
    }
}

pub fn operand(part: Part) -> Result<Operand, Wrong> {
    let part = sized(part)?;
    let text = part.text();
    if text.contains(['%', '(']) {
        return Err(part.wrong(AT_AND_T));
    }
    if let Some(inner) = text.strip_prefix('[') {
        let closed = inner.strip_suffix(']').ok_or_else(|| part.wrong(format!("the bracket of {text} is not closed")))?;
        let inner = part.split_at(1).1.split_at(closed.len()).0;
        return location(inner.trim()).map(Operand::Location);
    }
    let number = text.strip_prefix('$').unwrap_or(text);
    match constant(number) {
        Some(Ok(_)) => Ok(Operand::Number(number.to_string())),
        Some(Err(message)) => Err(part.wrong(message)),
        None if text.starts_with('$') => Err(part.wrong(format!("a number stands behind $, not {number}"))),
        None => register(part).map(Operand::Register),
    }
}

/// The operand without its size, which is that of every value here.
fn sized(part: Part) -> Result<Part, Wrong> {
    let (size, rest) = part.word();
    let (word, behind) = rest.word();
    if !word.text().eq_ignore_ascii_case("PTR") {
        return Ok(part.trim());
    }
    match size.text().to_uppercase().as_str() {
        "DWORD" => Ok(behind),
        _ => Err(size.wrong(format!("{} PTR: every value has 32 bits here, DWORD PTR", size.text()))),
    }
}
