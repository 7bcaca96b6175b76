//! From a program to a litmus test.
use crate::program::{Instruction, Operand, Program};

const REGISTERS: [&str; 6] = ["EAX", "EBX", "ECX", "EDX", "ESI", "EDI"];

/// The test of this name, or what does not fit, in words.
pub fn export(name: &str, program: &Program) -> Result<String, String> {
    let columns: Result<Vec<Vec<String>>, String> = program.numbers().map(|t| column(program, t)).collect();
    let columns = columns?;
    if columns.is_empty() {
        return Err("a litmus test has at least one thread, and this program has none".to_string());
    }
    let height = columns.iter().map(Vec::len).max().unwrap_or(0);
    let starts = program.starts.iter().map(|(l, value)| format!("{}={value}; ", location(program, *l)));
    let mut text = format!("X86 {name}\n{{ {}}}\n", starts.collect::<String>());
    for row in 0..height {
        let cell = |column: &Vec<String>| format!(" {:<16}", column.get(row).map_or("", String::as_str));
        text += &format!("{};\n", columns.iter().map(cell).collect::<Vec<_>>().join("|"));
    }
    Ok(text + "exists (true)\n")
}

/// A location's name; a place of an array, as next[1], is next_1, or its number where another one is called so.
fn location(program: &Program, l: u8) -> String {
    let plain = |l: u8| program.names.location(l).replace('[', "_").replace(']', "");
    match (0..8).any(|other| other != l && plain(other) == plain(l)) {
        true => format!("x{l}"),
        false => plain(l),
    }
}

/// The registers of a thread: by their names where all of them are x86's, else by their numbers.
fn registers(program: &Program, t: u8) -> Vec<String> {
    let named: Vec<String> = (0..4).map(|r| program.names.register(t, r).to_uppercase()).collect();
    let fit = program.registers(t).iter().all(|r| REGISTERS.contains(&named[*r as usize].as_str()));
    if fit {
        named
    } else {
        REGISTERS.iter().map(ToString::to_string).collect()
    }
}

/// A thread: its name, and its instructions.
fn column(program: &Program, t: u8) -> Result<Vec<String>, String> {
    let registers = registers(program, t);
    let mut cells = vec![format!("P{t}")];
    for (at, instruction) in program.threads[t as usize].iter().enumerate() {
        if program.names.is_fence(t, at) {
            cells.push("MFENCE".to_string());
            continue;
        }
        let unfit = || format!("{} has no place in a litmus test", program.names.instruction(t, instruction));
        cells.extend(made(program, &registers, instruction).ok_or_else(unfit)?);
    }
    Ok(cells)
}

/// The cells of an instruction, if it fits.
fn made(program: &Program, registers: &[String], instruction: &Instruction) -> Option<Vec<String>> {
    let register = |r: u8| registers[r as usize].as_str();
    let operand = |p: Operand| match p {
        Operand::Constant(value) => format!("${value}"),
        Operand::Register(r) => register(r).to_string(),
    };
    let location = |l: u8| location(program, l);
    Some(match *instruction {
        Instruction::Store { l, p } => vec![format!("MOV [{}],{}", location(l), operand(p))],
        Instruction::Load { r, l } => vec![format!("MOV {},[{}]", register(r), location(l))],
        Instruction::Set { r, p } => vec![format!("MOV {},{}", register(r), operand(p))],
        Instruction::Add { r, p } => vec![format!("ADD {},{}", register(r), operand(p))],
        Instruction::FetchAdd { r, l, p } => {
            let add = format!("LOCK XADD [{}],{}", location(l), register(r));
            let set = (p != Operand::Register(r)).then(|| format!("MOV {},{}", register(r), operand(p)));
            set.into_iter().chain([add]).collect()
        }
        // it compares with EAX, and leaves the old value there
        Instruction::CompareSwap { r, l, e: Operand::Register(e), v: Operand::Register(v) } if e == r && register(r) == "EAX" => {
            vec![format!("LOCK CMPXCHG [{}],{}", location(l), register(v))]
        }
        _ => return None,
    })
}
