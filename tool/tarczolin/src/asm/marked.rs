//! Fences of a program file: the remark line `# fence T0 2` says that instruction 2 of thread 0, from 0, is one.
use super::fence::may_change;
use super::remarks::Remarks;
use crate::program::{frames, Frame, Instruction, Names, Operand, FENCE};

/// The names that the remark lines of a program file give, its fences among them, and the remark lines without those that tell a fence.
pub fn named(file: &[u8]) -> (Names, Remarks) {
    let mut remarks = Remarks::of_file(file);
    let mut names = remarks.names();
    let code = code(file);
    let told: Vec<(u8, usize)> = remarks.fences().collect();
    let is = fences(&code, &told);
    for (t, at) in &is {
        let statements = &mut names.of_thread(*t).statements;
        statements.resize(code[*t as usize].len(), None);
        statements[*at] = Some(FENCE.to_string());
    }
    remarks.without_fences(&is);
    (names, remarks)
}

/// The code of each thread; none where the file is no program.
fn code(file: &[u8]) -> Vec<Vec<Instruction>> {
    let mut threads: Vec<Vec<Instruction>> = Vec::new();
    for frame in frames(file).unwrap_or_default() {
        match (frame, threads.last_mut()) {
            (Frame::Thread, _) => threads.push(Vec::new()),
            (Frame::Instruction(instruction), Some(code)) => code.push(instruction),
            _ => {}
        }
    }
    threads
}

/// Those of the told ones that can be fences: they add the constant zero, into a register by which nothing can tell. Whatever is said of
/// any other, it is shown as the instruction that it is.
fn fences(code: &[Vec<Instruction>], told: &[(u8, usize)]) -> Vec<(u8, usize)> {
    let mut all = told.to_vec();
    loop {
        let flagged = |t: u8| -> Vec<(Instruction, bool)> {
            let code = code[t as usize].iter().enumerate();
            code.map(|(at, instruction)| (*instruction, all.contains(&(t, at)))).collect()
        };
        let fits = |(t, at): &(u8, usize)| match code.get(*t as usize).and_then(|code| code.get(*at)) {
            Some(Instruction::FetchAdd { r, p: Operand::Constant(0), .. }) => may_change(&flagged(*t), *at, *r),
            _ => false,
        };
        let left: Vec<(u8, usize)> = all.iter().filter(|one| fits(one)).copied().collect();
        if left.len() == all.len() {
            return all;
        }
        all = left;
    }
}
