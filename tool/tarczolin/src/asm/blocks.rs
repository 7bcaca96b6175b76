//! Lines and what stands in braces.
use super::line::Line;
use super::wrong::Wrong;

/// A line, or a head with the lines in its braces.
pub enum Block {
    Line(Line),
    Repeat { head: Line, body: Vec<Block> },
    Def { head: Line, body: Vec<Block> },
}

fn wrong(line: &Line, at: usize, message: &str) -> Wrong {
    Wrong { line: line.number, column: line.pieces[at].column, message: message.to_string() }
}

/// The blocks of lines, and what is wrong with their braces. A brace opens at the end of its line and is closed by a line of its own.
pub fn blocks(lines: Vec<Line>) -> (Vec<Block>, Vec<Wrong>) {
    let (mut top, mut all) = (Vec::new(), Vec::new());
    let mut open: Vec<(Line, Vec<Block>)> = Vec::new();
    for line in lines {
        let word = |at: usize| line.pieces[at].text.clone();
        let last = line.pieces.len() - 1;
        let brace = line.pieces.iter().position(|piece| piece.text == "{" || piece.text == "}");
        match brace {
            None if ["repeat", "def"].contains(&word(0).as_str()) => {
                all.push(wrong(&line, last, "{ is missing at the end of this line"));
            }
            None => push(&mut top, &mut open, Block::Line(line)),
            Some(at) if word(at) == "}" && last == 0 => match open.pop() {
                Some((head, body)) => {
                    let is_def = head.pieces[0].text == "def";
                    let block = if is_def { Block::Def { head, body } } else { Block::Repeat { head, body } };
                    push(&mut top, &mut open, block);
                }
                None => all.push(wrong(&line, at, "no brace is open here")),
            },
            Some(at) if word(at) == "{" && at == last && ["repeat", "def"].contains(&word(0).as_str()) => {
                open.push((line, Vec::new()));
            }
            Some(at) => {
                let message =
                    "a brace opens at the end of a line that begins with repeat or def, and is closed by a line of its own";
                all.push(wrong(&line, at, message));
            }
        }
    }
    all.extend(open.iter().map(|(head, _)| wrong(head, head.pieces.len() - 1, "this brace is not closed: } is missing")));
    (top, all)
}

/// A block inside of the one opened last, or outside of all.
fn push(top: &mut Vec<Block>, open: &mut [(Line, Vec<Block>)], block: Block) {
    match open.last_mut() {
        Some((_, body)) => body.push(block),
        None => top.push(block),
    }
}
