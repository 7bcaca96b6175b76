//! Executions as one page that needs nothing else: the two columns, and beside them the graph drawn, row by row.
mod drawing;
mod escape;
mod lanes;
mod layout;
mod page;
mod pick;
mod rows;
mod section;

use crate::execution::Execution;

pub use page::Page;
pub use pick::{LeftOut, Pick};

/// The drawing of one execution, as a file of its own.
pub fn drawing(execution: &Execution) -> String {
    let style = include_str!("style.css");
    let svg = drawing::svg(execution, &rows::rows(execution));
    let (front, inner) = svg.split_once('>').expect("a tag ends");
    let space = " xmlns=\"http://www.w3.org/2000/svg\"";
    format!("{front}{space}>\n<style>\n{style}</style>\n{}{inner}", drawing::heads())
}
