//! Executions as a page, or each as a drawing of its own.
use super::chosen::{Walk, Walked};
use crate::ask::Listed;
use crate::called::called;
use crate::end::End;
use crate::error::Error;
use crate::execution::Execution;
use crate::html::{self, LeftOut, Page, Pick};
use crate::jobs::List;
use crate::output;
use std::ffi::OsStr;
use std::io;
use std::path::Path;

/// An execution of the list, ready to be shown.
pub fn execution<'a>(list: &'a List, position: u64, listed: &Listed) -> Execution<'a> {
    Execution::of(list.file, list.program, position, listed).expect("a listed schedule of an accepted file is full")
}

/// What comes onto a page of the list; what is left out is told. Of a long list no more is looked at than shows what the page holds.
pub fn of_list<'a>(name: &'a str, walk: &Walk<'a>) -> Result<Page<'a>, Error> {
    let list = walk.list;
    let mut pick = Pick::default();
    let mut stopped = false;
    let Walked { counts: listed, cut, .. } = walk.walk(&mut |position, listed| {
        pick.add(position, listed);
        stopped = walk.is_enough(&pick);
        // what stops the walk is nobody's error
        match stopped {
            true => Err(io::Error::other("the page is full")),
            false => Ok(()),
        }
    });
    if cut {
        return Err(Error::Interrupted(listed));
    }
    let left_out = if stopped { walk.left_out(&mut pick) } else { pick.left_out() };
    let executions = pick.picked().iter().map(|(position, listed)| execution(list, *position, listed)).collect();
    let page = Page { name, program: list.program, listed: Some(listed), executions, left_out };
    if let Some(left_out) = page.tell_left_out() {
        output::tell(&left_out);
    }
    Ok(page)
}

/// A page of one execution.
pub fn of_one<'a>(name: &'a str, execution: Execution<'a>) -> Page<'a> {
    let (program, left_out) = (execution.program, LeftOut::default());
    Page { name, program, listed: None, executions: vec![execution], left_out }
}

/// Writes a page.
pub fn page(page: &Page, to: &OsStr) -> Result<End, Error> {
    let found = End::of_failing(page.all().failing);
    if to == "-" {
        return output::answer(page.text(), found);
    }
    std::fs::write(to, page.text()).map_err(|cause| Error::File { name: called(to), cause })?;
    output::answer(format!("{}, in {}\n", page.counts(), called(to)), found)
}

/// What a drawing's file is called: by the place in the list, or by the schedule.
fn file_name(execution: &Execution) -> String {
    match execution.position {
        None if execution.schedule.is_empty() => "no-step".to_string(),
        _ => execution.name(),
    }
}

/// Writes a drawing of each execution into a folder: `2.svg`, or `2-fails.svg`.
pub fn drawings(page: &Page, folder: &OsStr) -> Result<End, Error> {
    if Path::new(folder).exists() && !Path::new(folder).is_dir() {
        return Err(Error::usage(format!("--svg takes a folder, and {} is none", called(folder))));
    }
    let written = std::fs::create_dir_all(folder).and_then(|()| {
        page.executions.iter().try_for_each(|execution| {
            let fails = if execution.fails { "-fails" } else { "" };
            let name = format!("{}{fails}.svg", file_name(execution));
            std::fs::write(Path::new(folder).join(name), html::drawing(execution))
        })
    });
    written.map_err(|cause| Error::File { name: called(folder), cause })?;
    output::answer(format!("{}, in {}\n", page.counts(), called(folder)), End::of_failing(page.all().failing))
}
