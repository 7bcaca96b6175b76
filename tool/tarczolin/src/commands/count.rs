//! count: how many schedules are listed, and how many of these fail; with --classes also how many executions they stand for.
use super::arguments::Arguments;
use super::opt::Opt;
use super::piece::{self, Piece};
use super::reply::{each, Question};
use crate::accepted::Accepted;
use crate::ask::{self, Counts};
use crate::end::End;
use crate::error::Error;
use crate::jobs::{Done, List};
use crate::json::{list as json_list, object, Json};
use crate::memory::Memory;
use crate::model::Model;
use crate::program::apart;
use std::collections::BTreeMap;
use tarczolin_sys::Scratch;

pub const CLASSES: Opt = Opt {
    name: "--classes",
    value: None,
    about: "also how many executions they stand for, and how many listed ones stand for so many each",
};
pub const BY: Opt = Opt {
    name: "--by",
    value: Some("size"),
    about: "beside --classes: walk the list for how many stand for so many each also where it is long, which takes its time",
};

/// Of a list that is no longer than this it is told how many stand for so many each.
const SHORT: u64 = 100_000;

/// What is asked: with classes, by their sizes in any case, and with so much memory.
#[derive(Clone, Copy)]
struct Asking {
    classes: bool,
    by_size: bool,
    memory: Memory,
}

pub fn run(arguments: &Arguments) -> Result<End, Error> {
    let piece = Piece::of(arguments)?;
    let by_size = arguments.one_of(BY.name, &[("size", true)], false)?;
    let asking = Asking { classes: arguments.flag(CLASSES.name), by_size, memory: piece.memory };
    if by_size && !asking.classes {
        return Err(Error::usage("--by size stands beside --classes"));
    }
    each("count", arguments, |question| counted(question, &piece, asking))
}

/// The whole list by one job is one call of the library; else its rows are counted.
fn counted(question: &Question, piece: &Piece, asking: Asking) -> Result<End, Error> {
    let source = question.source_under(piece.model)?;
    let list = piece.list(List::of(&source, asking.classes))?;
    // under total store order a call remembers no states, and is no quicker than the walk
    let by_states = piece.model == Model::Sc && !asking.by_size;
    if piece.is_one_call() && (!asking.classes || by_states) {
        match called(&list, piece.model, asking.memory) {
            Ok(counts) if !asking.classes => return told(question, counts, None, false),
            Ok(counts) if counts.listed > SHORT => {
                let classes = Classes { sum: all_executions(&source, asking.memory), sizes: None };
                return told(question, counts, Some(classes), false);
            }
            Ok(_) => {}
            Err(found) => {
                piece::tell_cut(&found);
                return told(question, found.counts, None, true);
            }
        }
    }
    let mut sizes = Sizes::default();
    // of the whole list the count is what is asked for
    let done = if piece.is_whole() { Done::by_range(&list) } else { Done::counted(&list, asking.memory) };
    let found = piece::walk_with(&list, piece.jobs, done, |part| {
        part.listed.iter().for_each(|listed| sizes.add(&list, &listed.schedule));
        Ok(())
    });
    piece::tell_cut(&found);
    let classes = asking.classes.then(|| Classes { sum: sizes.sum(), sizes: Some(sizes) });
    told(question, found.counts, classes, found.cut)
}

/// The counts by one call of the library, or what was found until Ctrl-C.
fn called(list: &List, model: Model, memory: Memory) -> Result<Counts, Box<piece::Found>> {
    let call = move |file: &[u8], scratch: &Scratch| ask::count_in(model, file, scratch);
    piece::answered(list, memory.looked_at(model, list.program), true, call).map(|counts| counts.expect("the file is accepted"))
}

/// How many executions all listed ones stand for: so many are listed of the file without its `02` lines.
fn all_executions(source: &Accepted, memory: Memory) -> u64 {
    let counts = ask::count(Model::Sc, &apart(&source.file), &mut memory.lent(Model::Sc, &source.program));
    counts.expect("an accepted file is one without its 02 lines too").listed
}

/// How many executions the listed ones stand for, and how many of these stand for so many each, where that is known.
struct Classes {
    sum: u64,
    sizes: Option<Sizes>,
}

/// How many listed executions stand for so many each.
#[derive(Default)]
struct Sizes(BTreeMap<u64, u64>);

impl Sizes {
    fn add(&mut self, list: &List, schedule: &[u8]) {
        let size = ask::class(list.program.model, list.file, schedule).expect("a listed schedule of an accepted file is full");
        *self.0.entry(size).or_default() += 1;
    }

    /// All executions that they stand for.
    fn sum(&self) -> u64 {
        self.0.iter().map(|(size, listed)| size * listed).sum()
    }

    fn table(&self) -> String {
        let row = |(size, listed): (&u64, &u64)| {
            let word = if *listed == 1 { "class" } else { "classes" };
            format!("  {listed} {word} of {size}\n")
        };
        self.0.iter().map(row).collect()
    }

    fn json(&self) -> Json {
        json_list(self.0.iter().map(|(size, listed)| object([("size", (*size).into()), ("listed", (*listed).into())])))
    }
}

fn told(question: &Question, counts: Counts, classes: Option<Classes>, cut: bool) -> Result<End, Error> {
    let Counts { listed, failing } = counts;
    let found = if cut { End::of_cut(failing) } else { End::of_failing(failing) };
    let fields = [("listed", listed.into()), ("failing", failing.into()), ("interrupted", cut.into())];
    let Some(Classes { sum, sizes }) = classes else {
        return question.answer(&format!("{listed} listed, {failing} failing"), fields, found);
    };
    let [all, bad, interrupted] = fields;
    let fields = [
        all,
        bad,
        interrupted,
        ("executions", sum.into()),
        ("classes", sizes.as_ref().map_or(Json::from(None::<u64>), Sizes::json)),
    ];
    let table =
        sizes.map_or("  (--by size walks the list for how many stand for so many each)\n".to_string(), |sizes| sizes.table());
    let text = format!("{listed} listed, {failing} failing, {sum} in all\n{table}");
    question.answer_text(text, fields, found)
}
