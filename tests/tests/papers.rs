//! The programs of the source papers, listed by the library, and by brute force where that is feasible; the counts are those
//! of the recount and those that the papers publish.
use tarczolin_tests::calls::{self, Answer};
use tarczolin_tests::files::path;
use tarczolin_tests::oracle::decode::decode;
use tarczolin_tests::oracle::listing;
use tarczolin_tests::oracle::machine::{every_full, run_full, Machine};
use tarczolin_tests::papers::{all, Paper, Published};
use tarczolin_tests::share;

/// Brute force is feasible up to so many full schedules.
const FEASIBLE: usize = 400_000;

/// The list by start and continue, each with whether it fails.
fn listed(file: &[u8]) -> Vec<listing::Listed> {
    let program = decode(file).unwrap();
    let mut list = Vec::new();
    let mut out = [0; 24];
    let mut answer = calls::start(file, &mut out);
    while let Answer::Answered(length) = answer {
        let schedule = out[..length as usize].to_vec();
        let fails = run_full(&program, &schedule).expect("full").fails();
        answer = calls::continue_from(file, &schedule, &mut out);
        list.push(listing::Listed { schedule, fails });
    }
    assert_eq!(answer, Answer::None);
    list
}

/// Are there few enough full schedules to walk them all?
fn feasible(file: &[u8]) -> bool {
    let program = decode(file).unwrap();
    let mut walked = 0;
    !every_full(&Machine::new(&program), &mut Vec::new(), &mut |_, _| {
        walked += 1;
        walked > share::of(FEASIBLE)
    })
}

fn as_published(paper: &Paper) -> bool {
    match paper.published {
        Published::Nothing => true,
        Published::All(number) => paper.listed == number,
        Published::Complete(number) => paper.listed - paper.failing == number,
        Published::AtLeast(number) => paper.listed >= number,
    }
}

#[test]
fn recounted() {
    let papers = all();
    let (mut by_force, mut published) = (0, 0);
    for paper in &papers {
        let list = listed(&paper.file);
        let (mut all, mut failing) = (0, 0);
        assert_eq!(calls::count(&paper.file, &mut all, &mut failing), Answer::Answered(0), "{}", paper.name);
        assert_eq!((all, failing), (paper.listed, paper.failing), "{}", paper.name);
        assert_eq!(listing::count(&list), (paper.listed, paper.failing), "{}", paper.name);
        assert!(as_published(paper), "{}: {:?}", paper.name, paper.published);
        published += (paper.published != Published::Nothing) as usize;
        if feasible(&paper.file) {
            assert_eq!(list, listing::list(&decode(&paper.file).unwrap()), "{}", paper.name);
            by_force += 1;
        }
    }
    println!("{} programs, {by_force} listed by brute force too, {published} with a published count", papers.len());
    let files = std::fs::read_dir(path("tests/programs")).unwrap().count() - 1;
    assert_eq!(papers.len(), files, "every program has a count");
    assert!(!share::whole() || (by_force >= 60 && published >= 30));
}
