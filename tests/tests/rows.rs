//! Many listed schedules at a time: the rows are those of the list by brute force, for outputs of every length, and those
//! that start and continue give one at a time.
use tarczolin_tests::calls::{self, Answer, ROW, SCHEDULE};
use tarczolin_tests::files::{lines, text};
use tarczolin_tests::lent::held_rows;
use tarczolin_tests::oracle::calls as oracle;
use tarczolin_tests::oracle::decode::decode;
use tarczolin_tests::oracle::listing::{self, Listed};
use tarczolin_tests::oracle::machine::run_full;
use tarczolin_tests::papers;
use tarczolin_tests::random::program::{frames, Size, SMALL};
use tarczolin_tests::random::{damage, schedule, Random};
use tarczolin_tests::share;

/// Room for three rows, and what lies around each.
const OUTPUTS: usize = 100;
const SIX: Size = Size { threads: 6, instructions: 2, accesses: 6, ..SMALL };

/// Schedules to list behind: a listed one, a full one, one of any kind, a beginning, one that is too long, and any bytes.
fn behinds(random: &mut Random, file: &[u8], list: &[Listed]) -> Vec<Vec<u8>> {
    let program = decode(file).unwrap();
    let listed = random.pick(&(0..list.len()).collect::<Vec<_>>());
    let full = schedule::full(random, &program);
    let kind = random.pick(&schedule::ALL);
    let beginning = full[..random.below(full.len() + 1)].to_vec();
    let too_long = [full.clone(), vec![random.byte(); 30]].concat();
    let any = (0..random.below(40)).map(|_| random.byte()).collect();
    let of_kind = schedule::schedule(random, &program, kind);
    vec![list[listed].schedule.clone(), full, of_kind, beginning, too_long, any, vec![], vec![0], vec![255]]
}

/// Every output length from 0 to 100: the rows, and each byte behind and around them unchanged.
#[test]
fn every_output_length() {
    let mut random = Random::new(81);
    let (mut rows, mut none) = (0, 0);
    for k in 0..share::of(450) {
        let file = text(&frames(&mut random, if k % 2 == 0 { SMALL } else { SIX }));
        let list = listing::list(&decode(&file).unwrap());
        let behinds = behinds(&mut random, &file, &list);
        for output in 0..=OUTPUTS {
            for behind in std::iter::once(None).chain(behinds.iter().map(|b| Some(b.as_slice()))) {
                let found = listing::rows(&list, behind, output);
                rows += found.len() / ROW;
                none += (found.is_empty() && output >= ROW) as usize;
                held_rows(&mut random, &file, behind, output, &Ok(found));
            }
        }
    }
    println!("{rows} rows; {none} times no more");
    assert!(!share::whole() || (rows >= 80_000 && none >= 20_000));
}

/// A refused file: the program's refusal, for every output length and any schedule, and no byte changes.
#[test]
fn refused_files() {
    let mut random = Random::new(82);
    let mut refused = 0;
    for _ in 0..share::of(300) {
        let damage = random.pick(&damage::ALL);
        let file = damage::file(&mut random, damage);
        let Err(refusal) = decode(&file) else { continue };
        let behind: Vec<u8> = (0..random.below(30)).map(|_| random.byte()).collect();
        for output in 0..=OUTPUTS {
            held_rows(&mut random, &file, None, output, &Err(refusal));
            held_rows(&mut random, &file, Some(&behind), output, &Err(refusal));
        }
        refused += 1;
    }
    assert!(!share::whole() || refused >= 200);
}

/// The list one at a time.
fn by_continue(file: &[u8]) -> Vec<Listed> {
    let program = decode(file).unwrap();
    let mut list = Vec::new();
    let mut out = [0; SCHEDULE];
    let mut answer = calls::start(file, &mut out);
    while let Answer::Answered(length) = answer {
        let schedule = out[..length as usize].to_vec();
        answer = calls::continue_from(file, &schedule, &mut out);
        let fails = run_full(&program, &schedule).expect("full").fails();
        list.push(Listed { schedule, fails });
    }
    assert_eq!(answer, Answer::None);
    list
}

/// The list so many rows at a time.
fn by_rows(file: &[u8], room: usize) -> Vec<u8> {
    let mut all: Vec<u8> = Vec::new();
    let mut out = vec![0; room * ROW];
    let mut answer = calls::rows(file, &mut out);
    loop {
        let Answer::Answered(rows) = answer else { panic!("{answer:?}") };
        all.extend(&out[..rows as usize * ROW]);
        if (rows as usize) < room {
            return all;
        }
        let last = all[all.len() - ROW..].to_vec();
        answer = calls::rows_after(file, &last[2..2 + last[0] as usize], &mut out);
    }
}

/// On the programs of the papers and on random ones, whatever the number of rows at a time.
#[test]
fn rows_are_those_of_start_and_continue() {
    let mut random = Random::new(83);
    let papers = papers::all().into_iter().filter(|paper| paper.listed <= share::of(10_000) as u64).map(|paper| paper.file);
    let drawn: Vec<Vec<u8>> = (0..share::of(1_000)).map(|_| text(&frames(&mut random, SMALL))).collect();
    for file in papers.chain(drawn) {
        let one_at_a_time: Vec<u8> = by_continue(&file).iter().flat_map(listing::row).collect();
        for room in [1, 2, random.between(3, 300)] {
            assert!(by_rows(&file, room) == one_at_a_time, "{room} at a time: {}", file.escape_ascii());
        }
    }
}

/// A program without steps lists the empty schedule, and nothing lies behind it.
#[test]
fn no_step() {
    let mut random = Random::new(84);
    for (words, fails) in [("", 0), ("01", 0), ("01 23000000000001", 1)] {
        let file = lines(words);
        let row = [vec![0, fails], vec![0; SCHEDULE]].concat();
        assert_eq!(oracle::rows(&file, None, ROW), Ok(row.clone()));
        held_rows(&mut random, &file, None, 3 * ROW, &Ok(row));
        held_rows(&mut random, &file, Some(&[]), 3 * ROW, &Ok(vec![]));
    }
}
