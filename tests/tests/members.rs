//! The member of a number, and the number of a schedule: held to the list as the walk gives it, whatever the scratch's length and content;
//! every byte of every lent buffer is looked at.
use tarczolin_tests::calls::{self, Answer, ROW, SCHEDULE};
use tarczolin_tests::files::{lines, text};
use tarczolin_tests::lent::{held_by, shown};
use tarczolin_tests::oracle::calls::Found;
use tarczolin_tests::oracle::decode::{decode, Program};
use tarczolin_tests::oracle::listing;
use tarczolin_tests::oracle::machine::run_full;
use tarczolin_tests::oracle::{refused, Refusal};
use tarczolin_tests::papers;
use tarczolin_tests::random::program::{frames_parted, straight, Size, ANY, SMALL};
use tarczolin_tests::random::schedule::{self, Kind};
use tarczolin_tests::random::{damage, Random};
use tarczolin_tests::scratch::Scratch;
use tarczolin_tests::search::states::{Sc, States, Table};
use tarczolin_tests::search::walk::orders;
use tarczolin_tests::share;

/// The scratches of all lengths that have something about them.
const WORDS: [usize; 6] = [0, 1, 20, 64, 1_000, 1_000_000];

/// The whole list, by rows.
fn walked(file: &[u8]) -> Vec<Vec<u8>> {
    let (mut rows, mut all) = (vec![0; 512 * ROW], Vec::<Vec<u8>>::new());
    loop {
        let answer = match all.last() {
            None => calls::rows(file, &mut rows),
            Some(last) => calls::rows_after(file, last, &mut rows),
        };
        let Answer::Answered(number) = answer else { panic!("{answer:?}") };
        all.extend(rows.chunks_exact(ROW).take(number as usize).map(|row| row[2..2 + row[0] as usize].to_vec()));
        if number < 512 {
            return all;
        }
    }
}

/// kth answers so, with an output of that length; every other byte of it stays.
fn hold_kth(random: &mut Random, scratch: &mut Scratch, file: &[u8], number: u64, output: usize, found: &Found) {
    let (wanted, front) = shown(found);
    held_by(random, [file], output, (wanted, front), |[file], out| {
        scratch.held(wanted, |scratch| calls::kth(file, number, out, scratch), file);
        wanted
    });
}

/// rank answers so; its word is changed by an answer alone.
fn hold_rank(random: &mut Random, scratch: &mut Scratch, file: &[u8], schedule: &[u8], found: Result<u64, Refusal>) {
    let before = random.word();
    let mut rank = before;
    let wanted = match found {
        Ok(_) => Answer::Answered(0),
        Err(refusal) => Answer::Refused(refusal.number, refusal.place),
    };
    let lent = schedule.to_vec();
    scratch.held(wanted, |scratch| calls::rank(file, &lent, &mut rank, scratch), file);
    assert_eq!((rank, lent.as_slice()), (found.unwrap_or(before), schedule), "{schedule:?}: {}", file.escape_ascii());
}

/// How many listed ones are smaller than a schedule, or its refusal.
fn smaller(program: &Program, list: &[Vec<u8>], schedule: &[u8]) -> Result<u64, Refusal> {
    run_full(program, schedule).map(|_| list.partition_point(|listed| listed.as_slice() < schedule) as u64)
}

/// Both calls on a program of this list: some of its members, numbers around and behind its end, schedules of every kind.
fn hold(random: &mut Random, scratch: &mut Scratch, file: &[u8], list: &[Vec<u8>]) {
    let (program, end) = (decode(file).expect("accepted"), list.len() as u64);
    let numbers = [0, end - 1, end, end + 1, u64::MAX, random.word(), random.below(list.len()) as u64];
    for number in numbers {
        let output = if random.one_in(3) { random.below(2 * SCHEDULE) } else { SCHEDULE };
        let found = match output < SCHEDULE {
            true => refused(22, 0),
            false => Ok(list.get(number.min(usize::MAX as u64) as usize).cloned()),
        };
        hold_kth(random, scratch, file, number, output, &found);
    }
    for kind in [Kind::Full, Kind::Full, random.pick(&schedule::ALL)] {
        let steps = schedule::schedule(random, &program, kind);
        hold_rank(random, scratch, file, &steps, smaller(&program, list, &steps));
    }
    let number = random.below(list.len());
    hold_rank(random, scratch, file, &list[number], Ok(number as u64));
}

/// Sizes that a walk over the list takes no time for.
const SIZES: [Size; 6] = [
    SMALL,
    Size { threads: 2, instructions: 10, accesses: 10, registers: 4, ..SMALL },
    Size { threads: 6, instructions: 2, accesses: 6, ..SMALL },
    Size { threads: 4, instructions: 6, accesses: 10, locations: 3, ..SMALL },
    Size { threads: 3, instructions: 5, accesses: 8, constants: 0, ..SMALL },
    Size { threads: 4, instructions: 8, accesses: 12, registers: 3, ..SMALL },
];

#[test]
fn random_programs() {
    let mut random = Random::new(101);
    let mut scratches = WORDS.map(|words| Scratch::new(&mut random, words));
    let (mut alike, mut long) = (0, 0);
    for k in 0..share::of(6_000) {
        let file = text(&frames_parted(&mut random, SIZES[k % SIZES.len()]));
        let program = decode(&file).expect("accepted");
        let list = walked(&file);
        if orders(&program) <= 500 {
            let oracle: Vec<Vec<u8>> = listing::list(&program).into_iter().map(|listed| listed.schedule).collect();
            assert_eq!(list, oracle, "{}", file.escape_ascii());
        }
        alike += !program.alike.is_empty() as usize;
        long += (list.len() > 100) as usize;
        // of the longest scratch one in forty is enough
        let used = if k % 40 == 0 { 6 } else { 5 };
        scratches[..used].iter_mut().for_each(|scratch| hold(&mut random, scratch, &file, &list));
    }
    assert!(!share::whole() || (alike > 1_800 && long > 50), "{alike} alike, {long} long");
}

/// Every member of a list: its number gives it, and it gives its number. Any full schedule is a member exactly where the member of its
/// number is itself.
#[test]
fn there_and_back() {
    let mut random = Random::new(102);
    let (mut scratch, mut members, mut others) = (vec![0; 4_000], 0, 0);
    for _ in 0..share::of(1_000) {
        let file = text(&frames_parted(&mut random, SMALL));
        let program = decode(&file).expect("accepted");
        let list = walked(&file);
        let mut back = |schedule: &[u8]| {
            let (mut rank, mut out) = (u64::MAX, [0; SCHEDULE]);
            assert_eq!(calls::rank(&file, schedule, &mut rank, &mut scratch), Answer::Answered(0));
            match calls::kth(&file, rank, &mut out, &mut scratch) {
                Answer::Answered(length) => (rank, Some(out[..length as usize].to_vec())),
                other => (rank, (other != Answer::None).then(|| panic!("{other:?}"))),
            }
        };
        for (number, member) in (0..).zip(&list) {
            assert_eq!(back(member), (number, Some(member.clone())), "{}", file.escape_ascii());
            members += 1;
        }
        for _ in 0..10 {
            let steps = schedule::full(&mut random, &program);
            let (rank, found) = back(&steps);
            assert_eq!(rank, smaller(&program, &list, &steps).expect("full"));
            assert_eq!(found.as_ref() == Some(&steps), list.binary_search(&steps).is_ok(), "{}", file.escape_ascii());
            others += (found.as_ref() != Some(&steps)) as usize;
        }
    }
    assert!(!share::whole() || (members > 2_000 && others > 500), "{members} members, {others} others");
}

/// Programs of many accesses, whose lists nobody walks: beside plain Rust by states.
#[test]
fn large_programs() {
    let (mut random, mut table, mut scratch) = (Random::new(103), Table::new(1 << 14), vec![0; 1 << 18]);
    let mut compared = 0;
    for k in 0..share::of(100) {
        let size = Size { threads: 2 + k % 5, accesses: 18, locations: 1 + k % 3, registers: 2, constants: 3, ..ANY };
        let file = text(&if k % 3 == 0 { straight(&mut random, 2) } else { frames_parted(&mut random, size) });
        let program = decode(&file).expect("accepted");
        let mut states = States::new(Sc::new(&program));
        let Some(numbers) = states.count_within(&mut table, 100_000) else { continue };
        for number in [0, numbers.listed / 3, numbers.listed - 1, numbers.listed] {
            let mut out = [0; SCHEDULE];
            let found = match calls::kth(&file, number, &mut out, &mut scratch) {
                Answer::Answered(length) => Some(out[..length as usize].to_vec()),
                other => (other != Answer::None).then(|| panic!("{other:?}")),
            };
            assert_eq!(found, states.kth(&mut table, number), "{number}: {}", file.escape_ascii());
        }
        let (steps, mut rank) = (schedule::full(&mut random, &program), 0);
        assert_eq!(calls::rank(&file, &steps, &mut rank, &mut scratch), Answer::Answered(0));
        assert_eq!(rank, states.rank(&mut table, &steps), "{}", file.escape_ascii());
        compared += 1;
    }
    assert!(!share::whole() || compared > 50, "{compared}");
}

/// What is refused of a file comes before what is refused of an output or a schedule.
#[test]
fn refused_files() {
    let mut random = Random::new(104);
    let mut scratches = [0, 20, 1_000].map(|words| Scratch::new(&mut random, words));
    let mut refused = 0;
    for _ in 0..share::of(1_500) {
        let damage = random.pick(&damage::ALL);
        let file = damage::file(&mut random, damage);
        let Err(refusal) = decode(&file) else { continue };
        refused += 1;
        for scratch in &mut scratches {
            let (number, output) = (random.word(), random.below(2 * SCHEDULE));
            hold_kth(&mut random, scratch, &file, number, output, &Err(refusal));
            let steps: Vec<u8> = (0..random.below(30)).map(|_| random.byte()).collect();
            hold_rank(&mut random, scratch, &file, &steps, Err(refusal));
        }
    }
    assert!(!share::whole() || refused > 500, "{refused}");
}

/// The first and the last of every paper's list, and behind it.
#[test]
fn papers_by_numbers() {
    let mut random = Random::new(105);
    let mut scratch = Scratch::new(&mut random, 1_000_000);
    for paper in papers::all() {
        let mut out = [0; SCHEDULE];
        let mut at = |number| match calls::kth(&paper.file, number, &mut out, &mut vec![7; 50_000]) {
            Answer::Answered(length) => Some(out[..length as usize].to_vec()),
            _ => None,
        };
        let (first, last) = (at(0).expect("a first one"), at(paper.listed - 1).expect("a last one"));
        assert_eq!(at(paper.listed), None);
        let mut out = [0; SCHEDULE];
        assert_eq!(calls::start(&paper.file, &mut out), Answer::Answered(first.len() as u64));
        assert_eq!(out[..first.len()], first);
        assert_eq!(calls::continue_from(&paper.file, &last, &mut out), Answer::None);
        hold_rank(&mut random, &mut scratch, &paper.file, &first, Ok(0));
        hold_rank(&mut random, &mut scratch, &paper.file, &last, Ok(paper.listed - 1));
    }
}

/// Lists that nobody walks: a number beyond 2^51, whose members lie one behind the other.
#[test]
fn beyond_every_walk() {
    let file = lines(&format!("01 {}", "1200000000000001 ".repeat(4)).repeat(6));
    let listed = 3_246_670_537_110_000;
    let mut scratch = vec![0x5a5a_5a5a_5a5a_5a5a; 2 << 20];
    let mut out = [0; SCHEDULE];
    for number in [0, 1, 3_000_000_000_000_000, listed / 2, listed - 2] {
        assert_eq!(calls::kth(&file, number, &mut out, &mut scratch), Answer::Answered(24));
        let mut rank = 0;
        assert_eq!(calls::rank(&file, &out, &mut rank, &mut scratch), Answer::Answered(0));
        assert_eq!(rank, number);
        let (mut behind, mut next) = ([0; SCHEDULE], [0; SCHEDULE]);
        assert_eq!(calls::continue_from(&file, &out, &mut behind), Answer::Answered(24));
        assert_eq!(calls::kth(&file, number + 1, &mut next, &mut scratch), Answer::Answered(24));
        assert_eq!(behind, next, "{number}");
    }
    assert_eq!(calls::kth(&file, listed - 1, &mut out, &mut scratch), Answer::Answered(24));
    assert_eq!(out[..], [5, 4, 3, 2, 1, 0].map(|t| [t; 4]).concat());
    assert_eq!(calls::kth(&file, listed, &mut out, &mut scratch), Answer::None);
}
