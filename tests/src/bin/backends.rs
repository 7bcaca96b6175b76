//! What `tests/backends/main.rattle` is asked, and what it must answer by the oracle, as files `NN` and `NN.stdout` of a folder, a part each: every
//! call on known programs, on those of the papers, on random ones and on damaged files, and calls on records. A part is no longer than an
//! interpreter's run may be.
use std::path::PathBuf;
use tarczolin_tests::files::{path, text};
use tarczolin_tests::oracle::calls::{self as sc, Found, GRAPH, SCHEDULE};
use tarczolin_tests::oracle::covers::{self, Covers};
use tarczolin_tests::oracle::decode::{decode, Program};
use tarczolin_tests::oracle::force::{self, Forced};
use tarczolin_tests::oracle::machine::run_full;
use tarczolin_tests::oracle::robust::robust_in;
use tarczolin_tests::oracle::tso::calls as tso;
use tarczolin_tests::oracle::tso::listing as tso_listing;
use tarczolin_tests::oracle::users::{Call, Lists, Said, Shared};
use tarczolin_tests::oracle::{listing, Refusal};
use tarczolin_tests::papers;
use tarczolin_tests::random::program::{frames_parted, Size, SMALL};
use tarczolin_tests::random::{damage, graph, schedule, tso as random_tso, users, Random};

/// What an output is filled with, and rows of so many bytes.
const FILLED: u8 = 0xaa;
const ROWS: [usize; 2] = [26, 50];
/// A scratch has so many words: none, too few for a key, enough for one, for two or for more.
const WORDS: [usize; 6] = [0, 1, 22, 29, 64, 120];
/// Inputs are shorter than this.
const LONGEST: usize = 5_000;
/// So many files of each kind, so many of them and so many calls on records in a part, and so many such parts.
const EACH: usize = 12;
const TOGETHER: usize = 2;
const CALLS: usize = 60;
const SHARED: usize = 2;

/// Requests, and their answers.
#[derive(Default)]
struct Written {
    stdin: Vec<u8>,
    stdout: Vec<u8>,
    requests: usize,
}

/// A request: the call's number, a set or a caller, two inputs and the length of the output.
struct Request<'a> {
    call: u8,
    set: u8,
    inputs: [&'a [u8]; 2],
    output: usize,
}

fn kind(kind: u64, number: u8, low: u64) -> u64 {
    kind << 56 | (number as u64) << 48 | low
}

fn refused(refusal: Refusal) -> u64 {
    kind(3, refusal.number, refusal.place)
}

/// The word of a call that finds a text or none, and what stands in front of the output.
fn found(found: Found) -> (u64, Vec<u8>) {
    match found {
        Ok(Some(bytes)) => (kind(1, 0, bytes.len() as u64), bytes),
        Ok(None) => (kind(2, 0, 0), Vec::new()),
        Err(refusal) => (refused(refusal), Vec::new()),
    }
}

/// The word of a call that answers a number.
fn number(found: Result<u64, Refusal>) -> u64 {
    found.map_or_else(refused, |number| kind(1, 0, number))
}

fn rows(found: Result<Vec<u8>, Refusal>, row: usize) -> (u64, Vec<u8>) {
    let word = number(found.as_ref().map(|bytes| (bytes.len() / row) as u64).map_err(|refusal| *refusal));
    (word, found.unwrap_or_default())
}

impl Written {
    /// A request, and its answer: the word, further words, and what stands in front of the output.
    fn add(&mut self, request: Request, word: u64, further: &[u64], front: &[u8]) {
        let Request { call, set, inputs, output } = request;
        if inputs.iter().any(|input| input.len() >= LONGEST) {
            return;
        }
        let [a, b] = inputs.map(|input| (input.len() as u16).to_le_bytes());
        self.stdin.extend([[call, set], a, b, (output as u16).to_le_bytes()].concat());
        inputs.iter().for_each(|input| self.stdin.extend(*input));
        self.stdout.extend(word.to_le_bytes());
        further.iter().for_each(|word| self.stdout.extend(word.to_le_bytes()));
        self.stdout.extend(front);
        self.stdout.resize(self.stdout.len() + output - front.len(), FILLED);
        self.requests += 1;
    }

    fn text(&mut self, call: u8, inputs: [&[u8]; 2], output: usize, (word, front): (u64, Vec<u8>)) {
        self.add(Request { call, set: 0, inputs, output }, word, &[], &front);
    }

    fn number(&mut self, call: u8, set: u8, inputs: [&[u8]; 2], word: u64) {
        self.add(Request { call, set, inputs, output: 0 }, word, &[], &[]);
    }

    /// A call with a scratch of so many words: a refusal leaves it as it was, any other answer leaves zeros.
    fn lent(&mut self, request: Request, words: usize, word: u64, numbers: [u64; 2], front: &[u8]) {
        let (zeros, kept) = if matches!(word >> 56, 3 | 4) { (0, words) } else { (words, 0) };
        self.add(request, word, &[numbers[0], numbers[1], zeros as u64, kept as u64], front);
    }

    fn counts(&mut self, call: u8, file: &[u8], counts: Result<(u64, u64), Refusal>) {
        let word = number(counts.map(|_| 0));
        let (listed, failing) = counts.unwrap_or((7, 9));
        self.add(Request { call, set: 0, inputs: [file, &[]], output: 0 }, word, &[listed, failing], &[]);
    }

    /// Every call about one file.
    fn file(&mut self, random: &mut Random, file: &[u8], other: &[u8]) {
        let program = decode(file).ok();
        self.number(0, 0, [file, &[]], number(decode(file).map(|_| 0)));
        for output in [23 + random.below(4), 40] {
            self.text(4, [file, &[]], output, found(sc::start(file, output)));
            self.text(6, [file, &[]], output, found(sc::violation(file, output)));
            let output = 2 * output;
            self.text(13, [file, &[]], output, found(tso::start(file, output)));
            self.text(15, [file, &[]], output, found(tso::violation(file, output)));
            self.text(7, [file, &[]], 7 * output, rows(sc::rows(file, None, 7 * output), ROWS[0]));
            self.text(16, [file, &[]], 7 * output, rows(tso::rows(file, None, 7 * output), ROWS[1]));
        }
        self.counts(18, file, sc::count(file));
        self.counts(19, file, tso::count(file));
        let output = 23 + random.below(4);
        self.against(random, [file, other], 24);
        self.against(random, [other, file], output);
        for _ in 0..2 {
            self.schedules(random, file, program.as_ref());
            self.force(random, file);
        }
        self.by_states(random, file, program.as_ref());
        let list = tso::accepted(file).map(|program| tso_listing::list(&program)).unwrap_or_default();
        let output = 47 + random.below(3);
        self.text(27, [file, &[]], output, found(robust_in(&list, file, output)));
    }

    /// Both calls of the game.
    fn force(&mut self, random: &mut Random, file: &[u8]) {
        let (set, words) = (random.byte() & 15, random.pick(&WORDS));
        let word = match force::force(file, set) {
            Ok(Forced::Hostile(step)) => kind(1, 0, step.map_or(0, |t| t as u64 + 1)),
            Ok(Forced::Friendly) => kind(2, 0, 0),
            Err(refusal) => refused(refusal),
        };
        self.number(10, set, [file, &[]], word);
        self.lent(Request { call: 35, set, inputs: [file, &vec![0; words]], output: 0 }, words, word, [7, 9], &[]);
    }

    /// Counts, violations and members with a scratch.
    fn by_states(&mut self, random: &mut Random, file: &[u8], program: Option<&Program>) {
        for (model, counts) in [sc::count(file), tso::count(file)].into_iter().enumerate() {
            let (words, output) = (random.pick(&WORDS), (24 << model) - random.below(2));
            let request = |call, output| Request { call, set: words as u8, inputs: [file, &[]], output };
            let (listed, failing) = counts.unwrap_or((7, 9));
            self.lent(request(28 + 2 * model as u8, 0), words, number(counts.map(|_| 0)), [listed, failing], &[]);
            let first = if model == 0 { sc::violation(file, output) } else { tso::violation(file, output) };
            let (word, front) = found(first);
            self.lent(request(29 + 2 * model as u8, output), words, word, [7, 9], &front);
        }
        let list: Vec<Vec<u8>> =
            program.map_or_else(Vec::new, |p| listing::list(p).into_iter().map(|one| one.schedule).collect());
        self.members(random, file, program, &list);
    }

    /// The member of a number, inside of the list and behind its end, and the number of a schedule, full or not.
    fn members(&mut self, random: &mut Random, file: &[u8], program: Option<&Program>, list: &[Vec<u8>]) {
        for k in [0, random.below(list.len() + 1) as u64, list.len() as u64, random.word()] {
            let (words, output) = (random.pick(&WORDS), 23 + random.below(4));
            let short = || Refusal { number: 22, place: 0 };
            let member = decode(file).and_then(|_| if output < 24 { Err(short()) } else { Ok(list.get(k as usize).cloned()) });
            let (word, front) = found(member);
            let request = Request { call: 32, set: words as u8, inputs: [file, &k.to_le_bytes()], output };
            self.lent(request, words, word, [7, 9], &front);
        }
        for kind in [schedule::Kind::Full, random.pick(&schedule::ALL)] {
            let words = random.pick(&WORDS);
            let steps = program.map_or_else(Vec::new, |program| schedule::schedule(random, program, kind));
            let smaller = || list.iter().filter(|listed| **listed < steps).count() as u64;
            let rank = decode(file).and_then(|program| run_full(&program, &steps).map(|_| smaller()));
            let request = Request { call: 33, set: words as u8, inputs: [file, &steps], output: 0 };
            self.lent(request, words, number(rank.map(|_| 0)), [rank.unwrap_or(7), 9], &[]);
        }
    }

    fn against(&mut self, random: &mut Random, files: [&[u8]; 2], output: usize) {
        let words = random.pick(&WORDS);
        let (word, front) = match covers::call(files[0], files[1], output) {
            Covers::Covered => (kind(2, 0, 0), Vec::new()),
            Covers::Lacking(schedule) => (kind(1, 0, schedule.len() as u64), schedule),
            Covers::First(refusal) => (refused(refusal), Vec::new()),
            Covers::Second(Refusal { number, place }) => (kind(4, number, place), Vec::new()),
            Covers::Output => (kind(3, 22, 0), Vec::new()),
        };
        self.lent(Request { call: 34, set: words as u8, inputs: files, output }, words, word, [7, 9], &front);
        self.text(9, files, output, (word, front));
    }

    /// Schedules and a graph text, damaged or not.
    fn schedules(&mut self, random: &mut Random, file: &[u8], program: Option<&Program>) {
        let bytes = |random: &mut Random| (0..random.below(40)).map(|_| random.byte()).collect::<Vec<u8>>();
        let (how, change) = (random.pick(&schedule::ALL), random.pick(&graph::ALL));
        let given = match program {
            Some(program) => schedule::schedule(random, program, how),
            None => bytes(random),
        };
        let output = GRAPH - 1 + random.below(3);
        self.text(1, [file, &given], output, found(sc::graph(file, &given, output).map(Some)));
        self.number(2, 0, [file, &given], number(sc::class(file, &given)));
        self.text(5, [file, &given], 24, found(sc::continue_from(file, &given, 24)));
        self.text(8, [file, &given], 80, rows(sc::rows(file, Some(&given), 80), ROWS[0]));
        let graph = match program {
            Some(program) => graph::text(random, program, change).1,
            None => bytes(random),
        };
        self.text(3, [file, &graph], SCHEDULE, found(sc::judge(file, &graph, SCHEDULE)));
        let given = program.map_or(given, |program| random_tso::schedule(random, program, how));
        self.text(11, [file, &given], output, found(tso::graph(file, &given, output)));
        self.number(12, 0, [file, &given], number(tso::class(file, &given)));
        self.text(14, [file, &given], 48, found(tso::continue_from(file, &given, 48)));
        self.text(17, [file, &given], 150, rows(tso::rows(file, Some(&given), 150), ROWS[1]));
    }

    /// A call on records; what they are is told by the calls behind it.
    fn shared(&mut self, lists: &mut Lists, shared: &mut Shared, call: &Call) {
        let (number, caller, input): (u8, usize, &[u8]) = match call {
            Call::Open(caller, file) => (20, *caller, file),
            Call::Ask(caller) => (21, *caller, &[]),
            Call::Serve(_) => (22, 0, &[]),
            Call::Close(caller) => (23, *caller, &[]),
            Call::Set(caller, name) => (24, *caller, name),
            Call::Return(caller, name) => (25, *caller, name),
            Call::Forget(caller, name) => (26, *caller, name),
        };
        // from 128 on the byte would say that the call writes nothing
        if caller > 127 {
            return;
        }
        let output = if let Call::Serve(output) = call { *output } else { 0 };
        let (word, front) = match shared.call(lists, call) {
            Ok(Said::Done) => (kind(1, 0, 0), Vec::new()),
            Ok(Said::Schedule(caller, steps)) => (kind(1, 0, (caller as u64) << 40 | steps.len() as u64), steps),
            Ok(Said::NoMore(caller)) => (kind(2, 0, (caller as u64) << 40), Vec::new()),
            Ok(Said::Idle) => (kind(5, 0, 0), Vec::new()),
            Err(refusal) => (refused(refusal), Vec::new()),
        };
        self.add(Request { call: number, set: caller as u8, inputs: [input, &[]], output }, word, &[shared.last], &front);
    }
}

/// Is its list walked in a moment by an interpreter?
fn is_quick(file: &[u8]) -> bool {
    let accesses = |program: Program| program.threads.iter().flatten().filter(|instruction| instruction.is_access()).count();
    file.len() < 400 && decode(file).map_or(true, |program| (1..=4).contains(&accesses(program)))
}

/// Programs of the examples and of the papers, random ones, and damaged files.
fn files(random: &mut Random) -> Vec<Vec<u8>> {
    let mut examples: Vec<PathBuf> =
        std::fs::read_dir(path("examples")).expect("the examples").map(|entry| entry.expect("a file").path()).collect();
    examples.sort();
    let examples = examples.into_iter().filter(|path| path.extension().is_some_and(|end| end == "hex"));
    let examples = examples.map(|path| std::fs::read(path).expect("an example"));
    let size = Size { threads: 3, accesses: 4, ..SMALL };
    let mut all: Vec<Vec<u8>> = examples.filter(|file| is_quick(file)).take(EACH).collect();
    all.extend(papers::all().into_iter().map(|paper| paper.file).filter(|file| is_quick(file)).take(EACH));
    all.extend((0..).map(|_| text(&frames_parted(random, size))).filter(|file| is_quick(file)).take(EACH));
    all.extend((0..).map(|_| text(&random_tso::frames(random, size))).filter(|file| is_quick(file)).take(EACH));
    let damaged = (0..).map(|k| damage::file(random, damage::ALL[5 * k % damage::ALL.len()]));
    all.extend(damaged.filter(|file| decode(file).is_err() && file.len() < 400).take(EACH));
    all
}

fn main() {
    let folder = PathBuf::from(std::env::args().nth(1).expect("a folder"));
    let mut random = Random::new(101);
    let files = files(&mut random);
    let mut parts = Vec::new();
    for (k, some) in files.chunks(TOGETHER).enumerate() {
        let mut written = Written::default();
        some.iter().for_each(|file| written.file(&mut random, file, &files[(3 * k + 7) % files.len()]));
        parts.push(written);
    }
    for _ in 0..SHARED {
        let (mut written, mut lists, mut shared) = (Written::default(), Lists::default(), Shared::fresh());
        (0..CALLS).for_each(|_| written.shared(&mut lists, &mut shared, &users::call(&mut random, &files)));
        parts.push(written);
    }
    std::fs::create_dir_all(&folder).expect("a folder for the parts");
    for (k, part) in parts.iter().enumerate() {
        std::fs::write(folder.join(format!("{k:02}")), &part.stdin).expect("the requests are written");
        std::fs::write(folder.join(format!("{k:02}.stdout")), &part.stdout).expect("the answers are written");
    }
    let requests: usize = parts.iter().map(|part| part.requests).sum();
    println!("{} files, {requests} requests in {} parts", files.len(), parts.len());
}
