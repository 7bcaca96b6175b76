//! `tarczolin fences` on random programs of many shapes: its sets of the fewest fences are held to an exhaustive search over all sets of places,
//! by a machine that has fences of its own.
mod common;
#[path = "common/fenced.rs"]
mod fenced;

use common::json::{fits_the_schema, parse, Value};
use common::run_with;
use fenced::{End, Fenced, Op, P};
use std::collections::BTreeSet;
use tarczolin_tests::random::Random;
use tarczolin_tests::share;

/// A statement of a thread: in front of it a fence may stand.
type Place = (usize, usize);
type Places = BTreeSet<Place>;

/// A program with what it is to keep: no assertion of it fails, and nothing ends with all these values.
struct Kept {
    program: Fenced,
    /// Registers by thread and number.
    registers: Vec<(usize, usize, u32)>,
    memory: Vec<(usize, u32)>,
    /// Are the first two threads declared alike?
    alike: bool,
}

/// What may stand in a thread: mostly stores in front and loads behind, now and then an access that waits, or a jump over the next statement.
fn op(random: &mut Random, locations: usize, first: bool, last: bool) -> Op {
    let (l, r, value) = (random.below(locations), random.below(3), P::Number(random.between(1, 2) as u32));
    match random.below(20) {
        0..=14 if first => Op::Store(l, value),
        0..=14 if last => Op::Load(r, l),
        0..=7 => Op::Store(l, value),
        8..=16 => Op::Load(r, l),
        17 => Op::Store(l, P::Register(r)),
        18 if !last => Op::Skip(r, P::Number(random.below(2) as u32), 1),
        _ => Op::Fetch(r, l, value),
    }
}

/// Two to four threads over two or three locations; the first two may be alike.
fn drawn(random: &mut Random, alike: bool) -> Fenced {
    let (threads, locations) = (random.pick(&[2, 2, 2, 3, 3, 4]), random.between(2, 3));
    let most = [4, 3, 2][threads - 2];
    let code = |random: &mut Random| -> Vec<Op> {
        let size = random.between(2, most);
        (0..size).map(|k| op(random, locations, k == 0, k + 1 == size)).collect()
    };
    let mut all: Vec<Vec<Op>> = (0..threads).map(|_| code(random)).collect();
    if alike {
        all[1] = all[0].clone();
    }
    Fenced { threads: all, starts: [0; 8] }
}

/// The registers that a thread gives a value.
fn given(code: &[Op]) -> BTreeSet<usize> {
    let register = |op: &Op| match *op {
        Op::Load(r, _) | Op::Fetch(r, _, _) => Some(r),
        _ => None,
    };
    code.iter().filter_map(register).collect()
}

fn locations(program: &Fenced) -> BTreeSet<usize> {
    let location = |op: &Op| match *op {
        Op::Load(_, l) | Op::Store(l, _) | Op::Fetch(_, l, _) => Some(l),
        _ => None,
    };
    program.threads.iter().flatten().filter_map(location).collect()
}

/// The program with an assertion that fails where two threads both have these values in these registers: each then goes to a place for one.
fn asserting(program: &Fenced, both: [(usize, usize, u32); 2]) -> Fenced {
    let mut threads = program.threads.clone();
    for (t, r, value) in both {
        let tail = [Op::Skip(r, P::Number(value), 2), Op::Fetch(r, 5, P::Number(1)), Op::Assert(r, P::Number(0))];
        threads[t].extend(tail);
    }
    Fenced { threads, starts: program.starts }
}

impl Kept {
    /// A random program with something to keep: mostly what is kept without queues of pending stores.
    fn random(random: &mut Random) -> Kept {
        let (any, asserts) = (random.one_in(8), random.one_in(4));
        loop {
            let alike = !asserts && random.one_in(3);
            let program = drawn(random, alike);
            let [strong, weak] = [false, true].map(|queues| program.ends(queues));
            let only: Vec<&End> = weak.difference(&strong).collect();
            if only.is_empty() && !any {
                continue;
            }
            let mut end = if any { random.pick(&weak.iter().collect::<Vec<_>>()) } else { random.pick(&only) }.clone();
            if any && random.one_in(2) {
                end.1.iter_mut().flatten().for_each(|value| *value += 1);
            }
            let kept = match asserts {
                true => Kept::by_assertion(random, &program, &end, if any { None } else { Some(&strong) }),
                false => Some(Kept::by_forbid(random, program, &end, &strong, alike)),
            };
            if let Some(kept) = kept {
                return kept;
            }
        }
    }

    /// An assertion that an end makes fail, and none of the ends given.
    fn by_assertion(random: &mut Random, program: &Fenced, end: &End, others: Option<&BTreeSet<End>>) -> Option<Kept> {
        let values = program.threads.iter().enumerate();
        let mut values: Vec<(usize, usize, u32)> =
            values.flat_map(|(t, code)| given(code).into_iter().map(move |r| (t, r, end.1[t][r]))).collect();
        random.shuffle(&mut values);
        let pairs =
            values.iter().flat_map(|one| values.iter().map(move |other| [*one, *other])).filter(|[one, other]| one.0 < other.0);
        let holds = |pair: &[(usize, usize, u32); 2], end: &End| pair.iter().all(|(t, r, value)| end.1[*t][*r] == *value);
        let both = pairs.into_iter().find(|pair| !others.is_some_and(|ends| ends.iter().any(|end| holds(pair, end))))?;
        Some(Kept { program: asserting(program, both), registers: Vec::new(), memory: Vec::new(), alike: false })
    }

    /// All that an end says is forbidden, or less of it: mostly as little as no end without queues says.
    fn by_forbid(random: &mut Random, program: Fenced, end: &End, strong: &BTreeSet<End>, alike: bool) -> Kept {
        let registers = program.threads.iter().enumerate();
        let registers = registers.flat_map(|(t, code)| given(code).into_iter().map(move |r| (t, r, end.1[t][r]))).collect();
        let memory = locations(&program).into_iter().map(|l| (l, end.0[l])).collect();
        let mut kept = Kept { program, registers, memory, alike };
        for _ in 0..random.below(12) {
            let (before, memory) = (kept.registers.clone(), kept.memory.clone());
            match random.one_in(2) && !kept.registers.is_empty() {
                true => _ = kept.registers.remove(random.below(before.len())),
                false => _ = (!memory.is_empty()).then(|| kept.memory.remove(random.below(memory.len()))),
            }
            if !kept.forbids() || (strong.iter().any(|end| kept.is_wrong(end)) && !random.one_in(20)) {
                (kept.registers, kept.memory) = (before, memory);
            }
        }
        kept
    }

    fn forbids(&self) -> bool {
        !self.registers.is_empty() || !self.memory.is_empty()
    }

    /// Is this end wrong?
    fn is_wrong(&self, (memory, registers, failed): &End) -> bool {
        let matched = self.registers.iter().all(|(t, r, value)| registers[*t][*r] == *value)
            && self.memory.iter().all(|(l, value)| memory[*l] == *value);
        *failed || (self.forbids() && matched)
    }

    fn text(&self) -> String {
        let registers = self.registers.iter().map(|(t, r, value)| format!("T{t}.r{r} = {value}"));
        let memory = self.memory.iter().map(|(l, value)| format!("x{l} = {value}"));
        let all: Vec<String> = registers.chain(memory).collect();
        let alike = if self.alike { "alike T0 T1\n" } else { "" };
        let forbid = if self.forbids() { format!("forbid {}\n", all.join(" & ")) } else { String::new() };
        format!("{}{alike}{forbid}", self.program.text())
    }

    /// All places but those in front of a whole thread, those of alike threads together.
    fn groups(&self) -> Vec<Places> {
        let mut all = Vec::new();
        for (t, code) in self.program.threads.iter().enumerate().filter(|(t, _)| !self.alike || *t != 1) {
            for k in 1..code.len() {
                let more = (self.alike && t == 0).then_some((1, k));
                all.push([(t, k)].into_iter().chain(more).collect());
            }
        }
        all
    }

    /// All sets of groups that do it, of the fewest fences; none where not even all of them do.
    fn fewest(&self) -> Option<BTreeSet<Places>> {
        let groups = self.groups();
        let set = |bits: u32| -> Places {
            (0..groups.len()).filter(|k| bits >> k & 1 == 1).flat_map(|k| groups[k].iter().copied()).collect()
        };
        let mut sets: Vec<Places> = (0..1 << groups.len()).map(set).collect();
        sets.sort_by_key(BTreeSet::len);
        let (mut found, mut least) = (BTreeSet::new(), usize::MAX);
        if self.program.with(&sets[sets.len() - 1]).may_end(true, |end| self.is_wrong(end)) {
            return None;
        }
        for places in sets {
            if places.len() > least {
                break;
            }
            if !self.program.with(&places).may_end(true, |end| self.is_wrong(end)) {
                least = places.len();
                found.insert(places);
            }
        }
        Some(found)
    }

    /// The statement of a line of the text.
    fn place(&self, line: usize) -> Place {
        let mut at = 0;
        for (t, code) in self.program.threads.iter().enumerate() {
            if line > at + 1 && line <= at + 1 + code.len() {
                return (t, line - at - 2);
            }
            at += 1 + code.len();
        }
        panic!("line {line} is no statement: {}", self.text())
    }

    /// Places that are told: in front of a load or a jump, a store above and a load there or below.
    fn is_told(&self, (t, k): &Place) -> bool {
        let code = &self.program.threads[*t];
        matches!(code[*k], Op::Load(..) | Op::Skip(..))
            && code[..*k].iter().any(|op| matches!(op, Op::Store(..)))
            && code[*k..].iter().any(|op| matches!(op, Op::Load(..)))
    }

    /// Has it an access that waits? Of the places behind one fewer are told.
    fn waits(&self) -> bool {
        self.program.threads.iter().flatten().any(|op| matches!(op, Op::Fetch(..)))
    }
}

fn number(value: &Value, name: &str) -> usize {
    let Some(Value::Number(number)) = value.get(name) else { panic!("{name}") };
    *number as usize
}

/// What the command tells: its status, and its sets.
fn told(kept: &Kept) -> (i32, BTreeSet<Places>) {
    let ran = run_with(&["fences", "-", "--json"], kept.text().as_bytes());
    // warnings about the program come in front
    let answer = parse(ran.out.lines().last().unwrap_or_else(|| panic!("{}\n{}", ran.err, kept.text())));
    assert!(fits_the_schema(&answer), "{}{}\n{}", ran.out, ran.err, kept.text());
    let Some(Value::List(sets)) = answer.get("sets") else { panic!("{}{}\n{}", ran.out, ran.err, kept.text()) };
    let places = |set: &Value| -> Places {
        let Some(Value::List(places)) = set.get("places") else { panic!("{}", ran.out) };
        let all: Places = places.iter().map(|place| kept.place(number(place, "line"))).collect();
        assert_eq!(all.len(), number(set, "fences"), "{}", ran.out);
        all
    };
    (ran.status, sets.iter().map(places).collect())
}

/// Compares one program: how many fences it takes at least, or none where no fences help.
fn compared(kept: &Kept) -> Option<usize> {
    let (status, told) = told(kept);
    let fewest = kept.fewest();
    let helpless = kept.program.may_end(false, |end| kept.is_wrong(end));
    assert_eq!(helpless, fewest.is_none(), "with fences everywhere it is sequentially consistent\n{}", kept.text());
    let Some(fewest) = fewest else {
        assert_eq!((status, told.len()), (1, 0), "{}", kept.text());
        return None;
    };
    assert_eq!(status, 0, "{}", kept.text());
    let least = fewest.first().expect("a set").len();
    let usual: BTreeSet<Places> =
        fewest.iter().filter(|places| places.iter().all(|place| kept.is_told(place))).cloned().collect();
    assert!(told.is_subset(&usual) && !told.is_empty(), "told {told:?}, fewest {fewest:?}\n{}", kept.text());
    assert!(kept.waits() || told == usual, "told {told:?}, fewest {fewest:?}\n{}", kept.text());
    Some(least)
}

/// 260 programs of two to four threads, a share of them where nothing is optimized.
#[test]
fn fewest_of_many_shapes() {
    let mut random = Random::new(0xfe7e5);
    let cases = share::of(if cfg!(debug_assertions) { 40 } else { 260 });
    let (mut costs, mut helpless, mut asserted, mut alike, mut done) = ([0; 12], 0, 0, 0, 0);
    while done < cases {
        let kept = Kept::random(&mut random);
        let needed = kept.program.may_end(true, |end| kept.is_wrong(end));
        if !needed && !random.one_in(2) {
            continue;
        }
        done += 1;
        match compared(&kept) {
            Some(fences) => costs[fences] += 1,
            None => helpless += 1,
        }
        asserted += !kept.forbids() as usize;
        alike += kept.alike as usize;
    }
    println!("{costs:?} by the number of fences, {helpless} that fences do not help, {asserted} by assertions, {alike} alike");
    let all_kinds = costs[0] > 5 && costs[1] > 30 && costs[2] > 30 && helpless > 20 && asserted > 20 && alike > 20;
    assert!(cfg!(debug_assertions) || !share::whole() || all_kinds, "{costs:?} {helpless} {asserted} {alike}");
}
