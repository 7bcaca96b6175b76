//! Places of a text where a fence may do something, and texts with fences at some of them.
use super::parse;
use super::remarks::Remarks;
use super::statement::{Jump, Kind, Statement};
use super::tokens::tokens;
use std::collections::{BTreeMap, BTreeSet};

/// A place: in front of the statement of a line. What the statement is, and the first thread that has it.
#[derive(Clone, Debug, PartialEq, Eq)]
pub struct Place {
    pub line: usize,
    pub column: usize,
    pub thread: usize,
    pub statement: String,
    /// So many statements of all threads come from there: a fence is that many.
    pub times: usize,
}

/// Places that take a fence together or not at all: those of alike threads.
pub type Group = Vec<Place>;

/// The statements of each thread that become code, in order.
struct Bodies(Vec<Vec<(Statement, bool)>>);

impl Bodies {
    /// Each statement with whether a label stands in front of it.
    fn of(text: &[u8]) -> Bodies {
        let mut all: Vec<Vec<(Statement, bool)>> = Vec::new();
        let mut labelled = false;
        let given = Remarks::of_text(text, &[]).names();
        let given: Vec<String> = given.locations.into_iter().flatten().collect();
        for statement in parse::statements(text, &given).0 {
            match (&statement.kind, all.last_mut()) {
                (Kind::Thread(_), _) => all.push(Vec::new()),
                (Kind::Label(_), _) => {
                    labelled = true;
                    continue;
                }
                (Kind::Constant { .. } | Kind::Init { .. } | Kind::Alike(_), _) | (_, None) => {}
                (_, Some(body)) => body.push((statement, labelled)),
            }
            labelled = false;
        }
        Bodies(all)
    }
}

/// May a fence in front of this statement of a thread keep a load from going ahead of a store? It may where a store stands above, a load
/// does not stand above only, and no other fence stands in between in any case. In front of anything but a load or a jump it need not
/// stand: moved down to the next of these it forbids as much.
fn may_help(body: &[(Statement, bool)], at: usize) -> bool {
    let kind = |(statement, _): &(Statement, bool)| statement.kind.clone();
    let is_place = matches!(body[at].0.kind, Kind::Load { .. } | Kind::If { .. } | Kind::Goto(_));
    let store_above = body[..at].iter().any(|one| matches!(kind(one), Kind::Store { .. }));
    let load_below = body[at..].iter().any(|one| matches!(kind(one), Kind::Load { .. }));
    let skips = body.iter().any(|one| matches!(kind(one), Kind::If { to: Jump::Skip(_), .. }));
    is_place && store_above && load_below && (skips || !is_behind_fence(body, at))
}

/// Is the queue empty at this statement, since a fence or a locked access stands right above and nothing jumps in between?
fn is_behind_fence(body: &[(Statement, bool)], at: usize) -> bool {
    for k in (0..at).rev() {
        if body[k + 1].1 {
            return false;
        }
        match body[k].0.kind {
            Kind::Fence | Kind::FetchAdd { .. } | Kind::CompareSwap { .. } => return true,
            Kind::Store { .. } | Kind::Goto(_) => return false,
            _ => {}
        }
    }
    false
}

/// The places of a text, those of alike threads together: these have the same code.
pub fn places(text: &[u8], alike: &[Vec<u8>]) -> Vec<Group> {
    let Bodies(bodies) = Bodies::of(text);
    let mut groups: Vec<BTreeSet<(usize, usize)>> = Vec::new();
    for (t, body) in bodies.iter().enumerate() {
        let members = alike.iter().find(|members| members.contains(&(t as u8)));
        for at in (0..body.len()).filter(|at| may_help(body, *at)) {
            let own = [t as u8];
            let of = members.map_or(&own[..], Vec::as_slice).iter().filter_map(|t| bodies.get(*t as usize)?.get(at));
            let lines: BTreeSet<(usize, usize)> = of.map(|(statement, _)| (statement.line, statement.column)).collect();
            let (joined, others): (Vec<_>, Vec<_>) = groups.into_iter().partition(|group| !group.is_disjoint(&lines));
            groups = others;
            groups.push(joined.into_iter().flatten().chain(lines).collect());
        }
    }
    groups.sort();
    let place = |(line, column): (usize, usize)| {
        let all = bodies.iter().enumerate().flat_map(|(t, body)| body.iter().map(move |(statement, _)| (t, statement)));
        let found: Vec<_> = all.filter(|(_, statement)| (statement.line, statement.column) == (line, column)).collect();
        let (thread, statement) = found.first()?;
        Some(Place { line, column, thread: *thread, statement: statement.text.clone(), times: found.len() })
    };
    groups.into_iter().map(|group| group.into_iter().filter_map(place).collect()).collect()
}

/// The text with a fence at each of these places: statements that skip go over as many of them as stand where they go. None where one
/// line would have to skip so many here and so many there.
pub fn fenced(text: &[u8], places: &[&Place]) -> Option<Vec<u8>> {
    let Bodies(bodies) = Bodies::of(text);
    let chosen: BTreeSet<(usize, usize)> = places.iter().map(|place| (place.line, place.column)).collect();
    let mut skips: BTreeMap<(usize, usize), usize> = BTreeMap::new();
    for body in &bodies {
        for (at, (statement, _)) in body.iter().enumerate() {
            let Kind::If { to: Jump::Skip(n), .. } = statement.kind else { continue };
            let over = body.iter().skip(at + 1).take(n);
            let more = over.filter(|(one, _)| chosen.contains(&(one.line, one.column))).count();
            let before = skips.insert((statement.line, statement.column), n + more);
            if before.is_some_and(|before| before != n + more) {
                return None;
            }
        }
    }
    let lines = (1..).zip(text.split(|&c| c == b'\n'));
    let lines: Vec<Vec<u8>> = lines.map(|(number, line)| of_line(number, line, &chosen, &skips)).collect();
    Some(lines.join(&b'\n'))
}

/// A line with a fence in front of its statement, where that is chosen, and with the number that it skips.
fn of_line(number: usize, line: &[u8], chosen: &BTreeSet<(usize, usize)>, skips: &BTreeMap<(usize, usize), usize>) -> Vec<u8> {
    let mut text = String::from_utf8_lossy(line).into_owned();
    let byte = |text: &str, column: usize| text.char_indices().nth(column - 1).map_or(text.len(), |(at, _)| at);
    if let Some(((_, column), n)) = skips.range((number, 0)..(number + 1, 0)).next() {
        let known = tokens(&text, number).unwrap_or_default();
        let skip = known.iter().position(|token| token.column > *column && token.text == "skip").and_then(|at| known.get(at + 1));
        if let Some((from, length)) = skip.map(|token| (byte(&text, token.column), token.text.len())) {
            text.replace_range(from..from + length, &n.to_string());
        }
    }
    for (_, column) in chosen.range((number, 0)..(number + 1, 0)) {
        let at = byte(&text, *column);
        let space: String = text.chars().take_while(|c| c.is_whitespace()).collect();
        let space = if space.is_empty() { "  ".to_string() } else { space };
        text.insert_str(at, &format!("fence\n{space}"));
    }
    text.into_bytes()
}

#[cfg(test)]
mod tests {
    use super::*;

    fn lines(text: &str, alike: &[Vec<u8>]) -> Vec<Vec<usize>> {
        let groups = places(text.as_bytes(), alike);
        groups.iter().map(|group| group.iter().map(|place| place.line).collect()).collect()
    }

    #[test]
    fn between_a_store_and_a_load() {
        assert_eq!(
            lines("thread\n  store x 1\n  r0 = load y\n  r1 = load x\nthread\n  r0 = load x\n  store y 1\n", &[]),
            [[3], [4]]
        );
        assert_eq!(lines("thread\n  store x 1\n  fence\n  r0 = load y\n  store x 2\n  r0 = 1\n  r1 = load y\n", &[]), [[7]]);
        let alike = "thread\n  store x 1\n  r0 = load y\nthread\n  store x 1\n  r0 = load y\nalike 0 1\n";
        assert_eq!(lines(alike, &[vec![0, 1]]), [[3, 6]]);
    }

    #[test]
    fn what_is_skipped_stays_skipped() {
        let text =
            "thread\n  store x 1\n  r0 = load x\n  if r0 != 1 skip 2  # two\n  r1 = load y\n  r2 = load y\nend: r3 = load z\n";
        let all = places(text.as_bytes(), &[]);
        let all: Vec<&Place> = all.iter().flatten().filter(|place| place.line > 4).collect();
        assert_eq!(all.iter().map(|place| place.line).collect::<Vec<_>>(), [5, 6, 7]);
        let made = String::from_utf8(fenced(text.as_bytes(), &all).unwrap()).unwrap();
        assert!(
            made.contains(
                "  if r0 != 1 skip 4  # two\n  fence\n  r1 = load y\n  fence\n  r2 = load y\nend: fence\n  r3 = load z\n"
            ),
            "{made}"
        );
    }
}
