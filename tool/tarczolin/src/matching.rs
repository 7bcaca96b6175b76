//! Which location of one program is which of another: by name, so that what is compared is what the files' readers see.
use crate::accepted::Accepted;
use crate::program::{Called, Program, LOCATIONS};
use std::collections::{BTreeMap, BTreeSet};

/// Two programs whose locations were matched.
pub struct Matched {
    /// The number that each location of the second program takes; all eight differ, so that a fence stays apart from what it was apart from.
    pub to: [u8; LOCATIONS as usize],
    /// What both programs' locations are called.
    pub names: Called,
}

const OTHERWISE: &str = "name all of them in both files, or ask for --by number";

/// Matches by name where every location that one of the two uses has one, by number where none has or where that is asked for. Where only
/// some have names the two ways must come to the same. Else it is not known what is meant, and that is said.
pub fn matched(first: &Accepted, second: &Accepted, by_number: bool) -> Result<Matched, String> {
    let programs = [&first.program, &second.program];
    let [used, named] = [programs.map(|program| program.locations()), programs.map(named)];
    if by_number || named.iter().all(BTreeSet::is_empty) {
        return Ok(Matched { to: std::array::from_fn(|l| l as u8), names: both(programs) });
    }
    if used == named {
        return by_name(programs);
    }
    for (k, [with, without]) in [[first, second], [second, first]].into_iter().enumerate() {
        if named[1 - k].is_empty() && !used[1 - k].is_empty() {
            let (with, without) = (&with.name, &without.name);
            return Err(format!("the locations of {with} have names, those of {without} only numbers; {OTHERWISE}"));
        }
    }
    match in_doubt([first, second]) {
        Some(doubt) => Err(format!("{doubt}, and not every location has a name; {OTHERWISE}")),
        None => Ok(Matched { to: std::array::from_fn(|l| l as u8), names: both(programs) }),
    }
}

/// The locations that a program uses by a name.
fn named(program: &Program) -> BTreeSet<u8> {
    program.locations().into_iter().filter(|l| program.names.locations[*l as usize].is_some()).collect()
}

/// Every location of the second takes the number that its name has in the first, or one that the first leaves free.
fn by_name([first, second]: [&Program; 2]) -> Result<Matched, String> {
    let mut to: [Option<u8>; LOCATIONS as usize] = Default::default();
    let mut names: Called = Default::default();
    first.locations().iter().for_each(|l| names[*l as usize] = Some(first.names.location(*l)));
    let mut too_many = Vec::new();
    // in the order of names: what is printed does not depend on numbers that nobody sees
    let locations: BTreeMap<String, u8> = second.locations().into_iter().map(|l| (second.names.location(l), l)).collect();
    for (name, l) in locations {
        let known = names.iter().position(|one| one.as_ref() == Some(&name));
        match known.or_else(|| names.iter().position(Option::is_none)) {
            Some(number) => {
                to[l as usize] = Some(number as u8);
                names[number] = Some(name);
            }
            None => too_many.push(name),
        }
    }
    if too_many.is_empty() {
        return Ok(Matched { to: completed(to), names });
    }
    let all: Vec<String> = names.into_iter().flatten().chain(too_many).collect();
    Err(format!("together the two programs name {} locations, and there are at most {LOCATIONS}: {}", all.len(), all.join(", ")))
}

/// The locations that the program does not use, save by fences, take the numbers that are left.
fn completed(to: [Option<u8>; LOCATIONS as usize]) -> [u8; LOCATIONS as usize] {
    let mut left = (0..LOCATIONS).filter(|number| !to.contains(&Some(*number)));
    to.map(|number| number.or_else(|| left.next()).expect("no two take one number"))
}

/// A location for which matching by name and by number differ, if there is one.
fn in_doubt(files: [&Accepted; 2]) -> Option<String> {
    let [(first, one), (second, other)] = files.map(|file| (&file.program, &file.name));
    for l in first.locations() {
        for k in second.locations() {
            let [a, b] = [first.names.location(l), second.names.location(k)];
            if (l == k) != (a == b) {
                return Some(format!("{a} of {one} is location {l}, and {b} of {other} is location {k}"));
            }
        }
    }
    None
}

/// What the locations are called by the programs that use them; by number where that differs or would be said of two.
fn both(programs: [&Program; 2]) -> Called {
    let given = |l: u8| {
        let users = programs.iter().filter(|program| program.locations().contains(&l));
        users.map(|program| program.names.locations[l as usize].clone()).collect::<BTreeSet<_>>()
    };
    let agreed: Vec<Option<String>> = (0..LOCATIONS).map(|l| given(l).into_iter().reduce(|_, _| None).flatten()).collect();
    let once = |name: &String| agreed.iter().flatten().filter(|other| *other == name).count() == 1;
    std::array::from_fn(|l| agreed[l].clone().filter(once))
}
