//! Names that hold in the whole text: constants, locations and threads.
use super::statement::{Kind, Statement, Word};
use super::words::{constant, is_default, is_name, location, thread};
use super::wrong::Wrongs;
use crate::program::{Names, LOCATIONS};
use std::collections::BTreeMap;

#[derive(Debug, Default)]
pub struct Symbols {
    pub constants: BTreeMap<String, u32>,
    pub locations: BTreeMap<String, u8>,
    pub threads: BTreeMap<String, u8>,
    /// What name lines say: it holds where the statements say nothing else.
    pub given: Names,
}

impl Symbols {
    pub fn of(statements: &[Statement], given: Names, wrong: &mut Wrongs) -> Symbols {
        let mut symbols = Symbols { given, ..Symbols::default() };
        symbols.find_constants(statements, wrong);
        symbols.find_locations(statements, wrong);
        symbols.find_threads(statements, wrong);
        symbols
    }

    /// The value of a number or of a constant's name.
    pub fn value(&self, word: &str) -> Option<Result<u32, String>> {
        constant(word).or_else(|| self.constants.get(word).map(|value| Ok(*value)))
    }

    fn find_constants(&mut self, statements: &[Statement], wrong: &mut Wrongs) {
        for statement in statements {
            let Kind::Constant { name, value } = &statement.kind else { continue };
            match self.value(&value.text) {
                Some(Ok(_)) if !is_name(&name.text) => wrong.add(statement, name, format!("{} cannot be a name", name.text)),
                Some(Ok(_)) if self.constants.contains_key(&name.text) => {
                    wrong.add(statement, name, format!("{} is a constant already", name.text));
                }
                Some(Ok(number)) => {
                    self.constants.insert(name.text.clone(), number);
                }
                Some(Err(message)) => wrong.add(statement, value, message),
                None => wrong.add(statement, value, format!("a number is expected here, not {}", value.text)),
            }
        }
    }

    /// Numbers for named locations: as name lines say, the others in order of first use, each the least that nothing else has.
    fn find_locations(&mut self, statements: &[Statement], wrong: &mut Wrongs) {
        let words: Vec<(&Statement, &Word)> = statements.iter().filter_map(|s| Some((s, s.kind.location()?))).collect();
        let taken: Vec<u8> = words.iter().filter_map(|(_, word)| location(&word.text)?.ok()).collect();
        let mut given = BTreeMap::new();
        for (l, name) in (0..).zip(&self.given.locations) {
            if let Some(name) = name.as_ref().filter(|name| !self.constants.contains_key(*name)) {
                given.insert(name.clone(), l);
            }
        }
        let mut free = (0..LOCATIONS).filter(|l| !taken.contains(l) && !given.values().any(|one| one == l));
        for (statement, word) in words {
            let name = &word.text;
            if let Some(numbered) = location(name) {
                wrong.extend(statement, word, numbered.err());
            } else if !is_name(name) {
                wrong.add(statement, word, format!("a location (x0 to x7, or a name) is expected here, not {name}"));
            } else if self.constants.contains_key(name) {
                wrong.add(statement, word, format!("{name} is a constant, and a location is expected here"));
            } else if !self.locations.contains_key(name) {
                match given.get(name).copied().or_else(|| free.next()) {
                    Some(l) => {
                        self.locations.insert(name.clone(), l);
                    }
                    None => {
                        let message = format!("{name} is one location too many; a program has at most {LOCATIONS}");
                        wrong.add(statement, word, message);
                    }
                }
            }
        }
    }

    fn find_threads(&mut self, statements: &[Statement], wrong: &mut Wrongs) {
        let opened = statements.iter().filter(|s| matches!(s.kind, Kind::Thread(_)));
        for (t, statement) in opened.enumerate() {
            let Kind::Thread(Some(name)) = &statement.kind else { continue };
            if is_default(&name.text, t) {
                continue;
            }
            if let Some(other) = thread(&name.text) {
                let message = format!("{} is what thread number {other} is called without a name; this is number {t}", name.text);
                wrong.add(statement, name, message);
            } else if !is_name(&name.text) {
                wrong.add(statement, name, format!("{} cannot be a name", name.text));
            } else if self.threads.insert(name.text.clone(), t as u8).is_some() {
                wrong.add(statement, name, format!("a thread above is called {} already", name.text));
            }
        }
        let said = self.threads.clone();
        let given = (0..).zip(&self.given.threads).filter_map(|(t, of)| Some((of.name.clone()?, t)));
        self.threads.extend(given.filter(|(name, t)| !said.contains_key(name) && !said.values().any(|one| one == t)));
    }
}
