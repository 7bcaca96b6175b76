//! Options of commands.

/// An option; one with a value has a word for it.
pub struct Opt {
    pub name: &'static str,
    pub value: Option<&'static str>,
    pub about: &'static str,
}

/// What may stand behind an option.
pub enum Values {
    /// One of these words.
    Words(Vec<&'static str>),
    /// The name of a file or a folder.
    Files,
    /// A number, a schedule or the like: nothing that can be proposed.
    Other,
}

impl Opt {
    /// What may stand behind it, if it takes a value: small letters are the words themselves.
    pub fn values(&self) -> Option<Values> {
        let value = self.value?;
        let is_word = |word: &str| word.bytes().all(|c| c.is_ascii_lowercase() || c == b',');
        Some(match value {
            "OUT" | "DIR" | "FILE" => Values::Files,
            _ if value.split('|').all(is_word) => Values::Words(value.split('|').collect()),
            _ => Values::Other,
        })
    }
}

/// The options behind every command.
pub const EVERYWHERE: [Opt; 2] = [
    Opt { name: "--help", value: None, about: "this help; also -h" },
    Opt { name: "--version", value: None, about: "the version; also -V" },
];
