//! Lines of a program, in words and signs, wherever they were made.

/// A word or a sign, and its column in its line.
#[derive(Clone, Debug, PartialEq, Eq)]
pub struct Piece {
    pub text: String,
    pub column: usize,
}

/// A line of the program: where it stands in the text, and the lines that had it made, outermost first.
#[derive(Clone, Debug, PartialEq, Eq)]
pub struct Line {
    pub number: usize,
    pub pieces: Vec<Piece>,
    pub uses: Vec<usize>,
}

/// A name as it was written: inside an expansion a label has its number behind it.
pub fn as_written(word: &str) -> &str {
    word.split('#').next().unwrap_or(word)
}
