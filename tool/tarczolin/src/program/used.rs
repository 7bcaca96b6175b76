//! How much a program uses of what there is.

#[derive(Clone, Copy, Debug, PartialEq, Eq)]
pub struct Used {
    pub threads: usize,
    /// Those of the thread that has the most.
    pub instructions: usize,
    pub accesses: usize,
    pub locations: usize,
    /// Those of the thread that names the most.
    pub registers: usize,
}
