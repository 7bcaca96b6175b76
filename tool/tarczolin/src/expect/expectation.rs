//! One expectation.
use crate::model::Model;
use crate::outcome::Condition;

#[derive(Clone, Debug, PartialEq, Eq)]
pub enum Kind {
    /// Some execution ends so.
    Exists(Condition),
    /// None does.
    Forbid(Condition),
    /// All do.
    Forall(Condition),
    /// Some assertion fails in some execution.
    Violation,
    /// None fails in any.
    NoViolation,
}

#[derive(Clone, Debug, PartialEq, Eq)]
pub struct Expectation {
    pub kind: Kind,
    /// The only model that it speaks of; none where it speaks of each.
    pub model: Option<Model>,
    /// As it is written, without the model.
    pub text: String,
    pub line: usize,
}

impl Expectation {
    pub fn speaks_of(&self, model: Model) -> bool {
        self.model.is_none_or(|only| only == model)
    }

    /// As it is asked under a model.
    pub fn under(&self, model: Model) -> String {
        format!("{} under {}", self.text, model.word())
    }

    /// Is it about what must not happen, so that more fences can only help it?
    pub fn forbids(&self) -> bool {
        !matches!(self.kind, Kind::Exists(_) | Kind::Violation)
    }
}
