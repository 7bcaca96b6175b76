//! The answers that a test tells of itself, in a remark: `(* sc: forbidden; tso: allowed *)`. Each is an expectation under its model.
use super::part::Part;
use super::parts::Quantifier;
use crate::asm::Wrong;
use crate::model::Model;

/// That the condition can happen under a model, or that it cannot.
pub type Answer = (Model, bool);

/// The remarks of a text, innermost signs left in.
fn remarks(text: &str) -> Vec<Part<'_>> {
    let mut all = Vec::new();
    let mut rest = Part::whole(text);
    while let Some(at) = rest.text().find("(*") {
        let (_, inner) = rest.split_at(at + 2);
        let (remark, behind) = inner.split_at(inner.text().find("*)").unwrap_or(inner.text().len()));
        all.push(remark.trim());
        rest = behind;
    }
    all
}

fn begins(part: &Part) -> bool {
    Model::BOTH.iter().any(|model| part.text().strip_prefix(model.word()).is_some_and(|rest| rest.trim_start().starts_with(':')))
}

/// The answers of a test; one that begins as such and cannot be read is wrong.
pub fn answers(text: &str) -> Result<Vec<Answer>, Wrong> {
    let mut all: Vec<Answer> = Vec::new();
    for part in remarks(text).into_iter().filter(begins).flat_map(|remark| remark.split(';')) {
        let (model, answer) = answer(part)?;
        if all.iter().any(|(other, _)| *other == model) {
            return Err(part.wrong(format!("the answer under {} is told twice", model.word())));
        }
        all.push((model, answer));
    }
    Ok(all)
}

fn answer(part: Part) -> Result<Answer, Wrong> {
    let (model, word) = part.split_once(':').ok_or_else(|| part.wrong("an answer is told as in sc: allowed"))?;
    let (model, word) = (model.trim(), word.trim());
    let known = Model::BOTH.into_iter().find(|known| known.word() == model.text());
    let known = known.ok_or_else(|| model.wrong(format!("sc or tso is expected here, not {}", model.text())))?;
    match word.text() {
        "allowed" => Ok((known, true)),
        "forbidden" => Ok((known, false)),
        other => Err(word.wrong(format!("allowed or forbidden is expected here, not {other}"))),
    }
}

/// What a test expects, in the words of the text form: by its answers, else that its condition is as it says on x86.
pub fn expected(quantifier: Quantifier, condition: &str, answers: &[Answer]) -> Vec<String> {
    let line = |word: &str, model: Model| format!("# {word} {condition} under {}", model.word());
    if answers.is_empty() {
        let word = match quantifier {
            Quantifier::Exists => "exists",
            Quantifier::Never => "forbid",
            Quantifier::Forall => "forall",
        };
        return vec![line(word, Model::Tso)];
    }
    let told = |(model, allowed): &Answer| match (quantifier, allowed) {
        (Quantifier::Forall, false) => line("forall", *model),
        (Quantifier::Forall, true) => format!("# exists !({condition}) under {}", model.word()),
        (_, true) => line("exists", *model),
        (_, false) => line("forbid", *model),
    };
    answers.iter().map(told).collect()
}

#[cfg(test)]
mod tests {
    use super::*;

    #[test]
    fn told_in_a_remark() {
        assert_eq!(
            answers("X86 A\n(* sc: forbidden; tso: allowed *)\n(* else *)"),
            Ok(vec![(Model::Sc, false), (Model::Tso, true)])
        );
        assert_eq!(answers("(* no: answer *)"), Ok(vec![]));
        for (text, column) in
            [("(* sc: maybe *)", 8), ("(* tso: allowed; ts: allowed *)", 18), ("(* sc: allowed; sc: allowed *)", 17)]
        {
            assert_eq!(answers(text).unwrap_err().column, column, "{text}");
        }
    }

    #[test]
    fn what_is_expected() {
        let x86 = |quantifier| expected(quantifier, "(x=1)", &[]).join("; ");
        assert_eq!(x86(Quantifier::Exists), "# exists (x=1) under tso");
        assert_eq!(x86(Quantifier::Never), "# forbid (x=1) under tso");
        assert_eq!(x86(Quantifier::Forall), "# forall (x=1) under tso");
        let both = [(Model::Sc, false), (Model::Tso, true)];
        assert_eq!(expected(Quantifier::Never, "(x=1)", &both).join("; "), "# forbid (x=1) under sc; # exists (x=1) under tso");
        assert_eq!(expected(Quantifier::Forall, "x=1", &both).join("; "), "# forall x=1 under sc; # exists !(x=1) under tso");
    }
}
