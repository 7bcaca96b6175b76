//! The option that names a memory model.
use super::arguments::Arguments;
use super::opt::Opt;
use crate::error::Error;
use crate::model::Model;

pub const MODEL: Opt = Opt {
    name: "--model",
    value: Some("sc|tso"),
    about: "sequential consistency, or total store order as on x86 (at most 16 accesses)",
};

pub const FOR_MODEL: Opt = Opt {
    name: "--model",
    value: Some("sc|tso"),
    about: "for this memory model alone: sc leaves fences out, which mean nothing there, tso takes at most 16 accesses",
};

pub const UNDER: Opt = Opt {
    name: "--under",
    value: Some("sc|tso|sc,tso|tso,sc"),
    about: "the memory models: first that of OLD, then that of NEW, or one for both; sc where it is not given",
};

/// The two models behind `--under`, if it is given.
pub fn under(arguments: &Arguments) -> Result<Option<[Model; 2]>, Error> {
    use Model::{Sc, Tso};
    let known = [
        ("sc", [Sc, Sc]),
        ("tso", [Tso, Tso]),
        ("sc,tso", [Sc, Tso]),
        ("tso,sc", [Tso, Sc]),
        ("sc,sc", [Sc, Sc]),
        ("tso,tso", [Tso, Tso]),
    ];
    let given = known.map(|(word, models)| (word, Some(models)));
    arguments.one_of(UNDER.name, &given, None)
}

/// The only model that a program is made for; none where it is for both.
pub fn only_model(arguments: &Arguments) -> Result<Option<Model>, Error> {
    arguments.flag(FOR_MODEL.name).then(|| model(arguments)).transpose()
}

/// The model that is asked for; sequential consistency where none is.
pub fn model(arguments: &Arguments) -> Result<Model, Error> {
    arguments.one_of(MODEL.name, &[("sc", Model::Sc), ("tso", Model::Tso)], Model::Sc)
}
