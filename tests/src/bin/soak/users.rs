//! Calls on four records, damaged between them.
use crate::tally::Tally;
use tarczolin_tests::oracle::users::{Call, Lists, Shared};
use tarczolin_tests::random::users::{call, damage, files};
use tarczolin_tests::random::Random;
use tarczolin_tests::users::held;

/// So many calls go by between two programs of the listings, and so many on one set of programs.
const AT_ONCE: usize = 20;
const TOGETHER: usize = 5_000;

pub struct Users {
    files: Vec<Vec<u8>>,
    lists: Lists,
    shared: Shared,
    left: usize,
}

impl Users {
    pub fn new(random: &mut Random) -> Users {
        Users { files: files(random), lists: Lists::default(), shared: Shared::fresh(), left: TOGETHER }
    }

    pub fn ask(&mut self, random: &mut Random, tally: &Tally) {
        if self.left < AT_ONCE {
            *self = Users::new(random);
        }
        self.left -= AT_ONCE;
        for _ in 0..AT_ONCE {
            let call = call(random, &self.files);
            held(random, &mut self.lists, &mut self.shared, &call).ok();
            tally.call(name(&call));
            if random.one_in(3) {
                damage(random, &self.files, &mut self.shared);
            }
        }
    }
}

fn name(call: &Call) -> &'static str {
    match call {
        Call::Open(..) => "open",
        Call::Ask(_) => "ask",
        Call::Serve(_) => "serve",
        Call::Close(_) => "close",
        Call::Set(..) => "set",
        Call::Return(..) => "return",
        Call::Forget(..) => "forget",
    }
}
