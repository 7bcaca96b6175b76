//! Random program files, most of them small enough to walk every schedule, some damaged, some no programs at all.
use tarczolin_tests::files::text;
use tarczolin_tests::oracle::decode::{decode, Program};
use tarczolin_tests::random::program::{frames, frames_parted, Size, ANY, SMALL};
use tarczolin_tests::random::{damage, tso, Random};
use tarczolin_tests::search::walk::orders;

const SIZES: [Size; 5] = [
    SMALL,
    Size { threads: 2, instructions: 8, accesses: 9, registers: 4, ..SMALL },
    Size { threads: 4, instructions: 4, accesses: 7, locations: 3, ..SMALL },
    Size { threads: 6, instructions: 2, accesses: 6, ..SMALL },
    Size { constants: 0, ..SMALL },
];

pub fn any(random: &mut Random) -> Vec<u8> {
    let size = random.pick(&SIZES);
    match random.below(16) {
        0 => (0..random.below(200)).map(|_| random.byte()).collect(),
        1 | 2 => {
            let damage = random.pick(&damage::ALL);
            damage::file(random, damage)
        }
        3 => text(&frames(random, ANY)),
        4..=8 => text(&tso::frames(random, size)),
        _ => text(&frames_parted(random, size)),
    }
}

/// May every schedule of it be walked?
pub fn is_quick(program: &Program) -> bool {
    orders(program) <= 2_000
}

/// An accepted file of which that is true.
pub fn is_small(file: &[u8]) -> bool {
    decode(file).is_ok_and(|program| is_quick(&program))
}
