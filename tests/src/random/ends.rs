//! Random programs that have many outcomes, or other ones under total store order.
use super::Random;
use crate::files::lines;

/// Threads of two or three accesses that keep what they read, so that many outcomes come about; some of the same code, and declared alike.
pub fn mixing(random: &mut Random) -> Vec<u8> {
    let access = |random: &mut Random| {
        let (l, c) = (random.below(3), random.below(3));
        match random.below(6) {
            0 => format!("11000{l} "),
            1 => format!("11000{l} 230000000000{c:02x} "),
            2 => format!("100{l}00000000{c:02x} "),
            3 => format!("100{l}0100000000 "),
            _ => format!("12000{l}00000000{:02x} ", 1 + c),
        }
    };
    let threads = random.between(2, 3);
    let code = |random: &mut Random| (0..if threads == 2 { 3 } else { 2 }).map(|_| access(random)).collect::<String>();
    let (same, alike) = (code(random), random.one_in(3));
    let all: String = (0..threads).map(|_| format!("01 {}", if alike { same.clone() } else { code(random) })).collect();
    let declared = if alike { ["020001", "02000102"][threads - 2] } else { "" };
    lines(&format!("{all} {declared}"))
}

/// Two threads that store, load and keep what they loaded at a location of their own: where the loads pass the stores memory tells it, unless
/// a fetch and add stands between.
pub fn buffering(random: &mut Random) -> Vec<u8> {
    let thread = |random: &mut Random, t: usize| {
        let fence = if random.one_in(3) { "1201060000000000 " } else { "" };
        let [own, other] = if random.one_in(4) { [random.below(2), random.below(2)] } else { [t, 1 - t] };
        format!("01 100{own}0000000001 {fence}11000{other} 100{}0100000000 ", 2 + t)
    };
    let threads: String = (0..2).map(|t| thread(random, t)).collect();
    lines(&threads)
}
