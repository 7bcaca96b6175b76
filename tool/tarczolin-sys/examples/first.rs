//! Reads a program file on standard input and prints the first schedule that fails, or none.
use std::io::Read;
use tarczolin_sys::{violation, Answer, SCHEDULE};

fn main() {
    let mut file = Vec::new();
    std::io::stdin().take(4097).read_to_end(&mut file).expect("a file on standard input");
    let mut schedule = [0; SCHEDULE];
    match violation(&file, &mut schedule) {
        Answer::Answered(length) => println!("{:02x?}", &schedule[..length as usize]),
        Answer::None => println!("none"),
        Answer::Refused(number, place) => println!("refusal {number} at line {place}"),
    }
}
