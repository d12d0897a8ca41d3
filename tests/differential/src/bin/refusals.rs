//! The refusals in English, as a host in another language than C gets them: a line for each number, one above the last too.
//! Usage: refusals

use differential::library::refusal_text;

const LAST: u32 = 17;

fn main() {
    for refusal in 0..=LAST + 1 {
        println!("{refusal} {}", refusal_text(refusal));
    }
}
