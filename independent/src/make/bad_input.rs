//! Bad input for either desk: document 02, request 2, has each refusal of bytes
//! told with its place.
//!
//! The bytes are those of codec.rs. They reach a desk that holds nothing, which
//! no message changes, so that every entry stands for itself; `bad_bytes` of
//! clerk.rs and line.rs has a record live that the bytes speak of.

use super::{codec, start_clerk, start_line, to_clerk, to_line, Scripts, PRINT_CLERK, PRINT_LINE};
use crate::timers::Lengths;

/// A desk that holds nothing: how it is started, handed bytes and printed.
struct EmptyDesk {
    start: Vec<u8>,
    hand_in: fn(&[u8]) -> Vec<u8>,
    print: u8,
}

impl EmptyDesk {
    /// The desk started anew, these bytes one after the other, and a print.
    fn case(&self, inputs: &[Vec<u8>]) -> Vec<u8> {
        let mut case = self.start.clone();
        for bytes in inputs {
            case.extend((self.hand_in)(bytes));
        }
        case.push(self.print);
        case
    }

    /// Each input in a case of its own, then "every byte of a good message
    /// replaced by every value", one case for each byte.
    fn add_all(&self, scripts: &mut Scripts) {
        for bytes in codec::bad_input() {
            scripts.add(&self.case(&[bytes]));
        }
        for bytes in codec::shortest_and_longest() {
            for place in 0..bytes.len() {
                scripts.add(&self.case(&codec::replaced_at(&bytes, place)));
            }
        }
    }
}

pub fn at_clerk(scripts: &mut Scripts) {
    let hand_in = |bytes: &[u8]| to_clerk(false, 0, bytes);
    EmptyDesk { start: start_clerk(Lengths::default()), hand_in, print: PRINT_CLERK }.add_all(scripts);
}

/// Without lines every request gets a long error, which stores nothing.
pub fn at_line(scripts: &mut Scripts) {
    let no_lines: [(&[u8], u8); 0] = [];
    let hand_in = |bytes: &[u8]| to_line(0, bytes);
    EmptyDesk { start: start_line(&no_lines, 0), hand_in, print: PRINT_LINE }.add_all(scripts);
}
