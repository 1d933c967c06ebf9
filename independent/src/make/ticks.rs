//! What the tick cases of both desks share (request 6 of document 02).

use super::{played, tick};
use crate::codec::read_message;
use crate::script::{take_entry, Answer, MOST_ROOM};

/// "A deadline is due if the count less the deadline, taken modulo 2^32, is under
/// 2^31."
pub const HALF: u32 = 1 << 31;

/// How far the count is behind a deadline: one before it, at it, one behind it, at
/// the last count at which it is due, and at the two behind that.
pub const OFFSETS: [u32; 6] = [u32::MAX, 0, 1, HALF - 1, HALF, HALF + 1];

/// The counts at which a timer of this length is started: an ordinary one, and
/// those whose deadline is the last count before the wrap and the first behind it.
pub fn starts(length: u32) -> [u32; 3] {
    [1000, u32::MAX.wrapping_sub(length), 0_u32.wrapping_sub(length)]
}

/// The lengths of the messages that a tick would send behind these entries.
pub fn sent_lengths(entries: &[u8], code: u8) -> Vec<usize> {
    let mut session = played(entries);
    let ticked = take_entry(&tick(code, MOST_ROOM as u16)).map(|(entry, _)| session.play(&entry));
    let bytes = match ticked {
        Some(Answer::Ticked { told: Ok(ticked), buffer }) => buffer.get(..ticked.length).unwrap_or(&[]).to_vec(),
        _ => Vec::new(),
    };
    let mut lengths = Vec::new();
    let mut rest = &bytes[..];
    while let Ok((_, behind)) = read_message(rest) {
        lengths.push(rest.len() - behind.len());
        rest = behind;
    }
    lengths
}

/// Rooms that are too little for these messages: none, one byte, the first alone,
/// all but the last, one byte short.
pub fn short_rooms(lengths: &[usize]) -> Vec<u16> {
    let all: usize = lengths.iter().sum();
    let first = lengths.first().copied().unwrap_or(0);
    let last = lengths.last().copied().unwrap_or(0);
    let mut rooms = vec![0, 1, first, all - last, all.saturating_sub(1)];
    rooms.retain(|room| *room < all);
    rooms.sort_unstable();
    rooms.dedup();
    rooms.into_iter().map(|room| room as u16).collect()
}

/// Rooms that are enough: just so, one byte more, the most.
pub fn long_rooms(lengths: &[usize]) -> [u16; 3] {
    let all: usize = lengths.iter().sum();
    [all as u16, all as u16 + 1, MOST_ROOM as u16]
}

#[cfg(test)]
mod tests {
    use super::*;
    use crate::make::{count, AskEntry, TICK_AT_CLERK};
    use crate::outcome::Kind;

    #[test]
    fn rooms_around_two_messages() {
        assert_eq!(short_rooms(&[3, 19]), [0, 1, 3, 21]);
        assert_eq!(short_rooms(&[3]), [0, 1, 2]);
        assert!(short_rooms(&[]).is_empty());
        assert_eq!(long_rooms(&[3, 19]), [22, 23, 2048]);
    }

    #[test]
    fn the_lengths_of_what_a_tick_would_send() {
        let ask = |identifier| AskEntry {
            identifier,
            kind: Kind::Ccbs,
            number_a: &[],
            number_b: &[1],
            service: 0,
            can_keep: true,
            preference: 0,
        };
        let mut entries = [ask(None).bytes(), ask(Some([7; 16])).bytes()].concat();
        assert!(sent_lengths(&entries, TICK_AT_CLERK).is_empty());
        entries.extend(count(20));
        assert_eq!(sent_lengths(&entries, TICK_AT_CLERK), [3, 19]);
    }
}
