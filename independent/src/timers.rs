//! Request 6 of document 02, desks that run their own timers: the lengths, the
//! deadlines in a count of seconds that wraps, the due test, and a tick at either
//! desk.

use crate::codec::{message_bytes, Message, Refusal};
use crate::outcome::Kind;

/// "Lengths at the clerk's start", in seconds.
#[derive(Clone, Copy, PartialEq, Eq, Debug)]
pub struct Lengths {
    pub t1: u32,
    pub t2_ccbs: u32,
    pub t2_ccnr: u32,
    pub t3: u32,
}

impl Default for Lengths {
    /// REPLAY-02: "Before the first entry the lengths are 20, 900, 3600 and 20".
    fn default() -> Lengths {
        Lengths { t1: 20, t2_ccbs: 900, t2_ccnr: 3600, t3: 20 }
    }
}

impl Lengths {
    /// "T1 1 to 3600 .., T2 for CCBS 60 to 3600, T2 for CCNR 60 to 86400, T3 10 to
    /// 30; out of range is 2 and no desk is made."
    pub fn in_range(&self) -> bool {
        (1..=3600).contains(&self.t1)
            && (60..=3600).contains(&self.t2_ccbs)
            && (60..=86400).contains(&self.t2_ccnr)
            && (10..=30).contains(&self.t3)
    }

    pub fn t2(&self, kind: Kind) -> u32 {
        match kind {
            Kind::Ccbs => self.t2_ccbs,
            Kind::Ccnr => self.t2_ccnr,
        }
    }
}

/// "Guard lengths are 01's, fixed": "CCBS 3660 s, CCNR 86460 s".
pub fn guard_length(kind: Kind) -> u32 {
    match kind {
        Kind::Ccbs => 3660,
        Kind::Ccnr => 86460,
    }
}

/// "A deadline is the count, wrapping-plus the length, stored when the timer
/// starts".
pub fn deadline(count: u32, length: u32) -> u32 {
    count.wrapping_add(length)
}

/// "due is `count wrapping-minus deadline < 2^31`".
pub fn is_due(count: u32, deadline: u32) -> bool {
    count.wrapping_sub(deadline) < 1 << 31
}

/// A record that a tick looks at.
pub trait Timed {
    /// A timer that runs in the record's state is due.
    fn expires(&self, count: u32) -> bool;
    /// "What it sends is the ccCancel that a report of the timer sends."
    fn last_message(&self) -> Message;
}

/// What an unrefused tick tells: the places of those that expired, "as they were
/// before the tick, from the oldest on", and how many bytes were written. The
/// notice of each is "failed"; none expires in Ringout, so no call is to clear.
#[derive(Clone, PartialEq, Eq, Debug)]
pub struct Ticked {
    pub places: Vec<usize>,
    pub length: usize,
}

/// "A tick: records in the order of storing; for each at most one expiry ..; its
/// ccCancel into the lent buffer behind the one before. 12 where the messages don't
/// all have room, and then nothing changes."
pub fn tick<R: Timed>(records: &mut Vec<R>, count: u32, buffer: &mut [u8]) -> Result<Ticked, Refusal> {
    let due = records.iter().enumerate().filter(|(_, record)| record.expires(count));
    let places: Vec<usize> = due.map(|(place, _)| place).collect();
    let sent = records.iter().filter(|record| record.expires(count)).map(Timed::last_message);
    let bytes: Vec<u8> = sent.flat_map(|message| message_bytes(&message)).collect();
    // "just enough is enough; nothing due needs none".
    let room = buffer.get_mut(..bytes.len()).ok_or(Refusal::NoRoom)?;
    room.copy_from_slice(&bytes);
    records.retain(|record| !record.expires(count));
    Ok(Ticked { places, length: bytes.len() })
}

#[cfg(test)]
mod tests {
    use super::*;

    #[test]
    fn each_length_on_both_edges_of_its_range() {
        let with = |t1: u32, t2_ccbs: u32, t2_ccnr: u32, t3: u32| Lengths { t1, t2_ccbs, t2_ccnr, t3 }.in_range();
        assert!(Lengths::default().in_range());
        assert!(with(1, 60, 60, 10) && with(3600, 3600, 86400, 30));
        for t1 in [0, 3601, u32::MAX] {
            assert!(!with(t1, 900, 3600, 20));
        }
        for t2 in [0, 59, 3601, u32::MAX] {
            assert!(!with(20, t2, 3600, 20));
        }
        for t2 in [0, 59, 86401, u32::MAX] {
            assert!(!with(20, 900, t2, 20));
        }
        for t3 in [0, 9, 31, u32::MAX] {
            assert!(!with(20, 900, 3600, t3));
        }
    }

    #[test]
    fn due_from_the_deadline_on_for_half_of_the_counts() {
        for deadline in [0, 1, 10, 1 << 31, u32::MAX - 5, u32::MAX] {
            let after = |seconds: u32| is_due(deadline.wrapping_add(seconds), deadline);
            assert!(after(0) && after(1) && after((1 << 31) - 1));
            assert!(!after(1 << 31) && !after((1 << 31) + 1) && !after(u32::MAX));
        }
    }

    #[test]
    fn a_deadline_wraps() {
        assert_eq!(deadline(u32::MAX, 1), 0);
        assert_eq!(deadline(4_294_967_286, 60), 50);
        assert_eq!(deadline(0, 3660), 3660);
    }
}
