//! What both sides are given and answer: the same count, bytes and numbers in, the same bytes and numbers out, eleven of a step, 131 of a tick.

use crate::clerk;
use crate::meant;

pub type Identifier = [u8; 16];

/// Refusal, bytes written, bytes read, timers started, timers stopped, notice, clear, whether bytes could not be read, and where, whether the step was about a
/// record, and at which place: the library's outcome, in its order.
pub type Step = [u64; 11];

/// Refusal, bytes written, how many records expired, then the place, notice, clear and length of the message of each, and zeros behind them: the library's too.
pub type Ticked = [u64; 131];

/// Where a step and where a tick tells what it did.
#[derive(PartialEq, Debug)]
pub struct Told {
    pub step: Step,
    pub tick: Ticked,
}

pub const UNTOLD: Told = Told { step: [0; 11], tick: [0; 131] };

/// The caller's buffer for what is sent: enough for a tick in which 32 records expire, with messages of 54 bytes, the most that one takes.
pub const ROOM: usize = 1728;

/// The lengths of T1, of T2 for both kinds and of T3, in seconds.
pub const LENGTHS: [u32; 4] = [20, 900, 3600, 20];

/// A place that no record has.
pub const NO_PLACE: usize = usize::MAX;

/// An identifier in the library's form: its length, 16 or 0, and sixteen bytes.
pub type Given = [u8; 17];

pub fn given(identifier: Option<Identifier>) -> Given {
    let mut given = [0; 17];
    if let Some(bytes) = identifier {
        given[0] = 16;
        given[1..].copy_from_slice(&bytes);
    }
    given
}

/// How a request is named, in the library's form and in the independent program's (`own`).
pub struct Name {
    pub given: Given,
    pub own: meant::Name,
}

impl Name {
    pub fn new(identifier: Option<Identifier>, place: usize) -> Name {
        Name { given: given(identifier), own: meant::Name { identifier, place } }
    }
}

/// A number of digits in both forms: sixteen bytes for the library, the digits alone for the independent program.
pub struct Number {
    pub sixteen: [u8; 16],
    pub digits: Vec<u8>,
}

impl Number {
    pub fn new(digits: Vec<u8>) -> Number {
        let mut sixteen = [0; 16];
        sixteen[0] = digits.len() as u8;
        sixteen[1..=digits.len()].copy_from_slice(&digits);
        Number { sixteen, digits }
    }
}

/// An ask in the library's form, and in the independent program's (`own`): each side is given its own form, made outside the measure.
pub struct Ask {
    pub identifier: Given,
    pub kind: u64,
    pub number_a: [u8; 16],
    pub number_b: [u8; 16],
    pub service: u64,
    pub can_keep: u64,
    pub preference: u64,
    pub own: clerk::Ask,
}

/// A message comes with the place that the host names; a tick with a count of its own and with its room in the buffer.
pub enum ClerkInput {
    Ask(Ask),
    Bytes(Vec<u8>, usize, u64),
    Act(Name, u64),
    Timer(Name, u64),
    Tick(u32, usize),
}

pub enum LineInput {
    Bytes(Vec<u8>, usize),
    Report(Number, u64),
    Look(Number),
    Act(Name, u64),
    Guard(Name),
    Tick(u32, usize),
}

/// The reader and the writer alone: bytes read into a message that is held, and that message written at a place.
pub enum CodecInput {
    Read(Vec<u8>),
    Write(usize),
}

/// A desk of one of the two sides, or the place where it holds a message; and a step on it, at a count.
pub trait Desk: Clone {
    type Input;
    fn step(&mut self, count: u32, input: &Self::Input, out: &mut [u8], told: &mut Told) -> u64;

    /// What the side itself does not tell is found out here, outside the measure, before the two are compared.
    fn complete(_out: &[u8], _told: &mut Told) {}
}
