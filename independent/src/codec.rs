//! The bytes of document 01, with request 1 of document 02: numbers in groups of
//! seven bits, one message taken from the front of bytes, one message written at
//! a place of a buffer.

/// "identifier (16 bytes, the CallIdentifier of the failed call)". Request 1: "It
/// may now be absent", so messages and records hold an Option of it: "An absent
/// identifier is a length, never a value."
pub type Identifier = [u8; 16];

/// Request 1: "the byte form gets a length of 0 or 16 before the identifier".
const IDENTIFIER_LENGTH: u32 = 16;

/// numberA "1 to 15 decimal digits, or withheld", numberB "1 to 15".
pub const MOST_DIGITS: usize = 15;

/// "service (0 to 16383)".
pub const LARGEST_SERVICE: u32 = 16383;

/// "Flags are can-keep (0 or 1) plus 2 x preference (0 none, 1 retain,
/// 2 release), so 0 to 5."
pub const LARGEST_FLAGS: u32 = 5;

/// Document 01, "Refusal numbers".
#[derive(Clone, Copy, PartialEq, Eq, Debug)]
pub enum Refusal {
    BadBytes,
    OutOfRange,
    NotForThisEnd,
    IdentifierLive,
    ClerkFull,
    NoRecord,
    NoRow,
    BadCarrier,
    TimerNotRunning,
    NoSuchLine,
    NothingToOffer,
    NoRoom,
}

impl Refusal {
    pub fn number(self) -> u32 {
        match self {
            Refusal::BadBytes => 1,
            Refusal::OutOfRange => 2,
            Refusal::NotForThisEnd => 3,
            Refusal::IdentifierLive => 4,
            Refusal::ClerkFull => 5,
            Refusal::NoRecord => 6,
            Refusal::NoRow => 7,
            Refusal::BadCarrier => 8,
            Refusal::TimerNotRunning => 9,
            Refusal::NoSuchLine => 10,
            Refusal::NothingToOffer => 11,
            Refusal::NoRoom => 12,
        }
    }
}

/// "Carriers: Setup 1, Connect 2, Facility 3, Release Complete 4, Alerting 5."
#[derive(Clone, Copy, PartialEq, Eq, Debug)]
pub enum Carrier {
    Setup,
    Connect,
    Facility,
    ReleaseComplete,
    Alerting,
}

impl Carrier {
    pub const ALL: [Carrier; 5] =
        [Carrier::Setup, Carrier::Connect, Carrier::Facility, Carrier::ReleaseComplete, Carrier::Alerting];

    pub fn number(self) -> u32 {
        match self {
            Carrier::Setup => 1,
            Carrier::Connect => 2,
            Carrier::Facility => 3,
            Carrier::ReleaseComplete => 4,
            Carrier::Alerting => 5,
        }
    }

    fn from_number(number: u32) -> Option<Carrier> {
        Carrier::ALL.iter().copied().find(|c| c.number() == number)
    }

    pub fn name(self) -> &'static str {
        match self {
            Carrier::Setup => "Setup",
            Carrier::Connect => "Connect",
            Carrier::Facility => "Facility",
            Carrier::ReleaseComplete => "Release Complete",
            Carrier::Alerting => "Alerting",
        }
    }
}

/// The fields of types 1 and 2: "numberA, numberB, service, flags".
/// An empty numberA is a withheld one.
#[derive(Clone, PartialEq, Eq, Debug)]
pub struct RequestFields {
    pub number_a: Vec<u8>,
    pub number_b: Vec<u8>,
    pub service: u32,
    pub flags: u32,
}

/// Request 1: "Types 5, 6, 9 and 10 in Setup always carry numberA, numberB and
/// service too". READINGS-02 lets numberB and service be absent in the language;
/// "the byte form has no way to say so", and here every message was read or is
/// a record's, so they are there. An empty numberA is a withheld one.
#[derive(Clone, PartialEq, Eq, Debug)]
pub struct Elements {
    pub number_a: Vec<u8>,
    pub number_b: Vec<u8>,
    pub service: u32,
}

/// "A message is one of twelve types with its own fields".
#[derive(Clone, PartialEq, Eq, Debug)]
pub enum Content {
    CcbsRequest(RequestFields),
    CcnrRequest(RequestFields),
    RequestResult { keep: u32 },
    RequestError { error: u32 },
    CcExecPossible,
    CcRingout,
    RingoutError { error: u32 },
    CcSuspend,
    CcResume,
    CcCancel,
    CallAlerts,
    CallFailed,
}

/// Request error: "1 short, 2 long".
pub const SHORT: u32 = 1;
pub const LONG: u32 = 2;

/// Ringout error: "1 remoteUserBusyAgain, 2 failureToMatch".
pub const REMOTE_USER_BUSY_AGAIN: u32 = 1;
pub const FAILURE_TO_MATCH: u32 = 2;

impl Content {
    pub fn type_number(&self) -> u32 {
        match self {
            Content::CcbsRequest(_) => 1,
            Content::CcnrRequest(_) => 2,
            Content::RequestResult { .. } => 3,
            Content::RequestError { .. } => 4,
            Content::CcExecPossible => 5,
            Content::CcRingout => 6,
            Content::RingoutError { .. } => 7,
            Content::CcSuspend => 8,
            Content::CcResume => 9,
            Content::CcCancel => 10,
            Content::CallAlerts => 11,
            Content::CallFailed => 12,
        }
    }

    /// Request 1: "Types 5, 6, 9 and 10 in Setup have numberA, numberB, service,
    /// in the order of type 1; in another carrier they have none."
    pub fn carries_elements(&self, carrier: Carrier) -> bool {
        carrier == Carrier::Setup && matches!(self.type_number(), 5 | 6 | 9 | 10)
    }

    /// The name of the type and its one small field, as document 01 has them.
    pub fn name(&self) -> &'static str {
        match self {
            Content::CcbsRequest(_) => "ccbsRequest",
            Content::CcnrRequest(_) => "ccnrRequest",
            Content::RequestResult { keep: 0 } => "result keep 0",
            Content::RequestResult { .. } => "result keep 1",
            Content::RequestError { error: SHORT } => "request error short",
            Content::RequestError { .. } => "request error long",
            Content::CcExecPossible => "ccExecPossible",
            Content::CcRingout => "ccRingout",
            Content::RingoutError { error: REMOTE_USER_BUSY_AGAIN } => "ringout error remoteUserBusyAgain",
            Content::RingoutError { .. } => "ringout error failureToMatch",
            Content::CcSuspend => "ccSuspend",
            Content::CcResume => "ccResume",
            Content::CcCancel => "ccCancel",
            Content::CallAlerts => "call alerts",
            Content::CallFailed => "call failed",
        }
    }
}

/// "Equality is of these" (type, carrier, identifier, fields); digits stand in
/// a Vec of their own length, so there are no places behind the last digit. The
/// elements are there exactly for types 5, 6, 9 and 10 in Setup.
#[derive(Clone, PartialEq, Eq, Debug)]
pub struct Message {
    pub carrier: Carrier,
    pub identifier: Option<Identifier>,
    pub content: Content,
    pub elements: Option<Elements>,
}

impl Message {
    /// The message with these elements, if its type and carrier have any.
    pub fn with_elements(mut self, elements: &Elements) -> Message {
        self.elements = self.content.carries_elements(self.carrier).then(|| elements.clone());
        self
    }
}

/// One to fifteen digits, each 0 to 9: a numberB, or the digits of a line.
pub fn good_digits(digits: &[u8]) -> bool {
    (1..=MOST_DIGITS).contains(&digits.len()) && digits.iter().all(|d| *d <= 9)
}

/// A numberA may also be withheld, which is no digits at all.
pub fn good_number_a(digits: &[u8]) -> bool {
    digits.is_empty() || good_digits(digits)
}

fn elements_in_range(elements: &Elements) -> bool {
    good_number_a(&elements.number_a) && good_digits(&elements.number_b) && elements.service <= LARGEST_SERVICE
}

/// Refusal 2, "a field is out of range"; READINGS 7: it "looks at every field
/// of the message, also of a type for the other end". Elements that are missing,
/// or too many, are no message of this program's: no bytes are read as one.
pub fn in_range(message: &Message) -> bool {
    let due = message.content.carries_elements(message.carrier);
    if due != message.elements.is_some() || !message.elements.iter().all(elements_in_range) {
        return false;
    }
    match &message.content {
        Content::CcbsRequest(fields) | Content::CcnrRequest(fields) => {
            good_number_a(&fields.number_a)
                && good_digits(&fields.number_b)
                && fields.service <= LARGEST_SERVICE
                && fields.flags <= LARGEST_FLAGS
        }
        Content::RequestResult { keep } => *keep <= 1,
        Content::RequestError { error } | Content::RingoutError { error } => (1..=2).contains(error),
        _ => true,
    }
}

/// Why a reader refuses, and where. Document 02, request 2: "For refusal 1 or 2
/// the number reader and all above it also tell the place". READINGS-02: "A
/// place is an index into the slice that the function was given."
#[derive(Clone, Copy, PartialEq, Eq, Debug)]
pub struct Fault {
    pub refusal: Refusal,
    pub place: usize,
}

impl Fault {
    /// "The bytes ended: the slice's length (also where 80 is the last byte, and
    /// inside identifier or digits)."
    fn ended(bytes: &[u8]) -> Fault {
        Fault { refusal: Refusal::BadBytes, place: bytes.len() }
    }

    /// "A faulty number, `80 80` among them, or one out of range: its first
    /// byte. A digit over 9: its byte." It stands at the front of the slice.
    fn at_front(refusal: Refusal) -> Fault {
        Fault { refusal, place: 0 }
    }
}

/// What a reader gives: the value and the bytes that follow it. On a refusal
/// the caller still holds all of its bytes ("when it refuses it hands back
/// all of it").
type Read<'a, T> = Result<(T, &'a [u8]), Fault>;

/// A reader that was given `rest`, the end of `bytes`, tells a place in `rest`;
/// here the same place is told in `bytes`.
fn told_in<'a, T>(bytes: &[u8], rest: &[u8], read: Read<'a, T>) -> Read<'a, T> {
    let before = bytes.len() - rest.len();
    read.map_err(|fault| Fault { place: before + fault.place, ..fault })
}

fn read_byte(bytes: &[u8]) -> Read<'_, u8> {
    match bytes.split_first() {
        Some((first, rest)) => Ok((*first, rest)),
        None => Err(Fault::ended(bytes)),
    }
}

/// READINGS 2: "First byte under 128: the value. Otherwise: no second byte, 1;
/// second byte 128 or more, 1 (with or without a third); second byte 0, 1;
/// else first - 128 + 128 x second."
pub fn read_number(bytes: &[u8]) -> Read<'_, u32> {
    let (first, rest) = read_byte(bytes)?;
    if first < 128 {
        return Ok((u32::from(first), rest));
    }
    let (second, rest) = told_in(bytes, rest, read_byte(rest))?;
    if second >= 128 || second == 0 {
        return Err(Fault::at_front(Refusal::BadBytes));
    }
    Ok((u32::from(first) - 128 + 128 * u32::from(second), rest))
}

/// READINGS 1: "Each number is read and range-tested before the next byte is
/// looked at".
fn read_within(bytes: &[u8], lowest: u32, highest: u32) -> Read<'_, u32> {
    let (number, rest) = read_number(bytes)?;
    if number < lowest || number > highest {
        return Err(Fault::at_front(Refusal::OutOfRange));
    }
    Ok((number, rest))
}

/// READINGS 3: "carrier 1..5".
fn read_carrier(bytes: &[u8]) -> Read<'_, Carrier> {
    let (number, rest) = read_within(bytes, 1, 5)?;
    let carrier = Carrier::from_number(number).ok_or(Fault::at_front(Refusal::OutOfRange))?;
    Ok((carrier, rest))
}

/// Request 1: "identifier's length (a number: 0 or 16, else 2), the identifier";
/// the sixteen bytes are raw. REPLAY-02: "Two-byte forms of the length are faults
/// like any other's: `90 00` is 1 (not shortest), `80 01` is 2."
fn read_identifier(bytes: &[u8]) -> Read<'_, Option<Identifier>> {
    let (length, mut rest) = read_number(bytes)?;
    if length == 0 {
        return Ok((None, rest));
    }
    if length != IDENTIFIER_LENGTH {
        return Err(Fault::at_front(Refusal::OutOfRange));
    }
    let mut identifier = [0; 16];
    for place in identifier.iter_mut() {
        (*place, rest) = told_in(bytes, rest, read_byte(rest))?;
    }
    Ok((Some(identifier), rest))
}

/// READINGS 3: "A digit is one raw byte; over 9 is 2."
fn read_digit(bytes: &[u8]) -> Read<'_, u8> {
    let (digit, rest) = read_byte(bytes)?;
    if digit > 9 {
        return Err(Fault::at_front(Refusal::OutOfRange));
    }
    Ok((digit, rest))
}

/// "a number of digits is its length (0 only for a withheld numberA) and one
/// byte 0 to 9 per digit". READINGS 3: "The count is judged before any digit."
/// READINGS-02: "A length of digits out of range: that length's byte."
fn read_digits(bytes: &[u8], fewest: u32) -> Read<'_, Vec<u8>> {
    let (count, mut rest) = read_within(bytes, fewest, MOST_DIGITS as u32)?;
    let mut digits = Vec::new();
    for _ in 0..count {
        let (digit, behind) = told_in(bytes, rest, read_digit(rest))?;
        digits.push(digit);
        rest = behind;
    }
    Ok((digits, rest))
}

/// READINGS 3: "Every readable service is in range."
fn read_elements(bytes: &[u8]) -> Read<'_, Elements> {
    let (number_a, rest) = read_digits(bytes, 0)?;
    let (number_b, rest) = told_in(bytes, rest, read_digits(rest, 1))?;
    let (service, rest) = told_in(bytes, rest, read_within(rest, 0, LARGEST_SERVICE))?;
    Ok((Elements { number_a, number_b, service }, rest))
}

fn read_request(bytes: &[u8]) -> Read<'_, RequestFields> {
    let (Elements { number_a, number_b, service }, rest) = read_elements(bytes)?;
    let (flags, rest) = told_in(bytes, rest, read_within(rest, 0, LARGEST_FLAGS))?;
    Ok((RequestFields { number_a, number_b, service, flags }, rest))
}

fn read_content(type_number: u32, bytes: &[u8]) -> Read<'_, Content> {
    let content = match type_number {
        1 => return read_request(bytes).map(|(fields, rest)| (Content::CcbsRequest(fields), rest)),
        2 => return read_request(bytes).map(|(fields, rest)| (Content::CcnrRequest(fields), rest)),
        3 => return read_within(bytes, 0, 1).map(|(keep, rest)| (Content::RequestResult { keep }, rest)),
        4 => return read_within(bytes, 1, 2).map(|(error, rest)| (Content::RequestError { error }, rest)),
        7 => return read_within(bytes, 1, 2).map(|(error, rest)| (Content::RingoutError { error }, rest)),
        5 => Content::CcExecPossible,
        6 => Content::CcRingout,
        8 => Content::CcSuspend,
        9 => Content::CcResume,
        10 => Content::CcCancel,
        11 => Content::CallAlerts,
        12 => Content::CallFailed,
        // Never met: the type has been read within 1 to 12.
        _ => return Err(Fault::at_front(Refusal::OutOfRange)),
    };
    Ok((content, bytes))
}

/// Request 1: "type, carrier, identifier's length .., the identifier, then the
/// fields". "The reader takes one message from the front and hands back the part
/// of the buffer that follows the message". READINGS 4: it "does not hold the
/// carrier against the type". The types with elements have no field of their own.
pub fn read_message(bytes: &[u8]) -> Read<'_, Message> {
    let (type_number, rest) = read_within(bytes, 1, 12)?;
    let (carrier, rest) = told_in(bytes, rest, read_carrier(rest))?;
    let (identifier, rest) = told_in(bytes, rest, read_identifier(rest))?;
    let (content, rest) = told_in(bytes, rest, read_content(type_number, rest))?;
    if !content.carries_elements(carrier) {
        return Ok((Message { carrier, identifier, content, elements: None }, rest));
    }
    let (elements, rest) = told_in(bytes, rest, read_elements(rest))?;
    Ok((Message { carrier, identifier, content, elements: Some(elements) }, rest))
}

/// "each number in groups of seven bits, lowest group first, the top bit set
/// on all but the last byte, shortest form, one or two bytes". Only numbers
/// in range come here, so none is above 16383.
fn put_number(bytes: &mut Vec<u8>, number: u32) {
    if number < 128 {
        bytes.push(number as u8);
    } else {
        bytes.push((number % 128 + 128) as u8);
        bytes.push((number / 128 % 128) as u8);
    }
}

fn put_digits(bytes: &mut Vec<u8>, digits: &[u8]) {
    put_number(bytes, digits.len() as u32);
    bytes.extend_from_slice(digits);
}

/// "an absent identifier is a length": 0 and nothing behind it.
fn put_identifier(bytes: &mut Vec<u8>, identifier: &Option<Identifier>) {
    put_number(bytes, identifier.map_or(0, |_| IDENTIFIER_LENGTH));
    bytes.extend(identifier.iter().flatten());
}

/// The byte form of a message whose fields are in range: 3 to 54 bytes.
pub fn message_bytes(message: &Message) -> Vec<u8> {
    let mut bytes = Vec::new();
    put_number(&mut bytes, message.content.type_number());
    put_number(&mut bytes, message.carrier.number());
    put_identifier(&mut bytes, &message.identifier);
    if let Some(elements) = &message.elements {
        put_digits(&mut bytes, &elements.number_a);
        put_digits(&mut bytes, &elements.number_b);
        put_number(&mut bytes, elements.service);
    }
    match &message.content {
        Content::CcbsRequest(fields) | Content::CcnrRequest(fields) => {
            put_digits(&mut bytes, &fields.number_a);
            put_digits(&mut bytes, &fields.number_b);
            put_number(&mut bytes, fields.service);
            put_number(&mut bytes, fields.flags);
        }
        Content::RequestResult { keep } => put_number(&mut bytes, *keep),
        Content::RequestError { error } | Content::RingoutError { error } => put_number(&mut bytes, *error),
        _ => {}
    }
    bytes
}

/// "The writer puts a message at a place that the caller names in a longer
/// buffer; every other byte stays; it tells the length, and a place past the
/// end is 12." READINGS 6: "2 before 12; 12 if the place is past the end or
/// the room is short; nothing is stored on a refusal."
pub fn write_message(message: &Message, buffer: &mut [u8], place: usize) -> Result<usize, Refusal> {
    if !in_range(message) {
        return Err(Refusal::OutOfRange);
    }
    let bytes = message_bytes(message);
    let room = buffer.get_mut(place..).ok_or(Refusal::NoRoom)?;
    let part = room.get_mut(..bytes.len()).ok_or(Refusal::NoRoom)?;
    part.copy_from_slice(&bytes);
    Ok(bytes.len())
}

#[cfg(test)]
mod places;

#[cfg(test)]
mod tests {
    use super::*;

    fn plain(content: Content) -> Message {
        Message { carrier: Carrier::ReleaseComplete, identifier: Some([7; 16]), content, elements: None }
    }

    fn nameless(content: Content) -> Message {
        Message { identifier: None, ..plain(content) }
    }

    fn long_elements() -> Elements {
        Elements { number_a: vec![1; 15], number_b: vec![2; 15], service: 16383 }
    }

    fn longest() -> Message {
        plain(Content::CcbsRequest(RequestFields {
            number_a: vec![1; 15],
            number_b: vec![2; 15],
            service: 16383,
            flags: 5,
        }))
    }

    fn refusal_of(bytes: &[u8]) -> u32 {
        read_message(bytes).err().map_or(0, |fault| fault.refusal.number())
    }

    #[test]
    fn example_1_bytes_ac_02_are_300() {
        assert_eq!(read_number(&[0xAC, 0x02]), Ok((300, &[][..])));
    }

    #[test]
    fn example_2_ff_7f_are_16383() {
        assert_eq!(read_number(&[0xFF, 0x7F]), Ok((16383, &[][..])));
    }

    #[test]
    fn examples_3_4_5_refusal_1() {
        // "3. 80 00: refusal 1. 4. 80 80 01: refusal 1. 5. No bytes: refusal 1."
        let refusal = |bytes| read_number(bytes).map_err(|fault| fault.refusal);
        assert_eq!(refusal(&[0x80, 0x00]), Err(Refusal::BadBytes));
        assert_eq!(refusal(&[0x80, 0x80, 0x01]), Err(Refusal::BadBytes));
        assert_eq!(refusal(&[]), Err(Refusal::BadBytes));
        assert_eq!(refusal_of(&[]), 1);
    }

    #[test]
    fn reading_1_0d_alone_is_2() {
        assert_eq!(refusal_of(&[0x0D]), 2);
        assert_eq!(refusal_of(&[0x0C]), 1);
        assert_eq!(refusal_of(&[0x0C, 0x06]), 2);
    }

    #[test]
    fn reading_2_second_bytes() {
        // "no second byte, 1; second byte 128 or more, 1; second byte 0, 1"
        assert_eq!(refusal_of(&[0x81]), 1);
        assert_eq!(refusal_of(&[0x81, 0x80]), 1);
        assert_eq!(refusal_of(&[0x81, 0x00]), 1);
    }

    #[test]
    fn reading_3_80_01_is_128_so_2() {
        assert_eq!(read_number(&[0x80, 0x01]), Ok((128, &[][..])));
        assert_eq!(refusal_of(&[0x80, 0x01]), 2);
    }

    #[test]
    fn reading_3_the_count_is_judged_before_any_digit() {
        let mut bytes = vec![1, 1, 0, 16];
        assert_eq!(refusal_of(&bytes), 2);
        *bytes.last_mut().unwrap() = 15;
        assert_eq!(refusal_of(&bytes), 1);
        bytes.push(10);
        assert_eq!(refusal_of(&bytes), 2);
    }

    #[test]
    fn a_message_takes_3_to_54_bytes() {
        assert_eq!(message_bytes(&nameless(Content::CcCancel)), [10, 4, 0]);
        assert_eq!(message_bytes(&plain(Content::CcCancel)).len(), 19);
        assert_eq!(message_bytes(&longest()).len(), 54);
    }

    #[test]
    fn request_1_elements_stand_in_setup_alone() {
        for content in [Content::CcExecPossible, Content::CcRingout, Content::CcResume, Content::CcCancel] {
            for carrier in Carrier::ALL {
                let message = Message { carrier, ..plain(content.clone()) }.with_elements(&long_elements());
                assert_eq!(message.elements.is_some(), carrier == Carrier::Setup);
                assert!(in_range(&message));
                let bytes = message_bytes(&message);
                assert_eq!(bytes.len(), if carrier == Carrier::Setup { 53 } else { 19 });
                assert_eq!(read_message(&bytes), Ok((message, &[][..])));
            }
        }
        let suspend = Message { carrier: Carrier::Setup, ..plain(Content::CcSuspend) };
        assert_eq!(suspend.with_elements(&long_elements()).elements, None);
    }

    #[test]
    fn request_1_elements_that_are_missing_or_too_many_are_2() {
        let bare = Message { carrier: Carrier::Setup, ..plain(Content::CcCancel) };
        assert_eq!(write_message(&bare, &mut [0; 60], 0), Err(Refusal::OutOfRange));
        let too_many = Message { elements: Some(long_elements()), ..plain(Content::CcCancel) };
        assert_eq!(write_message(&too_many, &mut [0; 60], 0), Err(Refusal::OutOfRange));
        let bad = Elements { service: 16384, ..long_elements() };
        assert!(!in_range(&bare.with_elements(&bad)));
    }

    #[test]
    fn request_1_the_identifiers_length_is_0_or_16() {
        // "length other than 0 or 16 is 2"; "`90 00` is 1 (not shortest), `80 01`
        // is 2".
        for length in 0..=127 {
            let bytes = [&[8, 4, length][..], &[0; 16]].concat();
            let expected = if matches!(length, 0 | 16) { 0 } else { 2 };
            assert_eq!(refusal_of(&bytes), expected, "{length}");
        }
        assert_eq!(refusal_of(&[8, 4, 0x90, 0]), 1);
        assert_eq!(refusal_of(&[8, 4, 0x80, 1]), 2);
        assert_eq!(refusal_of(&[8, 4]), 1);
        assert_eq!(refusal_of(&[8, 4, 16]), 1);
    }

    #[test]
    fn the_reader_hands_back_what_follows() {
        let mut bytes = message_bytes(&longest());
        bytes.extend_from_slice(&[9, 8, 7]);
        assert_eq!(read_message(&bytes), Ok((longest(), &[9, 8, 7][..])));
    }

    #[test]
    fn room_of_54_bytes_against_53() {
        let mut buffer = [0xEE; 60];
        assert_eq!(write_message(&longest(), &mut buffer, 6), Ok(54));
        assert_eq!(buffer[..6], [0xEE; 6]);
        assert_eq!(buffer[6..], message_bytes(&longest())[..]);
        let mut buffer = [0xEE; 60];
        assert_eq!(write_message(&longest(), &mut buffer, 7), Err(Refusal::NoRoom));
        assert_eq!(write_message(&longest(), &mut buffer, 61), Err(Refusal::NoRoom));
        assert_eq!(write_message(&longest(), &mut buffer, usize::MAX), Err(Refusal::NoRoom));
        assert_eq!(buffer, [0xEE; 60]);
    }

    #[test]
    fn reading_6_2_before_12() {
        let message = plain(Content::RequestResult { keep: 2 });
        assert_eq!(write_message(&message, &mut [], 1), Err(Refusal::OutOfRange));
    }

    #[test]
    fn reading_4_every_carrier_with_every_type() {
        for carrier in Carrier::ALL {
            let message = Message { carrier, ..plain(Content::CallAlerts) };
            assert_eq!(read_message(&message_bytes(&message)), Ok((message, &[][..])));
        }
    }
}
