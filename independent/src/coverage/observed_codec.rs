//! Names the codec's rows that one write (code 48) reached, and the row of bytes
//! that hold no message, at either desk too.
//!
//! The first fault and its place are found here by a walk of its own, and not by
//! the reader; the outcome in the name is the reader's and the writer's.

use crate::codec::{read_message, Content, Elements};
use crate::script::Answer;

fn type_name(number: u32) -> &'static str {
    match number {
        1 => "ccbsRequest",
        2 => "ccnrRequest",
        3 => "result",
        4 => "request error",
        5 => "ccExecPossible",
        6 => "ccRingout",
        7 => "ringout error",
        8 => "ccSuspend",
        9 => "ccResume",
        10 => "ccCancel",
        11 => "call alerts",
        _ => "call failed",
    }
}

/// READINGS-02, request 2, in the words of the rows.
const AT_LENGTH: &str = "at the bytes' length";
const AT_NUMBER: &str = "at the number's first byte";
const AT_DIGIT: &str = "at the digit";

/// The first fault as the walk finds it: its name, its place and the words for
/// that place.
struct Found {
    name: String,
    place: usize,
    words: &'static str,
}

impl Found {
    fn of(self, what: &str) -> Found {
        Found { name: format!("{what}: {}", self.name), ..self }
    }
}

/// All of the bytes, and how many of them have been walked over.
struct Walk<'a> {
    bytes: &'a [u8],
    walked: usize,
}

impl Walk<'_> {
    fn rest(&self) -> &[u8] {
        self.bytes.get(self.walked..).unwrap_or(&[])
    }

    fn ended(&self, name: &str) -> Found {
        Found { name: name.to_string(), place: self.bytes.len(), words: AT_LENGTH }
    }

    /// A fault of what begins where the walk stands.
    fn faulty(&self, name: &str, words: &'static str) -> Found {
        Found { name: name.to_string(), place: self.walked, words }
    }

    /// A number and its range, or what is wrong with it.
    fn number(&mut self, lowest: u32, highest: u32) -> Result<u32, Found> {
        let (number, length, form) = match *self.rest() {
            [] => return Err(self.ended("bytes end before it")),
            [first, ..] if first < 128 => (u32::from(first), 1, "one byte"),
            [_] => return Err(self.ended("ends inside")),
            [_, second] if second >= 128 => return Err(self.faulty("over two bytes, nothing behind", AT_NUMBER)),
            [_, second, ..] if second >= 128 => return Err(self.faulty("over two bytes", AT_NUMBER)),
            [_, 0, ..] => return Err(self.faulty("not shortest", AT_NUMBER)),
            [first, second, ..] => (u32::from(first) % 128 + 128 * u32::from(second), 2, "two bytes"),
        };
        if number < lowest || number == highest + 1 {
            return Err(self.faulty(&format!("is {number}"), AT_NUMBER));
        }
        if number > highest {
            return Err(self.faulty(&format!("over {} in {form}", highest + 1), AT_NUMBER));
        }
        self.walked += length;
        Ok(number)
    }

    fn field(&mut self, name: &str, lowest: u32, highest: u32) -> Result<u32, Found> {
        self.number(lowest, highest).map_err(|found| found.of(name))
    }

    /// Request 1: "a number 0 or 16 (how long the identifier is; any other is 2 at
    /// that number), the identifier".
    fn identifier(&mut self) -> Result<(), Found> {
        let before = self.walked;
        let length = self.field("identifier's length", 0, 16)?;
        if length == 0 {
            return Ok(());
        }
        if length < 16 {
            self.walked = before;
            return Err(self.faulty("is 1 to 15", AT_NUMBER).of("identifier's length"));
        }
        let there = self.rest().len();
        if there < 16 {
            return Err(self.ended(&format!("identifier: bytes end before byte {}", there + 1)));
        }
        self.walked += 16;
        Ok(())
    }

    fn digits(&mut self, name: &str, fewest: u32) -> Result<(), Found> {
        let count = self.field(&format!("count of {name}"), fewest, 15)?;
        for place in 1..=count {
            match self.rest().first() {
                None => return Err(self.ended(&format!("{name}: bytes end before digit {place}"))),
                Some(10..=255) => return Err(self.faulty(&format!("{name}: digit {place} is over 9"), AT_DIGIT)),
                Some(_) => self.walked += 1,
            }
        }
        Ok(())
    }

    fn elements(&mut self) -> Result<(), Found> {
        self.digits("numberA", 0)?;
        self.digits("numberB", 1)?;
        self.field("service", 0, 16383).map(|_| ())
    }

    /// What stands behind the type.
    fn behind_type(&mut self, number: u32) -> Result<(), Found> {
        let carrier = self.field("carrier", 1, 5)?;
        self.identifier()?;
        match number {
            1 | 2 => {
                self.elements()?;
                self.field("flags", 0, 5)?;
            }
            5 | 6 | 9 | 10 if carrier == 1 => self.elements()?,
            3 => {
                self.field("keep", 0, 1)?;
            }
            4 | 7 => {
                self.field("error", 1, 2)?;
            }
            _ => {}
        }
        Ok(())
    }
}

/// The type's name and the length of a message that is there, or its fault.
fn walk(bytes: &[u8]) -> Result<(&'static str, usize), Found> {
    let mut walk = Walk { bytes, walked: 0 };
    if bytes.is_empty() {
        return Err(walk.ended("no bytes"));
    }
    let number = walk.field("type", 1, 12)?;
    let name = type_name(number);
    walk.behind_type(number).map_err(|found| found.of(name))?;
    Ok((name, walk.walked))
}

/// The words for the place that was told; one that the walk doesn't find makes
/// a row that is not listed.
fn place_words(found: &Found, told: Option<usize>) -> &'static str {
    if told == Some(found.place) {
        found.words
    } else {
        "at another place"
    }
}

/// The row of bytes that hold no message, without the desk's name.
pub fn fault_name(bytes: &[u8], refusal: u32, told: Option<usize>) -> String {
    match walk(bytes) {
        Ok((name, _)) => format!("{name}: no fault: refusal {refusal}"),
        Err(found) => format!("{}: refusal {refusal} {}", found.name, place_words(&found, told)),
    }
}

fn service_class(service: u32) -> &'static str {
    match service {
        0 => "0",
        1..=126 => "1 to 126",
        127 => "127",
        128 => "128",
        129..=16382 => "129 to 16382",
        16383 => "16383",
        _ => "over 16383",
    }
}

fn element_names(name: &str, elements: &Elements) -> Vec<String> {
    let mut names = vec![
        format!("{name}: numberA of {} digits", elements.number_a.len()),
        format!("{name}: numberB of {} digits", elements.number_b.len()),
        format!("{name}: service {}", service_class(elements.service)),
    ];
    names.extend(elements.number_a.iter().map(|digit| format!("numberA has the digit {digit}")));
    names.extend(elements.number_b.iter().map(|digit| format!("numberB has the digit {digit}")));
    names
}

fn written_names(bytes: &[u8], name: &str) -> Vec<String> {
    let (message, rest) = match read_message(bytes) {
        Ok((message, rest)) => (message, rest),
        _ => return vec!["written and not read".to_string()],
    };
    let named = if message.identifier.is_some() { "an identifier" } else { "no identifier" };
    let mut names = vec![format!("{} in {}, {named}", message.content.name(), message.carrier.name())];
    if let Content::CcbsRequest(fields) | Content::CcnrRequest(fields) = &message.content {
        let (number_a, number_b) = (fields.number_a.clone(), fields.number_b.clone());
        names.extend(element_names(name, &Elements { number_a, number_b, service: fields.service }));
        names.push(format!("{name}: flags {}", fields.flags));
    }
    names.extend(message.elements.iter().flat_map(|elements| element_names(name, elements)));
    if !rest.is_empty() {
        names.push(format!("{name}: bytes follow the message"));
    }
    names
}

fn room_names(name: &str, length: usize, place: usize, size: usize) -> Vec<String> {
    let room = match size.checked_sub(place) {
        Some(room) => room,
        None => return vec![format!("{name}: place past the end")],
    };
    let at = if place == 0 { "at place 0" } else { "at a later place" };
    let mut names = vec![match room {
        0 => format!("{name}: place at the end"),
        _ if room == length => format!("{name}: {at}, exactly enough"),
        _ if room > length => format!("{name}: {at}, bytes behind it"),
        _ if room + 1 == length => format!("{name}: {at}, one byte short"),
        _ => format!("{name}: more than one byte short"),
    }];
    if matches!(length, 3 | 53 | 54) && (room == length || room + 1 == length) {
        names.push(format!("{length} bytes into {room} bytes of room"));
    }
    names
}

/// The rows of bytes that were written, or had no room.
fn message_names(bytes: &[u8], name: &str, rooms: Vec<String>, answer: &Answer) -> Vec<String> {
    let (refusal, fault_place) = match answer {
        Answer::Written { refusal, fault_place, .. } => (refusal, fault_place),
        _ => return Vec::new(),
    };
    let mut names = rooms;
    if *refusal == 0 {
        names.extend(written_names(bytes, name));
    }
    let outcome = if *refusal == 0 { "written".to_string() } else { format!("refusal {refusal}") };
    let place = if fault_place.is_some() { " with a place" } else { "" };
    names.iter().map(|name| format!("{name}: {outcome}{place}")).collect()
}

/// The rows of bytes that hold no message.
fn refused_names(bytes: &[u8], room: Option<usize>, answer: &Answer) -> Vec<String> {
    let (refusal, fault_place) = match answer {
        Answer::Written { refusal, fault_place, .. } => (refusal, fault_place),
        _ => return Vec::new(),
    };
    let mut names = vec![fault_name(bytes, *refusal, *fault_place)];
    match room {
        None => names.push(format!("bytes refused, place past the end: refusal {refusal}")),
        Some(0..=2) => names.push(format!("bytes refused, room for no message: refusal {refusal}")),
        Some(_) => {}
    }
    names
}

pub fn names(bytes: &[u8], place: usize, size: usize, answer: &Answer) -> Vec<String> {
    let mut names = match walk(bytes) {
        Ok((name, length)) => message_names(bytes, name, room_names(name, length, place, size), answer),
        Err(_) => refused_names(bytes, size.checked_sub(place), answer),
    };
    names.sort();
    names.dedup();
    names.iter().map(|name| format!("codec: {name}")).collect()
}
