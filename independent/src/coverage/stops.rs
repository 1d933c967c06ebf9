//! The rows of `stop N`, which only a script's end can reach: "Where the script
//! ends inside an entry, or an entry has a code or a choice not listed here".
//!
//! The entries' layouts are stated here a second time, and walked over.

/// A field of an entry.
#[derive(Clone, Copy)]
enum Field {
    /// Any byte.
    Byte,
    /// "a byte L and then L bytes".
    Counted,
    /// "a byte 0 or 16 .. and so many bytes".
    Identifier,
    /// A byte from one value to another.
    Choice(&'static str, u8, u8),
    /// "count C, C times (digits, kinds ..)".
    Lines,
    /// A number of four bytes, of any value.
    Four,
    /// "room, two bytes, 0 to 2048 (more is a choice that is not listed)".
    Room,
}

use Field::{Byte, Choice, Counted, Four, Identifier, Lines, Room};

/// The codes of entries that have fields.
const LAYOUTS: [(u8, &[Field]); 19] = [
    (1, &[Lines, Choice("settings", 0, 3)]),
    (2, &[Four, Four, Four, Four]),
    (3, &[Four]),
    (16, &[Identifier, Choice("kind", 1, 2), Counted, Counted, Byte, Byte, Choice("can-keep", 0, 1), Byte]),
    (17, &[Choice("User A busy", 0, 1), Byte, Counted]),
    (18, &[Identifier, Byte]),
    (19, &[Identifier, Byte, Choice("resume or recall", 0, 1)]),
    (20, &[Identifier, Byte]),
    (21, &[Identifier, Byte, Choice("timer", 1, 3)]),
    (22, &[Identifier, Byte]),
    (23, &[Room]),
    (32, &[Byte, Counted]),
    (33, &[Counted, Choice("busy or free", 0, 1)]),
    (34, &[Counted]),
    (35, &[Identifier, Byte, Choice("act", 1, 3)]),
    (36, &[Identifier, Byte]),
    (37, &[Identifier, Byte]),
    (38, &[Room]),
    (48, &[Counted, Byte, Byte]),
];

const KINDS: &str = "kinds";
const LENGTH: &str = "identifier's length";
const ROOM: &str = "room";

fn choice_of(field: &Field) -> Option<&'static str> {
    match field {
        Identifier => Some(LENGTH),
        Choice(name, _, _) => Some(name),
        Lines => Some(KINDS),
        Room => Some(ROOM),
        Byte | Counted | Four => None,
    }
}

pub fn rows() -> Vec<String> {
    let mut rows = vec!["stop: code not listed".to_string()];
    for (code, fields) in LAYOUTS {
        rows.push(format!("stop: code {code}: the script ends inside"));
        let choices = fields.iter().filter_map(choice_of);
        rows.extend(choices.map(|choice| format!("stop: code {code}: {choice} not listed")));
    }
    rows
}

/// Why an entry can't be read: it ends, or a choice isn't listed.
enum Stop {
    Ends,
    NotListed(&'static str),
}

fn skip(bytes: &[u8], count: usize) -> Result<&[u8], Stop> {
    bytes.get(count..).ok_or(Stop::Ends)
}

fn first(bytes: &[u8]) -> Result<(u8, &[u8]), Stop> {
    bytes.split_first().map(|(first, rest)| (*first, rest)).ok_or(Stop::Ends)
}

fn walk(field: Field, bytes: &[u8]) -> Result<&[u8], Stop> {
    let (value, mut rest) = first(bytes)?;
    match field {
        Byte => Ok(rest),
        Counted => skip(rest, value.into()),
        Identifier if matches!(value, 0 | 16) => skip(rest, value.into()),
        Identifier => Err(Stop::NotListed(LENGTH)),
        Choice(_, lowest, highest) if (lowest..=highest).contains(&value) => Ok(rest),
        Choice(name, _, _) => Err(Stop::NotListed(name)),
        Lines => {
            for _ in 0..value {
                rest = walk(Counted, rest)?;
                rest = walk(Choice(KINDS, 0, 3), rest)?;
            }
            Ok(rest)
        }
        Four => skip(rest, 3),
        Room => {
            let (high, rest) = first(rest)?;
            match (high, value) {
                (0..=7, _) | (8, 0) => Ok(rest),
                _ => Err(Stop::NotListed(ROOM)),
            }
        }
    }
}

/// The name of a stop: `rest` is not empty and no entry. What this walk can read
/// makes a name that is not listed.
pub fn name(rest: &[u8]) -> String {
    let code = rest.first().copied().unwrap_or(0);
    let fields = match LAYOUTS.iter().find(|(listed, _)| *listed == code) {
        Some((_, fields)) => fields,
        None => return "stop: code not listed".to_string(),
    };
    let mut bytes = rest.get(1..).unwrap_or(&[]);
    for field in *fields {
        match walk(*field, bytes) {
            Ok(behind) => bytes = behind,
            Err(Stop::Ends) => return format!("stop: code {code}: the script ends inside"),
            Err(Stop::NotListed(choice)) => return format!("stop: code {code}: {choice} not listed"),
        }
    }
    format!("stop: code {code}: nothing is wrong")
}
