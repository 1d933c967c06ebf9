//! Makes scripts: the entries' bytes, and the files that they go into.

mod bad_input;
pub mod clerk;
mod clerk_meant;
mod clerk_ticks;
pub mod codec;
pub mod line;
mod line_meant;
mod line_ticks;
pub mod random;
pub mod stop;
pub mod stored;
mod ticks;

use crate::codec::{message_bytes, Carrier, Content, Elements, Identifier, RequestFields};
use crate::outcome::{message, Kind};
use crate::script::{take_entry, Answer, Session};
use crate::timers::Lengths;
use std::fs;
use std::io;
use std::ops::Range;
use std::path::Path;

/// REPLAY: "at most 262,144 bytes".
pub const LARGEST_SCRIPT: usize = 262_144;

/// Collects cases into scripts. A case is a run of entries that belong
/// together; it never goes over the edge of a file.
#[derive(Default)]
pub struct Scripts {
    full: Vec<Vec<u8>>,
    current: Vec<u8>,
    /// Each case's file and its place in it.
    cases: Vec<(usize, Range<usize>)>,
}

impl Scripts {
    pub fn add(&mut self, case: &[u8]) {
        if self.current.len() + case.len() > LARGEST_SCRIPT {
            self.close();
        }
        let start = self.current.len();
        self.current.extend_from_slice(case);
        self.cases.push((self.full.len(), start..self.current.len()));
    }

    /// The cases one by one, in the order in which they were added.
    pub fn into_cases(mut self) -> Vec<Vec<u8>> {
        self.close();
        let Scripts { full, cases, .. } = self;
        let bytes = |(file, range): (usize, Range<usize>)| full.get(file)?.get(range).map(<[u8]>::to_vec);
        cases.into_iter().filter_map(bytes).collect()
    }

    /// Ends the current file, so that the next case begins a new one.
    pub fn close(&mut self) {
        if !self.current.is_empty() {
            self.full.push(std::mem::take(&mut self.current));
        }
    }

    /// True where the current file stays below the largest with another case of
    /// this size.
    pub fn has_room(&self, size: usize) -> bool {
        self.current.len() + size < LARGEST_SCRIPT
    }

    /// Writes NAME-000.script, NAME-001.script, .. and tells what was written.
    pub fn save(mut self, directory: &Path, name: &str) -> io::Result<String> {
        self.close();
        fs::create_dir_all(directory)?;
        let mut entries = 0;
        let mut bytes = 0;
        for (place, script) in self.full.iter().enumerate() {
            fs::write(directory.join(format!("{name}-{place:03}.script")), script)?;
            entries += count_entries(script);
            bytes += script.len();
        }
        Ok(format!("{name}: {} scripts, {entries} entries, {bytes} bytes", self.full.len()))
    }
}

/// How many entries the program plays before the script ends or stops.
fn count_entries(script: &[u8]) -> usize {
    let mut count = 0;
    let mut rest = script;
    while let Some((_, behind)) = take_entry(rest) {
        rest = behind;
        count += 1;
    }
    count
}

/// "a byte L and then L bytes"; the makers never hand over more than 255.
pub fn counted(bytes: &[u8]) -> Vec<u8> {
    let short = bytes.get(..255).unwrap_or(bytes);
    let mut counted = vec![short.len() as u8];
    counted.extend_from_slice(short);
    counted
}

/// Code 48, write.
pub fn write_entry(message: &[u8], place: u8, size: u8) -> Vec<u8> {
    let mut entry = vec![48];
    entry.extend(counted(message));
    entry.extend([place, size]);
    entry
}

/// An identifier whose sixteen bytes all differ, so that a byte that lands in
/// a wrong place is seen.
pub fn spread_identifier(seed: u8) -> Identifier {
    let mut identifier = [0; 16];
    for (place, byte) in identifier.iter_mut().enumerate() {
        *byte = seed.wrapping_add((place as u8).wrapping_mul(17));
    }
    identifier
}

/// How the makers speak of a record: its identifier, if it has one, and the place
/// that the host names.
#[derive(Clone, Copy, PartialEq)]
pub struct Who {
    pub identifier: Option<Identifier>,
    pub place: u8,
}

/// "255 always is" absent.
pub const ABSENT: u8 = 255;

impl Who {
    /// By its identifier. The place that goes with it is the first, of this record
    /// or of another: "Where the message or the name has an identifier the desk
    /// ignores it".
    pub fn seed(seed: u8) -> Who {
        Who { identifier: Some(spread_identifier(seed)), place: 0 }
    }

    /// By the place alone.
    pub fn at(place: u8) -> Who {
        Who { identifier: None, place }
    }
}

/// "a byte 0 or 16 .. and so many bytes".
fn id_bytes(identifier: &Option<Identifier>) -> Vec<u8> {
    identifier.map_or(vec![0], |identifier| counted(&identifier))
}

/// Code 16, ask. `service` goes in as two bytes, in range or not.
pub struct AskEntry<'a> {
    pub identifier: Option<Identifier>,
    pub kind: Kind,
    pub number_a: &'a [u8],
    pub number_b: &'a [u8],
    pub service: u16,
    pub can_keep: bool,
    pub preference: u8,
}

impl AskEntry<'_> {
    pub fn bytes(&self) -> Vec<u8> {
        let mut entry = vec![16];
        entry.extend(id_bytes(&self.identifier));
        entry.push(self.kind.number() as u8);
        entry.extend(counted(self.number_a));
        entry.extend(counted(self.number_b));
        entry.push((self.service % 256) as u8);
        entry.push((self.service / 256) as u8);
        entry.push(u8::from(self.can_keep));
        entry.push(self.preference);
        entry
    }
}

/// Code 17, bytes reach the clerk's desk.
pub fn to_clerk(user_a_busy: bool, place: u8, bytes: &[u8]) -> Vec<u8> {
    let mut entry = vec![17, u8::from(user_a_busy), place];
    entry.extend(counted(bytes));
    entry
}

/// Code 32, bytes reach the line desk.
pub fn to_line(place: u8, bytes: &[u8]) -> Vec<u8> {
    let mut entry = vec![32, place];
    entry.extend(counted(bytes));
    entry
}

/// Codes 18, 20, 22, 36 and 37: a name alone.
pub const ACCEPT: u8 = 18;
pub const USER_CANCELS: u8 = 20;
pub const FELL_AT_CLERK: u8 = 22;
pub const GUARD_RUNS_OUT: u8 = 36;
pub const FELL_AT_LINE: u8 = 37;

/// "name is an id and then a place".
pub fn with_name(code: u8, who: Who) -> Vec<u8> {
    let mut entry = vec![code];
    entry.extend(id_bytes(&who.identifier));
    entry.push(who.place);
    entry
}

/// Codes 19, 21 and 35: a name and a choice.
pub const USER_A_FREE: u8 = 19;
pub const TIMER: u8 = 21;
pub const ACT: u8 = 35;

pub fn with_choice(code: u8, who: Who, choice: u8) -> Vec<u8> {
    let mut entry = with_name(code, who);
    entry.push(choice);
    entry
}

/// Code 33, line report.
pub fn report(digits: &[u8], busy: bool) -> Vec<u8> {
    let mut entry = vec![33];
    entry.extend(counted(digits));
    entry.push(u8::from(busy));
    entry
}

/// Code 34, Look.
pub fn look(digits: &[u8]) -> Vec<u8> {
    let mut entry = vec![34];
    entry.extend(counted(digits));
    entry
}

/// Code 1, start the line desk; the kinds are 1 CCBS + 2 CCNR, the settings
/// 1 keeps + 2 retains by default.
pub fn start_line<D: AsRef<[u8]>>(lines: &[(D, u8)], settings: u8) -> Vec<u8> {
    let mut entry = vec![1, lines.len().min(255) as u8];
    for (digits, kinds) in lines.iter().take(255) {
        entry.extend(counted(digits.as_ref()));
        entry.push(*kinds);
    }
    entry.push(settings);
    entry
}

/// Code 2, start the clerk's desk: the four lengths, in range or not.
pub const START_CLERK: u8 = 2;

pub fn start_clerk(lengths: Lengths) -> Vec<u8> {
    let Lengths { t1, t2_ccbs, t2_ccnr, t3 } = lengths;
    let mut entry = vec![START_CLERK];
    entry.extend([t1, t2_ccbs, t2_ccnr, t3].iter().flat_map(|length| length.to_le_bytes()));
    entry
}

/// Code 3, the count is now.
pub const COUNT: u8 = 3;

pub fn count(count: u32) -> Vec<u8> {
    [&[COUNT][..], &count.to_le_bytes()].concat()
}

/// Codes 23 and 38, a tick with room for so many bytes.
pub const TICK_AT_CLERK: u8 = 23;
pub const TICK_AT_LINE: u8 = 38;

pub fn tick(code: u8, room: u16) -> Vec<u8> {
    [&[code][..], &room.to_le_bytes()].concat()
}

pub const PRINT_CLERK: u8 = 64;
pub const PRINT_LINE: u8 = 65;

/// The bytes of a message; the elements stand in it where its type and carrier
/// have them.
pub fn bytes_of(carrier: Carrier, identifier: Option<Identifier>, content: Content, elements: &Elements) -> Vec<u8> {
    message_bytes(&message(carrier, identifier, content).with_elements(elements))
}

pub fn elements(number_a: &[u8], number_b: &[u8], service: u32) -> Elements {
    Elements { number_a: number_a.to_vec(), number_b: number_b.to_vec(), service }
}

pub fn request_content(kind: Kind, number_a: &[u8], number_b: &[u8], service: u32, flags: u32) -> Content {
    let fields = RequestFields { number_a: number_a.to_vec(), number_b: number_b.to_vec(), service, flags };
    match kind {
        Kind::Ccbs => Content::CcbsRequest(fields),
        Kind::Ccnr => Content::CcnrRequest(fields),
    }
}

/// One content of each type but the requests, each small field in each value.
pub fn contents_without_requests() -> Vec<Content> {
    vec![
        Content::RequestResult { keep: 0 },
        Content::RequestResult { keep: 1 },
        Content::RequestError { error: 1 },
        Content::RequestError { error: 2 },
        Content::CcExecPossible,
        Content::CcRingout,
        Content::RingoutError { error: 1 },
        Content::RingoutError { error: 2 },
        Content::CcSuspend,
        Content::CcResume,
        Content::CcCancel,
        Content::CallAlerts,
        Content::CallFailed,
    ]
}

/// A run of entries that begins with a fresh desk and prints the desk after
/// every step, "so that the whole desk is compared"; but for steps on the way to a
/// state, where other cases print the same.
#[derive(Clone)]
pub struct Case {
    pub bytes: Vec<u8>,
    print: u8,
    hushed: bool,
}

impl Case {
    fn new(print: u8) -> Case {
        Case { bytes: Vec::new(), print, hushed: false }
    }

    pub fn at_clerk() -> Case {
        let mut case = Case::new(PRINT_CLERK);
        case.step(&start_clerk(Lengths::default()));
        case
    }

    pub fn at_line<D: AsRef<[u8]>>(lines: &[(D, u8)], settings: u8) -> Case {
        let mut case = Case::new(PRINT_LINE);
        case.step(&start_line(lines, settings));
        case
    }

    pub fn step(&mut self, entry: &[u8]) {
        self.bytes.extend_from_slice(entry);
        if !self.hushed {
            self.bytes.push(self.print);
        }
    }

    /// A step on the way, whose print would only make the script longer.
    pub fn quiet(&mut self, entry: &[u8]) {
        self.bytes.extend_from_slice(entry);
    }

    /// From here on the steps are on the way, or no longer.
    pub fn hush(&mut self, hushed: bool) {
        self.hushed = hushed;
    }

    /// Of these inputs all that are refused where the case stands: they change
    /// nothing, so one follows the other. Gives the rest back.
    pub fn step_refused<'a>(&mut self, inputs: &'a [Vec<u8>]) -> Vec<&'a Vec<u8>> {
        let session = played(&self.bytes);
        let (refused, taken): (Vec<_>, Vec<_>) = inputs.iter().partition(|input| is_refused(&session, input));
        for input in refused {
            self.step(input);
        }
        taken
    }
}

/// The desks behind a run of entries.
fn played(entries: &[u8]) -> Session {
    let mut session = Session::default();
    let mut rest = entries;
    while let Some((entry, behind)) = take_entry(rest) {
        session.play(&entry);
        rest = behind;
    }
    session
}

fn is_refused(session: &Session, input: &[u8]) -> bool {
    let answer = take_entry(input).map(|(entry, _)| session.clone().play(&entry));
    matches!(answer, Some(Answer::Step { outcome, .. }) if outcome.refusal.is_some())
}

/// The values that are tried in an identifier's bytes, where all are alike.
const EDGES: [u8; 15] = [0, 1, 2, 3, 5, 6, 9, 10, 12, 13, 15, 16, 127, 128, 255];

/// Where the identifier stands, if there is one, in a message of a one-byte type
/// and carrier.
const IDENTIFIER: Range<usize> = 3..19;

/// The values that are tried in the place of a byte.
pub fn values_at(bytes: &[u8], place: usize) -> Vec<u8> {
    let raw = bytes.get(2) == Some(&16) && IDENTIFIER.contains(&place);
    if raw {
        EDGES.to_vec()
    } else {
        (0..=255).collect()
    }
}

/// Bytes with a fault, or next to one: every truncation, every byte replaced by
/// every other value (in the identifier by some), and bytes behind the message.
pub fn damaged(bytes: &[u8]) -> Vec<Vec<u8>> {
    let mut damaged: Vec<Vec<u8>> = (0..bytes.len()).map(|length| bytes[..length].to_vec()).collect();
    for place in 0..bytes.len() {
        for value in values_at(bytes, place) {
            let mut changed = bytes.to_vec();
            changed[place] = value;
            damaged.push(changed);
        }
    }
    for count in [1, 2, 18, 100].iter() {
        let mut longer = bytes.to_vec();
        longer.extend(vec![0x80; *count]);
        damaged.push(longer);
    }
    damaged
}

/// Requests on the edges of what can be read: 15 against 16 digits in numberA
/// and in numberB, service 16383 against 16384 (three bytes), flags 5 against 6.
/// Put together by hand, as no writer makes those that are out of range; the
/// numberB is a line's number of 15 digits, with one more behind it or not.
pub fn requests_on_edges(type_number: u8, identifier: Option<Identifier>, line: &[u8; 15]) -> Vec<Vec<u8>> {
    let request = |number_a: &[u8], number_b: &[u8], service: &[u8], flags: u8| {
        let mut bytes = vec![type_number, 1];
        bytes.extend(id_bytes(&identifier));
        bytes.extend(counted(number_a));
        bytes.extend(counted(number_b));
        bytes.extend_from_slice(service);
        bytes.push(flags);
        bytes
    };
    let longer = [&line[..], &[7]].concat();
    vec![
        request(&[3; 16], line, &[0], 5),
        request(&[3; 15], &longer, &[0], 5),
        request(&[3; 15], line, &[0x80, 0x80, 0x01], 5),
        request(&[3; 15], line, &[0xFF, 0x7F], 6),
        request(&[3; 15], line, &[0xFF, 0x7F], 5),
    ]
}
