//! Directed scripts for the reader and the writer: code 48 entries only.
//!
//! Messages are put together here from parts, by hand and without the writer
//! of codec.rs, so that a fault there is not repeated here. The bad ones among
//! them are also handed to both desks (bad_input.rs).

use super::{spread_identifier, values_at, write_entry, Scripts};

/// A part of a message's bytes: a number in seven-bit groups, or raw bytes.
#[derive(Clone)]
enum Part {
    Number(Vec<u8>),
    Raw(Vec<u8>),
}

fn joined(parts: &[Part]) -> Vec<u8> {
    let mut bytes = Vec::new();
    for part in parts {
        match part {
            Part::Number(form) => bytes.extend_from_slice(form),
            Part::Raw(raw) => bytes.extend_from_slice(raw),
        }
    }
    bytes
}

fn small(number: u8) -> Part {
    Part::Number(vec![number])
}

/// Type, carrier and identifier of a good message: "type, carrier, a number 0 or
/// 16 (how long the identifier is ..), the identifier".
fn head(type_number: u8, carrier: u8) -> Vec<Part> {
    let identifier = spread_identifier(type_number.wrapping_mul(31).wrapping_add(carrier));
    vec![small(type_number), small(carrier), small(16), Part::Raw(identifier.to_vec())]
}

/// The same message without its identifier.
fn nameless(mut parts: Vec<Part>) -> Vec<Part> {
    parts[2] = small(0);
    parts.remove(3);
    parts
}

/// What a request of the codec's scripts has in its fields; the service stands
/// in its byte form.
#[derive(Clone, Copy)]
struct Fields {
    digits_a: u8,
    digits_b: u8,
    service: &'static [u8],
    flags: u8,
}

/// "withheld numberA, 1 digit, 15 digits, service 0, 127, 128, 16383, flags 0
/// and 5", each value at least once, and the shortest and the longest request.
const REQUESTS: [Fields; 8] = [
    Fields { digits_a: 0, digits_b: 1, service: &[0x00], flags: 0 },
    Fields { digits_a: 15, digits_b: 15, service: &[0xFF, 0x7F], flags: 5 },
    Fields { digits_a: 1, digits_b: 1, service: &[0x7F], flags: 5 },
    Fields { digits_a: 1, digits_b: 15, service: &[0x80, 0x01], flags: 0 },
    Fields { digits_a: 15, digits_b: 1, service: &[0x00], flags: 5 },
    Fields { digits_a: 0, digits_b: 15, service: &[0xAC, 0x02], flags: 3 },
    Fields { digits_a: 2, digits_b: 3, service: &[0x80, 0x01], flags: 4 },
    Fields { digits_a: 7, digits_b: 8, service: &[0xFF, 0x7F], flags: 0 },
];

/// Digits that differ from their neighbours and take every value 0 to 9.
fn some_digits(count: u8, first: u8) -> Vec<u8> {
    (0..count).map(|n| (first + n) % 10).collect()
}

/// The longest fields that there are.
const LONGEST: Fields = Fields { digits_a: 15, digits_b: 15, service: &[0xFF, 0x7F], flags: 5 };

/// Types 5, 6, 9 and 10 in Setup have numberA, numberB and service; the flags of
/// `fields` stand in no message of theirs.
const WITH_ELEMENTS: [u8; 4] = [5, 6, 9, 10];
const SETUP: u8 = 1;

fn with_elements(type_number: u8, carrier: u8, fields: Fields) -> Vec<Part> {
    let mut parts = head(type_number, carrier);
    parts.push(small(fields.digits_a));
    parts.push(Part::Raw(some_digits(fields.digits_a, 9)));
    parts.push(small(fields.digits_b));
    parts.push(Part::Raw(some_digits(fields.digits_b, 4)));
    parts.push(Part::Number(fields.service.to_vec()));
    parts
}

fn request(type_number: u8, carrier: u8, fields: Fields) -> Vec<Part> {
    let mut parts = with_elements(type_number, carrier, fields);
    parts.push(small(fields.flags));
    parts
}

/// A request, or the elements in Setup of the types that have them.
fn with_numbers(type_number: u8, fields: Fields) -> Vec<Part> {
    match type_number {
        1 | 2 => request(type_number, SETUP, fields),
        _ => with_elements(type_number, SETUP, fields),
    }
}

/// The types whose messages in Setup hold numbers of digits.
const WITH_DIGITS: [u8; 6] = [1, 2, 5, 6, 9, 10];

fn with_field(type_number: u8, carrier: u8, field: u8) -> Vec<Part> {
    let mut parts = head(type_number, carrier);
    parts.push(small(field));
    parts
}

/// The good messages of one type in one carrier: several for a type with fields,
/// the shortest and the longest first. All have an identifier.
fn good_messages(type_number: u8, carrier: u8) -> Vec<Vec<Part>> {
    match type_number {
        1 | 2 => REQUESTS.iter().map(|fields| request(type_number, carrier, *fields)).collect(),
        3 => vec![with_field(3, carrier, 0), with_field(3, carrier, 1)],
        4 | 7 => vec![with_field(type_number, carrier, 1), with_field(type_number, carrier, 2)],
        5 | 6 | 9 | 10 if carrier == SETUP => {
            REQUESTS.iter().map(|fields| with_elements(type_number, carrier, *fields)).collect()
        }
        _ => vec![head(type_number, carrier)],
    }
}

/// A few of them, and the same without an identifier: the shortest and the longest
/// of each type, with elements and without.
fn few_messages() -> Vec<Vec<Part>> {
    let mut messages = Vec::new();
    for type_number in 1..=12 {
        let usual = usual_carrier(type_number);
        let other =
            if WITH_ELEMENTS.contains(&type_number) { Some(if usual == SETUP { 4 } else { SETUP }) } else { None };
        for carrier in [usual].into_iter().chain(other) {
            for parts in good_messages(type_number, carrier).into_iter().take(2) {
                messages.push(nameless(parts.clone()));
                messages.push(parts);
            }
        }
    }
    messages
}

/// The carrier that each type mostly goes in.
fn usual_carrier(type_number: u8) -> u8 {
    match type_number {
        1 | 2 | 6 | 9 => 1,
        5 => 3,
        11 => 5,
        _ => 4,
    }
}

/// All requests, and of the others a few; each with an identifier and a few
/// without.
fn each_good_message() -> Vec<Vec<Part>> {
    let requests = [1, 2].into_iter().flat_map(|t| good_messages(t, usual_carrier(t)).into_iter().skip(2));
    few_messages().into_iter().chain(requests).collect()
}

/// The entry that most cases use: room for any message, a byte in front of it
/// and, for all but the longest, bytes behind it.
fn write_roomy(bytes: &[u8]) -> Vec<u8> {
    write_entry(bytes, 1, 55)
}

/// "No bytes", every single byte and every pair of bytes: all that can happen
/// in the place of the type and of a one-byte type's carrier.
fn short_strings(scripts: &mut Scripts) {
    scripts.add(&write_entry(&[], 0, 0));
    scripts.add(&write_entry(&[], 0, 60));
    scripts.add(&write_entry(&[], 60, 3));
    for first in 0..=255 {
        scripts.add(&write_entry(&[first], 0, 2));
    }
    for first in 0..=255 {
        for second in 0..=255 {
            scripts.add(&write_entry(&[first, second], 0, 0));
        }
    }
}

/// READINGS 4: every carrier with every type.
fn all_carriers(scripts: &mut Scripts) {
    for type_number in 1..=12 {
        for carrier in 1..=5 {
            for parts in good_messages(type_number, carrier) {
                scripts.add(&write_roomy(&joined(&parts)));
                scripts.add(&write_roomy(&joined(&nameless(parts))));
            }
        }
    }
}

fn write_each(scripts: &mut Scripts, inputs: Vec<Vec<u8>>) {
    for bytes in inputs {
        scripts.add(&write_roomy(&bytes));
    }
}

/// "every truncation", and the whole message.
fn truncations() -> Vec<Vec<u8>> {
    let mut inputs = Vec::new();
    for parts in each_good_message() {
        let bytes = joined(&parts);
        inputs.extend((0..=bytes.len()).map(|length| bytes.get(..length).unwrap_or(&bytes).to_vec()));
    }
    inputs
}

/// Bytes with one of them replaced by each of the 256 values, its own too; a byte of
/// the identifier by some.
pub fn replaced_at(bytes: &[u8], place: usize) -> Vec<Vec<u8>> {
    let mut inputs = Vec::new();
    for value in values_at(bytes, place) {
        let mut changed = bytes.to_vec();
        if let Some(byte) = changed.get_mut(place) {
            *byte = value;
        }
        inputs.push(changed);
    }
    inputs
}

/// "every byte replaced by every one of the 256 values".
fn replacements(scripts: &mut Scripts) {
    for parts in each_good_message() {
        let bytes = joined(&parts);
        for place in 0..bytes.len() {
            write_each(scripts, replaced_at(&bytes, place));
        }
    }
}

/// The shortest and the longest message of each type, with an identifier and
/// without.
pub fn shortest_and_longest() -> Vec<Vec<u8>> {
    few_messages().iter().map(|parts| joined(parts)).collect()
}

/// "trailing bytes behind a good message": few, many and all that N allows,
/// harmless or such that they would be a fault if they were read.
fn trailing_bytes() -> Vec<Vec<u8>> {
    let mut inputs = Vec::new();
    for parts in each_good_message() {
        let bytes = joined(&parts);
        for filler in [0x00, 0x01, 0x0A, 0x7F, 0x80, 0xFF] {
            for count in [1, 2, 3, 16, 53, 255 - bytes.len()] {
                let mut longer = bytes.clone();
                longer.extend(vec![filler; count]);
                inputs.push(longer);
            }
        }
        let mut twice = bytes.clone();
        twice.extend_from_slice(&bytes);
        inputs.push(twice);
    }
    inputs
}

/// Forms that are tried in the place of every number. The single bytes at the
/// end are next to the edges of the ranges.
pub const FORMS: [&[u8]; 34] = [
    &[0x80, 0x00],
    &[0x80, 0x80, 0x01],
    &[0xFF, 0x7F],
    &[0x80, 0x01],
    &[0x81, 0x00],
    &[0x82, 0x00],
    &[0x85, 0x00],
    &[0x8F, 0x00],
    &[0xFF, 0x00],
    &[0x81, 0x01],
    &[0xFF, 0x01],
    &[0x80, 0x02],
    &[0x80, 0x7F],
    &[0x80, 0x80],
    &[0x80, 0xFF],
    &[0xFF, 0x80, 0x00],
    &[0xFF, 0xFF, 0x03],
    &[0xFF, 0xFF, 0x7F],
    &[0x80],
    &[0xFF],
    &[0x00],
    &[0x02],
    &[0x03],
    &[0x06],
    &[0x0D],
    &[0x10],
    &[0x11],
    &[0x7F],
    &[0x90, 0x00],
    &[0x90, 0x01],
    &[0x90],
    &[0x01],
    &[0x08],
    &[0x0F],
];

/// Every form in the place of one number, with the rest of the message behind
/// it and with nothing behind it.
fn forms_at(parts: &[Part], place: usize) -> Vec<Vec<u8>> {
    let mut forms: Vec<Vec<u8>> = FORMS.iter().map(|form| form.to_vec()).collect();
    if let Some(Part::Number(form)) = parts.get(place) {
        // The same number, not in its shortest form.
        let mut longer = form.clone();
        if let Some(last) = longer.last_mut() {
            *last |= 0x80;
        }
        longer.push(0);
        forms.push(longer);
    }
    let mut inputs = Vec::new();
    for form in forms {
        let mut changed = parts.to_vec();
        if let Some(part) = changed.get_mut(place) {
            *part = Part::Number(form);
        }
        inputs.push(joined(&changed));
        changed.truncate(place + 1);
        inputs.push(joined(&changed));
    }
    inputs
}

/// "two-byte forms in every field's place".
fn number_forms() -> Vec<Vec<u8>> {
    let mut inputs = Vec::new();
    for parts in each_good_message() {
        for (place, part) in parts.iter().enumerate() {
            if let Part::Number(_) = part {
                inputs.extend(forms_at(&parts, place));
            }
        }
    }
    inputs
}

/// Each digit of the longest messages over 9, with the rest of the message behind
/// it, with nothing behind it, and with FF behind it, which no digit and no length
/// is: "first fault from the left". Without an identifier, and requests with one.
fn digits_over_9() -> Vec<Vec<u8>> {
    let mut inputs = Vec::new();
    for type_number in WITH_DIGITS {
        let parts = with_numbers(type_number, LONGEST);
        inputs.extend(digits_over_9_behind(4, &joined(&nameless(parts.clone()))));
        if type_number <= 2 {
            inputs.extend(digits_over_9_behind(20, &joined(&parts)));
        }
    }
    inputs
}

/// The same in a message whose numberA has its first digit at a place: fifteen
/// digits, a length, fifteen digits.
fn digits_over_9_behind(first: usize, bytes: &[u8]) -> Vec<Vec<u8>> {
    let mut inputs = Vec::new();
    for place in (first..first + 15).chain(first + 16..first + 31) {
        for value in [10, 15, 16, 127, 128, 255] {
            let mut changed = bytes.to_vec();
            changed[place] = value;
            inputs.push(changed.clone());
            inputs.push(changed[..=place].to_vec());
            changed[place + 1] = 0xFF;
            inputs.push(changed);
        }
    }
    inputs
}

/// Every pair of bytes in the place of the service: each of the numbers 0 to
/// 16383 is read and written once, and each bad pair is refused. Where the
/// first byte is under 128 the second one is read as the flags.
fn every_service(scripts: &mut Scripts) {
    let fields = Fields { digits_a: 0, digits_b: 1, service: &[], flags: 5 };
    let mut parts = nameless(request(1, 1, fields));
    let place = parts.len() - 2;
    for first in 0..=255 {
        for second in 0..=255 {
            if let Some(part) = parts.get_mut(place) {
                *part = Part::Number(vec![first, second]);
            }
            scripts.add(&write_entry(&joined(&parts), 0, 10));
        }
    }
}

/// A request with digit counts and digits out of range or on the edge:
/// "15 against 16 digits".
fn digit_counts() -> Vec<Vec<u8>> {
    let mut inputs = Vec::new();
    for type_number in [1, 2] {
        for count_a in 0..=20 {
            for count_b in 0..=20 {
                let fields = Fields { digits_a: count_a, digits_b: count_b, service: &[0x05], flags: 1 };
                inputs.push(joined(&nameless(request(type_number, 1, fields))));
            }
        }
    }
    let edges = [0, 1, 2, 14, 15, 16, 17, 20, 127];
    for type_number in WITH_DIGITS {
        for digits_a in edges {
            for digits_b in edges {
                let fields = Fields { digits_a, digits_b, service: &[0xAC, 0x02], flags: 4 };
                inputs.push(joined(&nameless(with_numbers(type_number, fields))));
            }
        }
        for digits in 0..=16 {
            let fields = Fields { digits_a: digits, digits_b: 16 - digits, service: &[0x05], flags: 1 };
            inputs.push(joined(&with_numbers(type_number, fields)));
        }
    }
    inputs
}

/// "length numbers": every length from 0 to 17 and others in the place of the
/// identifier's, with so many bytes behind it and the rest of the message.
fn identifier_lengths() -> Vec<Vec<u8>> {
    let mut inputs = Vec::new();
    for type_number in 1..=12 {
        for parts in good_messages(type_number, usual_carrier(type_number)).into_iter().take(1) {
            for length in (0..=18).chain([31, 32, 64, 127]) {
                let mut changed = parts.clone();
                changed[2] = small(length);
                changed[3] = Part::Raw((0..length).collect());
                inputs.push(joined(&changed));
                inputs.push(joined(&changed[..4]));
                inputs.push(joined(&changed[..3]));
            }
        }
    }
    inputs
}

/// "flags 5 against 6", "service 16383 (the reader can't read more)".
fn flags_and_services() -> Vec<Vec<u8>> {
    let mut inputs = Vec::new();
    let services: [&'static [u8]; 7] =
        [&[0], &[0x7F], &[0x80, 0x01], &[0xFF, 0x01], &[0xFE, 0x7F], &[0xFF, 0x7F], &[0x80, 0x80, 0x01]];
    for type_number in WITH_ELEMENTS {
        for service in services {
            let fields = Fields { digits_a: 3, digits_b: 2, service, flags: 0 };
            inputs.push(joined(&nameless(with_elements(type_number, SETUP, fields))));
        }
    }
    for service in services {
        for flags in 0..=8 {
            for type_number in [1, 2] {
                let fields = Fields { digits_a: 3, digits_b: 2, service, flags };
                inputs.push(joined(&nameless(request(type_number, 1, fields))));
            }
        }
    }
    inputs
}

/// What the reader has to refuse, and what stands next to it, but for the
/// replaced bytes.
pub fn bad_input() -> Vec<Vec<u8>> {
    let mut inputs = truncations();
    inputs.extend(number_forms());
    inputs.extend(digits_over_9());
    inputs.extend(trailing_bytes());
    inputs.extend(digit_counts());
    inputs.extend(flags_and_services());
    inputs.extend(identifier_lengths());
    inputs
}

/// Places and sizes around the length of a message: exactly enough, one less,
/// more; place 0, in the middle, at the end, past the end.
fn rooms(length: u8) -> Vec<(u8, u8)> {
    let mut rooms = Vec::new();
    for place in [0, 1, 7, 100, 255 - length] {
        for size in [length - 1, length, length + 1, length + 40] {
            rooms.push((place, place.saturating_add(size)));
        }
        rooms.push((place, place));
        rooms.push((place, place.saturating_add(1)));
        rooms.push((place.saturating_add(1), place));
        rooms.push((place.saturating_add(2), place));
        rooms.push((255, place));
        rooms.push((place, 255));
    }
    rooms.extend([(0, 0), (1, 0), (255, 0), (255, 255), (254, 255), (255, 254)]);
    rooms
}

/// "53 against 54 is the new edge" for the longest message, and 2 against 3 for the
/// shortest; both are among them.
fn writers_room(scripts: &mut Scripts) {
    for parts in each_good_message() {
        let bytes = joined(&parts);
        for (place, size) in rooms(bytes.len() as u8) {
            scripts.add(&write_entry(&bytes, place, size));
        }
    }
}

/// Every place against every size, for the shortest and the longest message.
fn every_room(scripts: &mut Scripts) {
    let shortest = joined(&nameless(head(10, 4)));
    for size in 0..=60 {
        for place in 0..=62 {
            scripts.add(&write_entry(&shortest, place, size));
        }
    }
    let longest = joined(&request(1, 1, LONGEST));
    for size in 50..=60 {
        for place in 0..=62 {
            scripts.add(&write_entry(&longest, place, size));
        }
    }
}

/// READINGS 6: the reader's refusal comes with an untouched buffer, whatever
/// the place and the size.
fn refused_bytes_in_every_room(scripts: &mut Scripts) {
    let bad: [&[u8]; 4] = [&[], &[0x0D], &[0x80, 0x00], &[0x0A, 0x04, 0x01]];
    for bytes in bad {
        for (place, size) in rooms(19).into_iter().chain(rooms(3)) {
            scripts.add(&write_entry(bytes, place, size));
        }
    }
}

pub fn scripts() -> Scripts {
    let mut scripts = Scripts::default();
    // The small groups stand first, so that a difference shows early.
    all_carriers(&mut scripts);
    write_each(&mut scripts, bad_input());
    writers_room(&mut scripts);
    refused_bytes_in_every_room(&mut scripts);
    every_room(&mut scripts);
    short_strings(&mut scripts);
    replacements(&mut scripts);
    every_service(&mut scripts);
    scripts
}
