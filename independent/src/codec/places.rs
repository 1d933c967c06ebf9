//! Tests of request 2 of document 02, "Say where the bytes went wrong". The
//! places are stated here by hand, after READINGS-02 and REPLAY-02.

use super::*;

/// The refusal's number and the place, as a printed line has them.
type Told = (u32, usize);

fn told<T>(read: Read<'_, T>) -> Option<Told> {
    read.err().map(|fault| (fault.refusal.number(), fault.place))
}

fn of_number(bytes: &[u8]) -> Option<Told> {
    told(read_number(bytes))
}

fn of_digits(bytes: &[u8], fewest: u32) -> Option<Told> {
    told(read_digits(bytes, fewest))
}

fn of_message(bytes: &[u8]) -> Option<Told> {
    told(read_message(bytes))
}

/// Type and carrier, the length 16 and sixteen bytes a0 to af, and the fields.
fn with_fields(type_number: u8, fields: &[u8]) -> Vec<u8> {
    let mut bytes = vec![type_number, 1, 16];
    bytes.extend(0xA0..=0xAF);
    bytes.extend_from_slice(fields);
    bytes
}

/// numberA 1 2, numberB 3 0 0, service 300, flags 5: the places 19 to 21, 22 to
/// 25, 26 and 27, 28. Without the flags they are the elements of request 1.
const FIELDS: [u8; 10] = [2, 1, 2, 3, 3, 0, 0, 0xAC, 0x02, 5];
const ELEMENTS: [u8; 9] = [2, 1, 2, 3, 3, 0, 0, 0xAC, 0x02];

/// The types that have elements in Setup, which is the carrier here.
const WITH_ELEMENTS: [u8; 4] = [5, 6, 9, 10];

/// A good message of each of the twelve types, each small field in each value,
/// a withheld numberA and the longest fields; each with an identifier and without.
fn good_messages() -> Vec<Vec<u8>> {
    let mut longest = vec![15];
    longest.extend([9; 15]);
    longest.push(15);
    longest.extend([0; 15]);
    longest.extend([0xFF, 0x7F, 5]);
    let mut messages = Vec::new();
    for type_number in 1..=12 {
        let fields: Vec<&[u8]> = match type_number {
            1 | 2 => vec![&FIELDS, &[0, 1, 7, 0, 0], &longest],
            5 | 6 | 9 | 10 => vec![&ELEMENTS, &[0, 1, 7, 0], &longest[..34]],
            3 => vec![&[0], &[1]],
            4 | 7 => vec![&[1], &[2]],
            _ => vec![&[]],
        };
        for fields in fields {
            messages.push([&[type_number, 1, 0], fields].concat());
            messages.push(with_fields(type_number, fields));
        }
    }
    messages
}

#[test]
fn the_good_messages_are_good_and_of_every_type() {
    for bytes in good_messages() {
        let (message, rest) = read_message(&bytes).unwrap();
        assert_eq!((message.content.type_number(), rest.len()), (u32::from(bytes[0]), 0));
    }
    assert_eq!(good_messages().last().map(|bytes| bytes[0]), Some(12));
}

#[test]
fn a_number_that_ended_has_the_slices_length() {
    // "also where 80 is the last byte"; "`80` at the end".
    assert_eq!(of_number(&[]), Some((1, 0)));
    assert_eq!(of_number(&[0x80]), Some((1, 1)));
    assert_eq!(of_number(&[0xFF]), Some((1, 1)));
}

#[test]
fn a_faulty_number_has_its_first_byte() {
    // "80 80 is one already"; 80 00 is not shortest.
    assert_eq!(of_number(&[0x80, 0x80]), Some((1, 0)));
    assert_eq!(of_number(&[0x80, 0x80, 0x01]), Some((1, 0)));
    assert_eq!(of_number(&[0xFF, 0xFF]), Some((1, 0)));
    assert_eq!(of_number(&[0x80, 0x00]), Some((1, 0)));
    assert_eq!(of_number(&[0x80, 0x00, 0x05]), Some((1, 0)));
    assert_eq!(of_number(&[0xAC, 0x02]), None);
}

#[test]
fn digits_tell_the_place_in_their_own_slice() {
    // "A length of digits out of range: that length's byte."
    assert_eq!(of_digits(&[16, 1], 0), Some((2, 0)));
    assert_eq!(of_digits(&[16], 0), Some((2, 0)));
    assert_eq!(of_digits(&[0], 1), Some((2, 0)));
    assert_eq!(of_digits(&[0x80, 0x01], 1), Some((2, 0)));
    assert_eq!(of_digits(&[0x82, 0x00, 1, 2], 1), Some((1, 0)));
    // "A digit over 9: its byte."
    assert_eq!(of_digits(&[3, 10, 11, 12], 1), Some((2, 1)));
    assert_eq!(of_digits(&[3, 9, 0, 0x80], 1), Some((2, 3)));
    assert_eq!(of_digits(&[2, 9, 10], 1), Some((2, 2)));
    // "inside identifier or digits": the slice's length.
    assert_eq!(of_digits(&[], 0), Some((1, 0)));
    assert_eq!(of_digits(&[0x80], 0), Some((1, 1)));
    assert_eq!(of_digits(&[3, 9, 0], 1), Some((1, 3)));
    assert_eq!(of_digits(&[0], 0), None);
}

#[test]
fn every_truncation_of_every_type_has_its_length() {
    for bytes in good_messages() {
        for length in 0..bytes.len() {
            assert_eq!(of_message(&bytes[..length]), Some((1, length)), "{length} of {bytes:?}");
        }
    }
}

#[test]
fn trailing_garbage_is_no_fault_and_moves_none() {
    for bytes in good_messages() {
        for garbage in [&[0x80][..], &[0x80, 0x80], &[0xFF; 60], &[0; 3]] {
            let longer = [&bytes, garbage].concat();
            assert_eq!(read_message(&longer).map(|(_, rest)| rest), Ok(garbage));
        }
    }
    assert_eq!(of_message(&[with_fields(3, &[2]), vec![0x80; 9]].concat()), Some((2, 19)));
    assert_eq!(of_message(&[13, 0x80, 0x80]), Some((2, 0)));
}

#[test]
fn a_type_out_of_range_or_faulty_is_at_0() {
    for behind in [&[][..], &[1], &[0x80, 0x80]] {
        for value in [0, 13, 127] {
            assert_eq!(of_message(&[&[value], behind].concat()), Some((2, 0)));
        }
        for faulty in [&[0x80, 0x00][..], &[0x81, 0x00], &[0x80, 0x80], &[0x8C, 0xFF]] {
            assert_eq!(of_message(&[faulty, behind].concat()), Some((1, 0)));
        }
        // 80 01 is 128.
        assert_eq!(of_message(&[&[0x80, 0x01], behind].concat()), Some((2, 0)));
    }
    assert_eq!(of_message(&[0x80]), Some((1, 1)));
}

#[test]
fn every_type_tells_a_fault_of_its_carrier_at_1() {
    for type_number in 1..=12 {
        for value in (0..=0).chain(6..=127) {
            assert_eq!(of_message(&[type_number, value]), Some((2, 1)));
        }
        assert_eq!(of_message(&[type_number, 0x80, 0x80]), Some((1, 1)));
        assert_eq!(of_message(&[type_number, 0x81, 0x00, 7]), Some((1, 1)));
        assert_eq!(of_message(&[type_number, 0x80, 0x01, 7]), Some((2, 1)));
        assert_eq!(of_message(&[type_number, 0x80]), Some((1, 2)));
    }
}

#[test]
fn keep_and_errors_are_at_19() {
    for (type_number, good) in [(3, 0..=1), (4, 1..=2), (7, 1..=2)] {
        for value in 0..=127 {
            let expected = if good.contains(&value) { None } else { Some((2, 19)) };
            assert_eq!(of_message(&with_fields(type_number, &[value])), expected);
        }
        assert_eq!(of_message(&with_fields(type_number, &[0x81, 0x01])), Some((2, 19)));
        assert_eq!(of_message(&with_fields(type_number, &[0x81, 0x00])), Some((1, 19)));
        assert_eq!(of_message(&with_fields(type_number, &[0x80, 0x80])), Some((1, 19)));
        assert_eq!(of_message(&with_fields(type_number, &[0x81])), Some((1, 20)));
    }
}

/// The request of FIELDS with one byte of its fields changed.
fn changed(type_number: u8, place: usize, value: u8) -> Vec<u8> {
    let mut bytes = with_fields(type_number, &FIELDS);
    bytes[place] = value;
    bytes
}

#[test]
fn a_requests_numbers_are_told_at_their_first_bytes() {
    for type_number in [1, 2] {
        for (place, value) in [(19, 16), (22, 0), (22, 16), (28, 6), (28, 127)] {
            assert_eq!(of_message(&changed(type_number, place, value)), Some((2, place)));
        }
        // 80 makes one number of two bytes: 80 01 for the length of numberA,
        // 80 03 for that of numberB, the end of the bytes for the flags.
        assert_eq!(of_message(&changed(type_number, 19, 0x80)), Some((2, 19)));
        assert_eq!(of_message(&changed(type_number, 22, 0x80)), Some((2, 22)));
        assert_eq!(of_message(&changed(type_number, 28, 0x80)), Some((1, 29)));
        // The second byte is the fault, the first one is told.
        assert_eq!(of_message(&changed(type_number, 27, 0)), Some((1, 26)));
        assert_eq!(of_message(&changed(type_number, 27, 0x80)), Some((1, 26)));
        // A service of one byte, so that 02 is read as the flags and 05 is left.
        assert_eq!(of_message(&changed(type_number, 26, 0x7F)), None);
    }
}

#[test]
fn a_digit_over_9_is_told_at_its_byte() {
    for type_number in [1, 2] {
        for place in [20, 21, 23, 24, 25] {
            for value in 10..=255 {
                assert_eq!(of_message(&changed(type_number, place, value)), Some((2, place)));
                assert_eq!(of_message(&changed(type_number, place, value)[..=place]), Some((2, place)));
            }
        }
    }
}

#[test]
fn the_first_fault_from_the_left_is_told() {
    let mut bytes = with_fields(1, &FIELDS);
    for (place, value) in [(28, 9), (27, 0), (24, 10), (22, 16), (21, 10), (19, 99), (2, 17), (1, 6), (0, 0)] {
        bytes[place] = value;
        let first = if place == 27 { 26 } else { place };
        assert_eq!(of_message(&bytes).map(|(_, place)| place), Some(first));
    }
}

#[test]
fn no_byte_of_an_identifier_is_a_fault() {
    for bytes in good_messages().into_iter().filter(|bytes| bytes[2] == 16) {
        for place in 3..19 {
            for value in 0..=255 {
                let mut other = bytes.clone();
                other[place] = value;
                assert_eq!(of_message(&other), None);
            }
        }
    }
}

#[test]
fn the_identifiers_length_is_told_at_2() {
    for type_number in 1..=12 {
        for value in (1..=15).chain(17..=127) {
            assert_eq!(of_message(&[type_number, 4, value]), Some((2, 2)));
        }
        // "`90 00` is 1 (not shortest), `80 01` is 2."
        assert_eq!(of_message(&[type_number, 4, 0x90, 0x00]), Some((1, 2)));
        assert_eq!(of_message(&[type_number, 4, 0x80, 0x00]), Some((1, 2)));
        assert_eq!(of_message(&[type_number, 4, 0x80, 0x01]), Some((2, 2)));
        assert_eq!(of_message(&[type_number, 4, 0x80, 0x80]), Some((1, 2)));
        // "An identifier that is cut short has the slice's length."
        assert_eq!(of_message(&[type_number, 4]), Some((1, 2)));
        assert_eq!(of_message(&[type_number, 4, 0x90]), Some((1, 3)));
        assert_eq!(of_message(&[type_number, 4, 16]), Some((1, 3)));
        assert_eq!(of_message(&[type_number, 4, 16, 9, 9]), Some((1, 5)));
    }
}

#[test]
fn elements_are_told_as_a_requests_fields_are() {
    for type_number in WITH_ELEMENTS {
        let good = with_fields(type_number, &ELEMENTS);
        for (place, value, told) in [
            (19, 16, (2, 19)),
            (20, 10, (2, 20)),
            (22, 0, (2, 22)),
            (22, 16, (2, 22)),
            (25, 255, (2, 25)),
            (27, 0, (1, 26)),
            (27, 0x80, (1, 26)),
        ] {
            let mut bytes = good.clone();
            bytes[place] = value;
            assert_eq!(of_message(&bytes), Some(told));
        }
        // In another carrier the message ends behind the identifier.
        let mut bytes = good.clone();
        bytes[1] = 4;
        assert_eq!(read_message(&bytes).map(|(_, rest)| rest), Ok(&ELEMENTS[..]));
    }
}
