//! The rows of the codec (code 48), listed as a table in document 01's words;
//! those of bytes that hold no message are rows of both desks too. READINGS-02,
//! request 2, says at which place each of these is refused.

const TYPES: [&str; 12] = [
    "ccbsRequest",
    "ccnrRequest",
    "result",
    "request error",
    "ccExecPossible",
    "ccRingout",
    "ringout error",
    "ccSuspend",
    "ccResume",
    "ccCancel",
    "call alerts",
    "call failed",
];

const REQUESTS: [&str; 2] = ["ccbsRequest", "ccnrRequest"];

/// Request 1: these have numberA, numberB and service in Setup.
const WITH_ELEMENTS: [&str; 4] = ["ccExecPossible", "ccRingout", "ccResume", "ccCancel"];

const CONTENTS: [&str; 15] = [
    "ccbsRequest",
    "ccnrRequest",
    "result keep 0",
    "result keep 1",
    "request error short",
    "request error long",
    "ccExecPossible",
    "ccRingout",
    "ringout error remoteUserBusyAgain",
    "ringout error failureToMatch",
    "ccSuspend",
    "ccResume",
    "ccCancel",
    "call alerts",
    "call failed",
];

const CARRIERS: [&str; 5] = ["Setup", "Connect", "Facility", "Release Complete", "Alerting"];

/// "The bytes ended: the slice's length (also where 80 is the last byte ..)".
const ENDED: &str = "refusal 1 at the bytes' length";

/// READINGS 2, the same for every number, where its bytes don't end: "A faulty
/// number, `80 80` among them, or one out of range: its first byte."
const FORMS: [&str; 3] = ["over two bytes", "over two bytes, nothing behind", "not shortest"];
const FORM_FAULT: &str = "refusal 1 at the number's first byte";
const RANGE_FAULT: &str = "refusal 2 at the number's first byte";

/// A number's faults: its form, then its range. `before` is what stands in
/// front of it; the type has nothing in front.
fn number_faults(rows: &mut Vec<String>, before: &str, lowest: u32, highest: Option<u32>) {
    rows.push(format!("{before}: ends inside: {ENDED}"));
    for form in FORMS.iter() {
        rows.push(format!("{before}: {form}: {FORM_FAULT}"));
    }
    if lowest == 1 {
        rows.push(format!("{before}: is 0: {RANGE_FAULT}"));
    }
    if let Some(highest) = highest {
        let next = highest + 1;
        rows.push(format!("{before}: is {next}: {RANGE_FAULT}"));
        rows.push(format!("{before}: over {next} in one byte: {RANGE_FAULT}"));
        rows.push(format!("{before}: over {next} in two bytes: {RANGE_FAULT}"));
    }
}

/// A number behind the type: the bytes can also end before it.
fn field_faults(rows: &mut Vec<String>, type_name: &str, field: &str, lowest: u32, highest: Option<u32>) {
    let before = format!("{type_name}: {field}");
    rows.push(format!("{before}: bytes end before it: {ENDED}"));
    number_faults(rows, &before, lowest, highest);
}

/// "A digit over 9: its byte."
fn digits_faults(rows: &mut Vec<String>, type_name: &str, field: &str) {
    for place in 1..=15 {
        rows.push(format!("{type_name}: {field}: bytes end before digit {place}: {ENDED}"));
        rows.push(format!("{type_name}: {field}: digit {place} is over 9: refusal 2 at the digit"));
    }
}

/// Bytes that hold no message, without the desk's name.
pub fn faults() -> Vec<String> {
    let mut rows = vec![format!("no bytes: {ENDED}")];
    number_faults(&mut rows, "type", 1, Some(12));
    for type_name in TYPES.iter() {
        field_faults(&mut rows, type_name, "carrier", 1, Some(5));
        field_faults(&mut rows, type_name, "identifier's length", 0, Some(16));
        rows.push(format!("{type_name}: identifier's length: is 1 to 15: {RANGE_FAULT}"));
        for place in 1..=16 {
            rows.push(format!("{type_name}: identifier: bytes end before byte {place}: {ENDED}"));
        }
    }
    field_faults(&mut rows, "result", "keep", 0, Some(1));
    field_faults(&mut rows, "request error", "error", 1, Some(2));
    field_faults(&mut rows, "ringout error", "error", 1, Some(2));
    for type_name in REQUESTS.iter().chain(WITH_ELEMENTS.iter()) {
        field_faults(&mut rows, type_name, "count of numberA", 0, Some(15));
        digits_faults(&mut rows, type_name, "numberA");
        field_faults(&mut rows, type_name, "count of numberB", 1, Some(15));
        digits_faults(&mut rows, type_name, "numberB");
        field_faults(&mut rows, type_name, "service", 0, None);
    }
    for type_name in REQUESTS.iter() {
        field_faults(&mut rows, type_name, "flags", 0, Some(5));
    }
    rows
}

/// READINGS 6: a refused reading leaves the buffer, whatever its room.
fn refused_in_rooms(rows: &mut Vec<String>) {
    for number in 1..=2 {
        rows.push(format!("bytes refused, place past the end: refusal {number}"));
        rows.push(format!("bytes refused, room for no message: refusal {number}"));
    }
}

fn good_messages(rows: &mut Vec<String>) {
    for content in CONTENTS.iter() {
        for carrier in CARRIERS.iter() {
            rows.push(format!("{content} in {carrier}, an identifier: written"));
            rows.push(format!("{content} in {carrier}, no identifier: written"));
        }
    }
    for type_name in REQUESTS.iter().chain(WITH_ELEMENTS.iter()) {
        for count in 0..=15 {
            rows.push(format!("{type_name}: numberA of {count} digits: written"));
        }
        for count in 1..=15 {
            rows.push(format!("{type_name}: numberB of {count} digits: written"));
        }
        for service in ["0", "1 to 126", "127", "128", "129 to 16382", "16383"].iter() {
            rows.push(format!("{type_name}: service {service}: written"));
        }
    }
    for type_name in REQUESTS.iter() {
        for flags in 0..=5 {
            rows.push(format!("{type_name}: flags {flags}: written"));
        }
    }
    for digit in 0..=9 {
        rows.push(format!("numberA has the digit {digit}: written"));
        rows.push(format!("numberB has the digit {digit}: written"));
    }
    for type_name in TYPES.iter() {
        rows.push(format!("{type_name}: bytes follow the message: written"));
    }
}

/// "12 if the place is past the end or the room is short".
fn rooms(rows: &mut Vec<String>) {
    for type_name in TYPES.iter() {
        for at in ["at place 0", "at a later place"].iter() {
            rows.push(format!("{type_name}: {at}, exactly enough: written"));
            rows.push(format!("{type_name}: {at}, bytes behind it: written"));
            rows.push(format!("{type_name}: {at}, one byte short: refusal 12"));
        }
        rows.push(format!("{type_name}: more than one byte short: refusal 12"));
        rows.push(format!("{type_name}: place at the end: refusal 12"));
        rows.push(format!("{type_name}: place past the end: refusal 12"));
    }
    for length in [3, 53, 54].iter() {
        rows.push(format!("{length} bytes into {length} bytes of room: written"));
        rows.push(format!("{length} bytes into {} bytes of room: refusal 12", length - 1));
    }
}

pub fn rows() -> Vec<String> {
    let mut rows = Vec::new();
    good_messages(&mut rows);
    rows.extend(faults());
    refused_in_rooms(&mut rows);
    rooms(&mut rows);
    rows.iter().map(|row| format!("codec: {row}")).collect()
}
