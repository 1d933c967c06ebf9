//! The rows of request 1, listed as a table: how a record is found and why, what a
//! place is worth, what is sent with and without an identifier, what is a duplicate.

use super::expected::{TO_CLERK, TO_LINE_RECORDS};

/// What a desk has to do with request 1.
struct Desk {
    name: &'static str,
    /// Types 5, 6, 9 and 10 at this end, which are fitted in Setup.
    fitted: &'static [&'static str],
    /// Types that can be taken by place; ccRingout is in Setup or refused.
    by_place: Vec<&'static str>,
    messages: Vec<&'static str>,
    acts: &'static [&'static str],
}

const CLERK_ACTS: [&str; 8] = [
    "accept",
    "User A free, resume",
    "User A free, recall",
    "user's cancel",
    "the connection fell",
    "T1 runs out",
    "T2 runs out",
    "T3 runs out",
];

const LINE_ACTS: [&str; 5] = ["act alerted", "act call failed", "act cancel", "guard runs out", "the connection fell"];

fn desks() -> [Desk; 2] {
    let mut to_clerk = TO_CLERK.to_vec();
    to_clerk.push("ccCancel");
    let to_line = TO_LINE_RECORDS.to_vec();
    let by_place = to_line.iter().copied().filter(|content| *content != "ccRingout").collect();
    [
        Desk {
            name: "clerk",
            fitted: &["ccExecPossible", "ccCancel"],
            by_place: to_clerk.clone(),
            messages: to_clerk,
            acts: &CLERK_ACTS,
        },
        Desk {
            name: "line",
            fitted: &["ccRingout", "ccResume", "ccCancel"],
            by_place,
            messages: to_line,
            acts: &LINE_ACTS,
        },
    ]
}

/// A ccCancel is for every state, so that a fit is never refused with 7.
fn judged(content: &str) -> &'static [&'static str] {
    if content == "ccCancel" {
        &["taken"]
    } else {
        &["taken", "refusal 7"]
    }
}

/// "an absent place .. is 6"; "A place may name a record that has an identifier."
fn place_rows(names: &mut Vec<String>, desk: &Desk) {
    for label in desk.by_place.iter().chain(desk.acts) {
        for which in ["with an identifier", "without an identifier"] {
            names.push(format!("{label} by place: of a record {which}: taken"));
        }
    }
    for label in desk.messages.iter().chain(desk.acts) {
        for place in ["at an empty desk", "255", "one behind the last", "far behind the last"] {
            names.push(format!("{label} by place: {place}: refusal 6"));
        }
        for place in ["its own", "another record's", "absent"] {
            names.push(format!("{label} by identifier, the place is {place}: taken"));
        }
        for place in ["a record's", "absent"] {
            names.push(format!("{label} by identifier, no such record, the place is {place}: refusal 6"));
        }
    }
}

/// "elements present on both sides must be equal, and the oldest fitting record in
/// a state the message is for is taken".
fn fit_rows(names: &mut Vec<String>, content: &str) {
    for place in ["its own", "another record's", "absent"] {
        names.push(format!("{content} by fit, the place is {place}: taken"));
    }
    for place in ["a record's", "absent"] {
        names.push(format!("{content} by fit, no such record, the place is {place}: refusal 6"));
        for named in ["an identifier", "no identifier"] {
            names.push(format!("{content} with {named}, nothing fits, the place is {place}: refusal 6"));
        }
    }
    for judged in judged(content) {
        for named in ["no identifiers", "an identifier in the message alone", "an identifier in the record alone"] {
            for number_a in [
                "same numberA",
                "numberA withheld in the message",
                "numberA withheld in the record",
                "numberA withheld on both sides",
            ] {
                names.push(format!("{content} by fit: {named}, {number_a}: {judged}"));
            }
        }
        names.push(format!("{content} by fit: one fits: {judged}"));
    }
    names.push(format!("{content} by fit: the oldest of several that fit: taken"));
    if content != "ccCancel" {
        names.push(format!("{content} by fit: past an older one that fits: taken"));
        names.push(format!("{content} by fit: several fit: refusal 7"));
    }
    for reason in ["the identifier", "numberA", "numberB", "service"] {
        for judged in ["another is taken", "refusal 6"] {
            names.push(format!("{content} by fit: a record is missed by {reason} alone: {judged}"));
        }
    }
}

/// "A record with the message's identifier is taken first".
fn by_identifier_rows(names: &mut Vec<String>, content: &str) {
    for judged in judged(content) {
        for reason in ["numberA", "numberB", "service"] {
            names.push(format!("{content} by identifier, other {reason}: {judged}"));
        }
        names.push(format!("{content} by identifier, past an older one that fits: {judged}"));
    }
}

/// What the clerk's desk sends without elements, and its reply.
const OF_CLERK: [&str; 7] = [
    "sends ccbsRequest in Setup",
    "sends ccnrRequest in Setup",
    "sends ccSuspend in Facility",
    "sends ccSuspend in Release Complete",
    "sends ccResume in Facility",
    "sends ccCancel in Release Complete",
    "replies ccCancel in Release Complete",
];

/// The same of the line desk.
const OF_LINE: [&str; 13] = [
    "sends result keep 0 in Connect",
    "sends result keep 1 in Connect",
    "sends result keep 0 in Release Complete",
    "sends result keep 1 in Release Complete",
    "sends request error short in Release Complete",
    "sends request error long in Release Complete",
    "sends ccExecPossible in Facility",
    "sends ringout error remoteUserBusyAgain in Release Complete",
    "sends call alerts in Alerting",
    "sends call failed in Release Complete",
    "sends ccCancel in Release Complete",
    "replies ringout error failureToMatch in Release Complete",
    "replies ccCancel in Release Complete",
];

/// Every message that a desk sends for a record or for a request, and its replies.
fn sent_rows(desk: &str) -> Vec<String> {
    let (plain, with_elements) = match desk {
        "clerk" => (&OF_CLERK[..], &["ccRingout", "ccResume", "ccCancel"][..]),
        _ => (&OF_LINE[..], &["ccExecPossible", "ccCancel"][..]),
    };
    let mut rows = Vec::new();
    for named in ["an identifier", "no identifier"] {
        rows.extend(plain.iter().map(|sent| format!("{sent}, {named}")));
        for content in with_elements {
            for number_a in ["numberA given", "numberA withheld"] {
                rows.push(format!("sends {content} in Setup, {named}, {number_a}"));
            }
        }
    }
    rows
}

/// "Duplicates: as in 01, the identifier test only where both have one."
fn duplicate_rows(names: &mut Vec<String>) {
    for identifiers in [
        "same identifier",
        "other identifiers",
        "an identifier in the request alone",
        "an identifier in the record alone",
        "no identifiers",
    ] {
        for number_a in [
            "same numberA",
            "other numberA",
            "numberA withheld in the request",
            "numberA withheld in the record",
            "numberA withheld on both sides",
        ] {
            for number_b in ["same numberB", "other numberB"] {
                let same_numbers = number_a == "same numberA" && number_b == "same numberB";
                let duplicate = identifiers == "same identifier" || same_numbers;
                let outcome = if duplicate { "short error" } else { "accepted" };
                names.push(format!("request: {identifiers}, {number_a}, {number_b}: {outcome}"));
            }
        }
    }
    names.push("request: the place is a record's: accepted".to_string());
    names.push("request: the place is absent: accepted".to_string());
}

pub fn rows() -> Vec<String> {
    let mut rows = Vec::new();
    for desk in desks() {
        let mut names = sent_rows(desk.name);
        place_rows(&mut names, &desk);
        for content in desk.fitted {
            fit_rows(&mut names, content);
            by_identifier_rows(&mut names, content);
        }
        if desk.name == "line" {
            duplicate_rows(&mut names);
        }
        rows.extend(names.iter().map(|name| format!("{}: {name}", desk.name)));
    }
    rows
}
