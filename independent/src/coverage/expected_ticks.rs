//! The rows of request 6, listed as a table: the lengths at the start, the deadlines
//! that steps store or leave, reports by hand, and what a tick does with every
//! record and in every room.

use super::expected::CHOICES;

/// The edges of the four lengths: the last outside, the first and the last in range,
/// the first outside.
const LENGTHS: [(&str, u32, u32); 4] = [("T1", 1, 3600), ("T2 CCBS", 60, 3600), ("T2 CCNR", 60, 86400), ("T3", 10, 30)];

fn start_rows(names: &mut Vec<String>) {
    for desk in ["desk without records", "desk with records"] {
        names.push(format!("start, {desk}: started"));
        for (length, _, _) in LENGTHS {
            for side in ["under", "over"] {
                names.push(format!("start, {desk}: {length} {side} its range: refusal 2"));
            }
        }
        names.push(format!("start, {desk}: several lengths out of range: refusal 2"));
    }
    for (length, lowest, highest) in LENGTHS {
        for (value, outcome) in
            [(lowest - 1, "refusal 2"), (lowest, "started"), (highest, "started"), (highest + 1, "refusal 2")]
        {
            names.push(format!("start: {length} {value}: {outcome}"));
        }
        for bytes in 1..=3 {
            names.push(format!("start: {length} in range in its low {bytes} of 4 bytes: refusal 2"));
        }
    }
}

/// Code 3, which is at neither desk.
const COUNTS: [&str; 5] = ["goes on", "goes on over the wrap", "stays", "goes back", "goes back over the wrap"];

/// Where a timer runs that a tick looks at; T2 in Ringout runs and is passed over.
const CLERK_TIMERS: [(&str, &str); 6] = [
    ("Wait-Ack", "T1"),
    ("Invoked", "T2"),
    ("Wait-Answer", "T2"),
    ("Wait-Answer", "T3"),
    ("Ringout", "T2"),
    ("Suspended", "T2"),
];

const LINE_STATES: [&str; 4] = ["Invoked", "Await", "Await suspended", "Alert"];

/// "due if the count less the deadline, taken modulo 2^32, is under 2^31".
const MOMENTS: [(&str, bool); 6] = [
    ("one before its deadline", false),
    ("at its deadline", true),
    ("2^31 - 1 behind its deadline", true),
    ("2^31 behind its deadline", false),
    ("due over the wrap", true),
    ("ahead over the wrap", false),
];

fn moment_rows(names: &mut Vec<String>, state: &str, timer: &str) {
    for (moment, due) in MOMENTS {
        let outcome = if due && state != "Ringout" { "expires" } else { "stays" };
        names.push(format!("tick: {state}, {timer} {moment}: {outcome}"));
    }
}

const NAMED: [&str; 2] = ["an identifier", "no identifier"];

/// A record in an acknowledged state, by its choice and with what its timers are.
fn clerk_record_rows(names: &mut Vec<String>) {
    for named in NAMED {
        names.push(format!("tick: Wait-Ack, {named}: T1 not due: stays"));
        names.push(format!("tick: Wait-Ack, {named}: T1 due: expires, sends ccCancel in Release Complete"));
        for choice in CHOICES.iter() {
            let expires = format!("expires, sends ccCancel in {}", choice.cancel);
            let states: [(&str, &[&str], &str); 4] = [
                ("Invoked", &["T2 due"], "T2 not due"),
                ("Wait-Answer", &["T2 due", "T3 due", "T2 and T3 due"], "T2 and T3 not due"),
                ("Suspended", &["T2 due"], "T2 not due"),
                ("Ringout", &[], "T2 not due"),
            ];
            for (state, due, not_due) in states {
                let record = format!("tick: {state} {}, {named}", choice.name);
                names.push(format!("{record}: {not_due}: stays"));
                names.extend(due.iter().map(|due| format!("{record}: {due}: {expires}")));
            }
            names.push(format!("tick: Ringout {}, {named}: T2 due: stays", choice.name));
        }
    }
}

fn line_record_rows(names: &mut Vec<String>) {
    for named in NAMED {
        for choice in CHOICES.iter() {
            for state in LINE_STATES {
                let state = match state.split_once(' ') {
                    Some((state, mark)) => format!("{state} {} {mark}", choice.name),
                    None => format!("{state} {}", choice.name),
                };
                let expires = format!("expires, sends ccCancel in {}", choice.cancel);
                names.push(format!("tick: {state}, {named}: guard not due: stays"));
                names.push(format!("tick: {state}, {named}: guard due: {expires}"));
            }
        }
    }
}

/// How many expire, and which; what is sent; how much room there is.
fn desk_rows(names: &mut Vec<String>) {
    for which in [
        "no record",
        "none of one",
        "none of several",
        "the only one",
        "one of several",
        "some of several",
        "all of several",
        "one stays between two that expire",
        "one expires between two that stay",
        "the oldest stays",
        "the youngest stays",
        "none of a full desk",
        "all of a full desk",
    ] {
        names.push(format!("tick: {which}"));
    }
    for named in NAMED {
        names.push(format!("tick sends ccCancel in Release Complete, {named}"));
        for number_a in ["given", "withheld"] {
            names.push(format!("tick sends ccCancel in Setup, {named}, numberA {number_a}"));
        }
    }
    for room in ["no room", "some room", "room 2048"] {
        names.push(format!("tick: nothing due, {room}: taken"));
    }
    for due in ["one due", "several due"] {
        for room in ["no room", "room for none", "one byte short"] {
            names.push(format!("tick: {due}, {room}: refusal 12"));
        }
        for room in ["exactly enough", "bytes behind", "room 2048"] {
            names.push(format!("tick: {due}, {room}: taken"));
        }
    }
    names.push("tick: several due, room for some: refusal 12".to_string());
    names.push("refusal 12".to_string());
}

/// Deadlines that a step stores, and those that go on while the count has moved.
fn clerk_step_rows(names: &mut Vec<String>) {
    for wrap in ["", ", over the wrap"] {
        for timer in ["T1 of CCBS", "T1 of CCNR", "T2 of CCBS", "T2 of CCNR", "T3 of CCBS", "T3 of CCNR"] {
            names.push(format!("{timer} starts{wrap}: count and length"));
        }
    }
    for kind in ["CCBS", "CCNR"] {
        for (from, to) in [
            ("Invoked", "Wait-Answer"),
            ("Invoked", "Suspended"),
            ("Wait-Answer", "Ringout"),
            ("Suspended", "Invoked"),
            ("Suspended", "Wait-Answer"),
        ] {
            names.push(format!("T2 goes on from {from} {kind} to {to} {kind}"));
        }
        names.push(format!("T2 goes on from Ringout {kind} to Invoked CCBS"));
    }
    for state in ["Invoked", "Suspended"] {
        names.push(format!("T3 starts anew from {state}"));
    }
    for (from, timer, to) in [
        ("Wait-Ack", "T1", "Invoked"),
        ("Invoked", "T2", "Wait-Answer"),
        ("Invoked", "T2", "Suspended"),
        ("Wait-Answer", "T2", "Ringout"),
        ("Wait-Answer", "T3", "Ringout"),
        ("Suspended", "T2", "Invoked"),
        ("Suspended", "T2", "Wait-Answer"),
        ("Ringout", "T2", "Invoked"),
    ] {
        names.push(format!("{from}: {timer} is due, and a step goes on to {to}"));
    }
    for (state, timer) in CLERK_TIMERS {
        let outcome = if state == "Ringout" { "refusal 9" } else { "taken" };
        for due in ["due", "not due"] {
            names.push(format!("{timer} by hand in {state}, {due}: {outcome}"));
        }
    }
}

fn line_step_rows(names: &mut Vec<String>) {
    for kind in ["CCBS", "CCNR"] {
        for wrap in ["", ", over the wrap"] {
            names.push(format!("guard of {kind} starts{wrap}: count and length"));
        }
        names.push(format!("guard goes on from Invoked {kind} to Await {kind}"));
        names.push(format!("guard goes on from Await {kind} to Await suspended {kind}"));
        for state in ["Await", "Await suspended"] {
            names.push(format!("guard goes on from {state} {kind} to Invoked {kind}"));
            names.push(format!("guard goes on from {state} {kind} to Alert {kind}"));
        }
    }
    for state in ["Await", "Await suspended"] {
        names.push(format!("guard goes on from {state} CCNR to Invoked CCBS"));
        for to in ["Invoked", "Alert"] {
            names.push(format!("{state}: guard is due, and a step goes on to {to}"));
        }
    }
    names.push("Invoked: guard is due, and a step goes on to Await".to_string());
    names.push("Await: guard is due, and a step goes on to Await suspended".to_string());
    for state in LINE_STATES {
        for due in ["due", "not due"] {
            names.push(format!("guard by hand in {state}, {due}: taken"));
        }
    }
}

pub fn rows() -> Vec<String> {
    let mut clerk = Vec::new();
    start_rows(&mut clerk);
    clerk_step_rows(&mut clerk);
    clerk_record_rows(&mut clerk);
    for (state, timer) in CLERK_TIMERS {
        moment_rows(&mut clerk, state, timer);
    }
    desk_rows(&mut clerk);
    let mut line = Vec::new();
    line_step_rows(&mut line);
    line_record_rows(&mut line);
    for state in LINE_STATES {
        moment_rows(&mut line, state, "guard");
    }
    desk_rows(&mut line);
    let mut rows: Vec<String> = clerk.iter().map(|name| format!("clerk: {name}")).collect();
    rows.extend(line.iter().map(|name| format!("line: {name}")));
    rows.extend(COUNTS.iter().map(|name| format!("count: {name}")));
    rows
}
