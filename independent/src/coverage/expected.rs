//! The rows of both desks, listed as a table in document 01's words.

use super::expected_codec;
use super::meaning::{BY_FIT, BY_IDENTIFIER, BY_PLACE};

/// A completed row: a state, an input, what is done.
struct Done {
    state: String,
    input: String,
    outcome: String,
}

fn done(state: &str, input: &str, outcome: &str) -> Done {
    Done { state: state.to_string(), input: input.to_string(), outcome: outcome.to_string() }
}

/// The carriers that hang on the connection choice and, request 11, on the mark
/// "connection down": what is sent and what is taken.
pub struct Choice {
    pub name: &'static str,
    offer_sent: &'static str,
    offer_taken: &'static [&'static str],
    suspend_sent: &'static str,
    suspend_taken: &'static [&'static str],
    resume_sent: &'static str,
    resume_taken: &'static [&'static str],
    pub cancel: &'static str,
    /// The choice's name when the connection has fallen; none for RLS.
    fallen: Option<&'static str>,
}

const RET: Choice = Choice {
    name: "RET",
    offer_sent: "Facility",
    offer_taken: &["Facility", "Setup"],
    suspend_sent: "Facility",
    suspend_taken: &["Facility", "Release Complete", "Connect"],
    resume_sent: "Facility",
    resume_taken: &["Facility", "Setup"],
    cancel: "Release Complete",
    fallen: Some("RET down"),
};

const RET_DOWN: Choice = Choice {
    name: "RET down",
    offer_sent: "Setup",
    suspend_sent: "Release Complete",
    resume_sent: "Setup",
    cancel: "Setup",
    ..RET
};

const RLS: Choice = Choice {
    name: "RLS",
    offer_sent: "Setup",
    offer_taken: &["Setup"],
    suspend_sent: "Release Complete",
    suspend_taken: &["Release Complete", "Connect"],
    resume_sent: "Setup",
    resume_taken: &["Setup"],
    cancel: "Setup",
    fallen: None,
};

pub const CHOICES: [Choice; 3] = [RET, RET_DOWN, RLS];

const CARRIERS: [&str; 5] = ["Setup", "Connect", "Facility", "Release Complete", "Alerting"];

const BOTH_CANCEL: [&str; 2] = ["Setup", "Release Complete"];

const TO_LINE: [&str; 5] = ["ccbsRequest", "ccnrRequest", "ccRingout", "ccSuspend", "ccResume"];

/// What reaches a live record at the line desk.
pub const TO_LINE_RECORDS: [&str; 4] = ["ccRingout", "ccSuspend", "ccResume", "ccCancel"];

pub const TO_CLERK: [&str; 9] = [
    "result keep 0",
    "result keep 1",
    "request error short",
    "request error long",
    "ccExecPossible",
    "ringout error remoteUserBusyAgain",
    "ringout error failureToMatch",
    "call alerts",
    "call failed",
];

fn wait_ack_rows(rows: &mut Vec<Done>) {
    let state = "Wait-Ack";
    let accepted = |choice: &str, keep: u8| format!("Invoked {choice} keep {keep}, \"accepted\", starts T2, stops T1");
    for (carrier, choice) in [("Connect", "RET"), ("Release Complete", "RLS")].iter() {
        rows.push(done(state, &format!("result keep 0 in {carrier}"), &accepted(choice, 0)));
        rows.push(done(state, &format!("result keep 1 in {carrier}, can-keep 0"), &accepted(choice, 0)));
        rows.push(done(state, &format!("result keep 1 in {carrier}, can-keep 1"), &accepted(choice, 1)));
    }
    rows.push(done(state, "request error short in Release Complete", "deleted, \"denied short\", stops T1"));
    rows.push(done(state, "request error long in Release Complete", "deleted, \"denied long\", stops T1"));
    for carrier in BOTH_CANCEL.iter() {
        rows.push(done(state, &format!("ccCancel in {carrier}"), "deleted, \"failed\", stops T1"));
    }
    let cancel = "deleted, sends ccCancel in Release Complete";
    rows.push(done(state, "user's cancel", &format!("{cancel}, \"cancelled\", stops T1")));
    rows.push(done(state, "T1 runs out", &format!("{cancel}, \"failed\", stops T1")));
}

/// Cancels and timers, the same shape in the four acknowledged states.
fn cancel_rows(rows: &mut Vec<Done>, state: &str, choice: &Choice, stops: &str, timers: &[&str], clear: &str) {
    for carrier in BOTH_CANCEL.iter() {
        let outcome = format!("deleted, \"failed\", stops {stops}{clear}");
        rows.push(done(state, &format!("ccCancel in {carrier}"), &outcome));
    }
    let cancel = format!("deleted, sends ccCancel in {}", choice.cancel);
    rows.push(done(state, "user's cancel", &format!("{cancel}, \"cancelled\", stops {stops}{clear}")));
    for timer in timers {
        rows.push(done(state, &format!("{timer} runs out"), &format!("{cancel}, \"failed\", stops {stops}")));
    }
}

fn invoked_and_suspended_rows(rows: &mut Vec<Done>, choice: &Choice) {
    let name = choice.name;
    let state = format!("Invoked {name}");
    let recall = format!("Wait-Answer {name}, \"recall\", starts T3");
    let suspend = format!("Suspended {name}, sends ccSuspend in {}", choice.suspend_sent);
    for carrier in choice.offer_taken {
        let exec = format!("ccExecPossible in {carrier}");
        rows.push(done(&state, &format!("{exec}, User A not busy"), &recall));
        rows.push(done(&state, &format!("{exec}, User A busy"), &suspend));
    }
    cancel_rows(rows, &state, choice, "T2", &["T2"], "");
    let state = format!("Suspended {name}");
    let resume = format!("Invoked {name}, sends ccResume in {}", choice.resume_sent);
    rows.push(done(&state, "User A free, resume", &resume));
    rows.push(done(&state, "User A free, recall", &recall));
    cancel_rows(rows, &state, choice, "T2", &["T2"], "");
}

fn answer_and_ringout_rows(rows: &mut Vec<Done>, choice: &Choice) {
    let name = choice.name;
    let state = format!("Wait-Answer {name}");
    rows.push(done(&state, "accept", &format!("Ringout {name}, sends ccRingout in Setup, stops T3")));
    cancel_rows(rows, &state, choice, "T2 and T3", &["T2", "T3"], "");
    let state = format!("Ringout {name}");
    let again = "ringout error remoteUserBusyAgain in Release Complete";
    for (kind, notice) in [("CCBS", "busy again, kept"), ("CCNR", "busy again, now waiting for free")].iter() {
        let kept = format!("Invoked {name} CCBS, \"{notice}\"");
        rows.push(done(&state, &format!("{again}, keep 1, {kind}"), &kept));
        rows.push(done(&state, &format!("{again}, keep 0, {kind}"), "deleted, \"busy again, ended\", stops T2"));
    }
    let match_failure = "ringout error failureToMatch in Release Complete";
    rows.push(done(&state, match_failure, "deleted, \"failed\", stops T2"));
    for carrier in ["Alerting", "Connect"].iter() {
        rows.push(done(&state, &format!("call alerts in {carrier}"), "deleted, \"completed\", stops T2"));
    }
    let failed = format!("deleted, sends ccCancel in {}, \"failed\", stops T2", choice.cancel);
    rows.push(done(&state, "call failed in Release Complete", &failed));
    cancel_rows(rows, &state, choice, "T2", &[], ", clear the call");
}

fn clerk_done() -> Vec<Done> {
    let mut rows = Vec::new();
    wait_ack_rows(&mut rows);
    for choice in CHOICES.iter() {
        invoked_and_suspended_rows(&mut rows, choice);
        answer_and_ringout_rows(&mut rows, choice);
        for state in ["Invoked", "Wait-Answer", "Ringout", "Suspended"] {
            fallen_row(&mut rows, state, choice, "");
        }
    }
    rows
}

/// Request 11: "Taken in every other state; the state stays .. on a marked
/// record taken, and nothing changes." What is behind the choice in a state's
/// name stays too.
fn fallen_row(rows: &mut Vec<Done>, state: &str, choice: &Choice, mark: &str) {
    if let Some(fallen) = choice.fallen {
        let before = format!("{state} {}{mark}", choice.name);
        rows.push(done(&before, "the connection fell", &format!("{state} {fallen}{mark}")));
    }
}

fn clerk_states() -> Vec<String> {
    let mut states = vec!["no record".to_string(), "Wait-Ack".to_string()];
    for state in ["Invoked", "Wait-Answer", "Ringout", "Suspended"].iter() {
        for choice in CHOICES.iter() {
            states.push(format!("{state} {}", choice.name));
        }
    }
    states
}

/// What else decides a row at the clerk's desk.
fn clerk_suffixes(state: &str, content: &str) -> &'static [&'static str] {
    match content {
        "ccExecPossible" => &[", User A busy", ", User A not busy"],
        "result keep 1" if state == "Wait-Ack" => &[", can-keep 0", ", can-keep 1"],
        "ringout error remoteUserBusyAgain" if state.starts_with("Ringout") => {
            &[", keep 0, CCBS", ", keep 1, CCBS", ", keep 0, CCNR", ", keep 1, CCNR"]
        }
        _ => &[""],
    }
}

fn find<'a>(rows: &'a [Done], state: &str, input: &str) -> Option<&'a str> {
    rows.iter().find(|row| row.state == state && row.input == input).map(|row| row.outcome.as_str())
}

/// A type has a row in a state if some carrier of it is taken there.
fn has_row(rows: &[Done], state: &str, content: &str) -> bool {
    let start = format!("{content} in ");
    rows.iter().any(|row| row.state == state && row.input.starts_with(&start))
}

/// Request 1: types 5, 6, 9 and 10 in Setup, at the end that they are for.
const CLERK_FITTED: [&str; 2] = ["ccExecPossible", "ccCancel"];
const LINE_FITTED: [&str; 3] = ["ccRingout", "ccResume", "ccCancel"];

/// How a message can be found to be about a record in this state, or about none.
fn hows(fitted: &[&str], state: &str, content: &str, carrier: &str) -> &'static [&'static str] {
    match (carrier == "Setup" && fitted.contains(&content), state) {
        (true, "no record") => &[BY_FIT],
        (true, _) => &[BY_IDENTIFIER, BY_FIT],
        (false, _) => &[BY_IDENTIFIER, BY_PLACE],
    }
}

/// "Messages: 2, 3, 6, 7, 8" and the replies of M3.
fn clerk_refusal(rows: &[Done], state: &str, content: &str, carrier: &str) -> String {
    let reply = ", reply ccCancel in Release Complete";
    let exec = content == "ccExecPossible";
    if TO_LINE.contains(&content) {
        "refusal 3".to_string()
    } else if state == "no record" {
        let replies = exec || content.starts_with("result");
        format!("refusal 6{}", if replies { reply } else { "" })
    } else {
        let number = if has_row(rows, state, content) { 8 } else { 7 };
        format!("refusal {number}{}", if exec && carrier == "Setup" { reply } else { "" })
    }
}

fn clerk_message_rows(names: &mut Vec<String>, rows: &[Done]) {
    let contents = || TO_CLERK.iter().chain(TO_LINE.iter()).chain(["ccCancel"].iter());
    for state in clerk_states() {
        for content in contents() {
            for carrier in CARRIERS.iter() {
                for suffix in clerk_suffixes(&state, content) {
                    let input = format!("{content} in {carrier}{suffix}");
                    let refusal = clerk_refusal(rows, &state, content, carrier);
                    let outcome = find(rows, &state, &input).unwrap_or(&refusal);
                    for how in hows(&CLERK_FITTED, &state, content, carrier) {
                        names.push(format!("clerk: {state}: {content} in {carrier} {how}{suffix}: {outcome}"));
                    }
                }
            }
        }
    }
}

/// "Acts: 6, 7. Timers: 6, 9."
fn clerk_act_rows(names: &mut Vec<String>, rows: &[Done]) {
    let acts = [
        ("accept", "refusal 7"),
        ("User A free, resume", "refusal 7"),
        ("User A free, recall", "refusal 7"),
        ("user's cancel", "refusal 7"),
        ("the connection fell", "refusal 7"),
        ("T1 runs out", "refusal 9"),
        ("T2 runs out", "refusal 9"),
        ("T3 runs out", "refusal 9"),
    ];
    for state in clerk_states() {
        for (input, refusal) in acts.iter() {
            let refusal = if state == "no record" { "refusal 6" } else { refusal };
            let outcome = find(rows, &state, input).unwrap_or(refusal);
            for how in [BY_IDENTIFIER, BY_PLACE] {
                names.push(format!("clerk: {state}: {input} {how}: {outcome}"));
            }
        }
    }
}

/// Asks that are refused, and what stands on the edges of those that are taken.
const ASK_FAULTS_AND_EDGES: [&str; 22] = [
    "numberA has over 15 digits: refusal 2",
    "numberA has a digit over 9: refusal 2",
    "numberB has no digits: refusal 2",
    "numberB has over 15 digits: refusal 2",
    "numberB has a digit over 9: refusal 2",
    "service over 16383: refusal 2",
    "preference over 2: refusal 2",
    "identifier live, desk not full: refusal 4",
    "identifier live, desk full: refusal 4",
    "identifier not live, desk full: refusal 5",
    "no identifier, desk full: refusal 5",
    "numberA of 15 digits: taken",
    "numberA of 16 digits: refusal 2",
    "numberB of 15 digits: taken",
    "numberB of 16 digits: refusal 2",
    "service 16383: taken",
    "service 16384: refusal 2",
    "preference 2: taken",
    "preference 3: refusal 2",
    "the desk has 15: taken",
    "the desk has 16: refusal 5",
    "no identifier, a record is alike in all: taken",
];

fn ask_rows(names: &mut Vec<String>) {
    for (kind, sent) in [("CCBS", "ccbsRequest"), ("CCNR", "ccnrRequest")].iter() {
        for number_a in ["given", "withheld"].iter() {
            for can_keep in 0..=1 {
                for preference in 0..=2 {
                    let choices = format!("can-keep {can_keep}, preference {preference}");
                    let outcome = format!("Wait-Ack, sends {sent} in Setup, starts T1");
                    for named in ["an identifier", "no identifier"] {
                        let input = format!("{named}, {kind}, numberA {number_a}, {choices}");
                        names.push(format!("clerk: ask: {input}: {outcome}"));
                    }
                }
            }
        }
    }
    names.extend(ASK_FAULTS_AND_EDGES.iter().map(|row| format!("clerk: ask: {row}")));
}

/// "Records stand compact .. a delete closes the gap" (READINGS 19).
fn deletion_rows(names: &mut Vec<String>, desk: &str) {
    for which in ["alone", "the oldest", "between others", "the youngest"].iter() {
        names.push(format!("{desk}: a record is deleted: {which}"));
    }
}

/// Edges at the line desk that are no rows of their own in document 01.
const LINE_EDGES: [&str; 13] = [
    "request: numberA of 15 digits: accepted",
    "request: numberB of 15 digits: accepted",
    "request: service 0: accepted",
    "request: service 16383: accepted",
    "request: the line has 4: accepted",
    "request: the desk has 31: accepted",
    "start: a line of 15 digits: taken",
    "start: a line of 16 digits: refusal 2",
    "report: the number of a line of 15 digits: taken",
    "report: a number of 16 digits: refusal 10",
    "Look: the number of a line of 15 digits: taken",
    "Look: the number of a line of 15 digits: refusal 11",
    "Look: a number of 16 digits: refusal 10",
];

/// Rows on bytes, the same at both desks: "the number reader and all above it
/// also tell the place", so every fault of the codec is a row here too.
fn bytes_rows(names: &mut Vec<String>, desk: &str) {
    names.extend(expected_codec::faults().iter().map(|fault| format!("{desk}: {fault}")));
    names.push(format!("{desk}: bytes follow a message that is taken"));
    names.push(format!("{desk}: bytes follow a message that is refused"));
}

fn refusal_rows(names: &mut Vec<String>, desk: &str, numbers: &[u32]) {
    names.extend(numbers.iter().map(|number| format!("{desk}: refusal {number}")));
}

fn line_invoked_and_alert_rows(rows: &mut Vec<Done>, choice: &Choice) {
    let name = choice.name;
    line_cancel_rows(rows, &format!("Invoked {name}"), choice);
    fallen_row(rows, "Invoked", choice, "");
    fallen_row(rows, "Alert", choice, "");
    let state = format!("Alert {name}");
    line_cancel_rows(rows, &state, choice);
    rows.push(done(&state, "act alerted", "deleted, sends call alerts in Alerting, stops guard"));
    rows.push(done(&state, "act call failed", "deleted, sends call failed in Release Complete, stops guard"));
}

fn line_cancel_rows(rows: &mut Vec<Done>, state: &str, choice: &Choice) {
    for carrier in BOTH_CANCEL.iter() {
        rows.push(done(state, &format!("ccCancel in {carrier}"), "deleted, stops guard"));
    }
    let cancel = format!("deleted, sends ccCancel in {}, stops guard", choice.cancel);
    rows.push(done(state, "act cancel", &cancel));
    rows.push(done(state, "guard runs out", &cancel));
}

fn line_await_rows(rows: &mut Vec<Done>, choice: &Choice, mark: &str) {
    let name = choice.name;
    let state = format!("Await {name}{mark}");
    line_cancel_rows(rows, &state, choice);
    fallen_row(rows, "Await", choice, mark);
    for carrier in choice.suspend_taken {
        rows.push(done(&state, &format!("ccSuspend in {carrier}"), &format!("Await {name} suspended")));
    }
    for carrier in choice.resume_taken {
        rows.push(done(&state, &format!("ccResume in {carrier}"), &format!("Invoked {name}")));
    }
    let again = "sends ringout error remoteUserBusyAgain in Release Complete";
    let input = "ccRingout in Setup";
    for kind in ["CCBS", "CCNR"].iter() {
        for keep in 0..=1 {
            let free = format!("{input}, line free, keep {keep}, {kind}");
            rows.push(done(&state, &free, &format!("Alert {name} {kind}")));
        }
        let kept = format!("Invoked {name} CCBS, {again}");
        rows.push(done(&state, &format!("{input}, line busy, keep 1, {kind}"), &kept));
        let gone = format!("deleted, {again}, stops guard");
        rows.push(done(&state, &format!("{input}, line busy, keep 0, {kind}"), &gone));
    }
}

fn line_done() -> Vec<Done> {
    let mut rows = Vec::new();
    for choice in CHOICES.iter() {
        line_invoked_and_alert_rows(&mut rows, choice);
        line_await_rows(&mut rows, choice, "");
        line_await_rows(&mut rows, choice, " suspended");
    }
    rows
}

fn line_states() -> Vec<String> {
    let mut states = vec!["no record".to_string()];
    for choice in CHOICES.iter() {
        states.push(format!("Invoked {}", choice.name));
        states.push(format!("Await {}", choice.name));
        states.push(format!("Await {} suspended", choice.name));
        states.push(format!("Alert {}", choice.name));
    }
    states
}

fn line_suffixes(state: &str, content: &str) -> &'static [&'static str] {
    if content == "ccRingout" && state.starts_with("Await") {
        &[
            ", line free, keep 0, CCBS",
            ", line free, keep 1, CCBS",
            ", line busy, keep 0, CCBS",
            ", line busy, keep 1, CCBS",
            ", line free, keep 0, CCNR",
            ", line free, keep 1, CCNR",
            ", line busy, keep 0, CCNR",
            ", line busy, keep 1, CCNR",
        ]
    } else {
        &[""]
    }
}

/// A CCBS record on a line that doesn't allow CCBS was CCNR once and met a busy
/// line (request 5): it goes on as any CCBS record does.
const CONVERTED: [&str; 5] = [
    "a record made CCBS: ccRingout in Setup: Invoked CCBS",
    "a record made CCBS: ccRingout in Setup: Alert CCBS",
    "a record made CCBS: ccResume in Facility: Invoked CCBS",
    "a record made CCBS: ccResume in Setup: Invoked CCBS",
    "a record made CCBS: Look: offered",
];

/// "Line desk, 6 or 7 on ccRingout: ringout error failureToMatch in Release
/// Complete; 6 or 7 on ccResume: ccCancel in Release Complete."
fn line_refusal(rows: &[Done], state: &str, content: &str) -> String {
    if TO_CLERK.contains(&content) {
        return "refusal 3".to_string();
    }
    let number = match (state, has_row(rows, state, content)) {
        ("no record", _) => 6,
        (_, false) => 7,
        (_, true) => return "refusal 8".to_string(),
    };
    let reply = match content {
        "ccRingout" => ", reply ringout error failureToMatch in Release Complete",
        "ccResume" => ", reply ccCancel in Release Complete",
        _ => "",
    };
    format!("refusal {number}{reply}")
}

fn line_message_rows(names: &mut Vec<String>, rows: &[Done]) {
    let contents = || TO_CLERK.iter().chain(TO_LINE_RECORDS.iter());
    for state in line_states() {
        for content in contents() {
            for carrier in CARRIERS.iter() {
                for suffix in line_suffixes(&state, content) {
                    let input = format!("{content} in {carrier}{suffix}");
                    let refusal = line_refusal(rows, &state, content);
                    let outcome = find(rows, &state, &input).unwrap_or(&refusal);
                    for how in hows(&LINE_FITTED, &state, content, carrier) {
                        names.push(format!("line: {state}: {content} in {carrier} {how}{suffix}: {outcome}"));
                    }
                }
            }
        }
    }
}

fn line_act_rows(names: &mut Vec<String>, rows: &[Done]) {
    for state in line_states() {
        for input in ["act alerted", "act call failed", "act cancel", "guard runs out", "the connection fell"].iter() {
            let refusal = if state == "no record" { "refusal 6" } else { "refusal 7" };
            let outcome = find(rows, &state, input).unwrap_or(refusal);
            for how in [BY_IDENTIFIER, BY_PLACE] {
                names.push(format!("line: {state}: {input} {how}: {outcome}"));
            }
        }
    }
}

/// "keep is 1 exactly if can-keep and the desk keeps; Connect or Release
/// Complete by preference, by the desk's default if none".
fn accepted_rows(names: &mut Vec<String>, request: &str) {
    for flags in 0..=5 {
        for keeps in 0..=1 {
            for retains in 0..=1 {
                for line in ["free", "busy"].iter() {
                    let keep = flags % 2 * keeps;
                    let connect = [retains == 1, true, false][flags / 2];
                    let carrier = if connect { "Connect" } else { "Release Complete" };
                    let case = format!("flags {flags}, keeps {keeps}, retains {retains}, line {line}");
                    let outcome = format!("Invoked, sends result keep {keep} in {carrier}, starts guard");
                    names.push(format!("line: {request}: {case}: {outcome}"));
                }
            }
        }
    }
}

fn request_rows(names: &mut Vec<String>) {
    let error = |length: &str| format!("nothing stored, sends request error {length} in Release Complete");
    for request in ["ccbsRequest", "ccnrRequest"].iter() {
        for carrier in CARRIERS.iter().filter(|c| **c != "Setup") {
            names.push(format!("line: {request} in {carrier}: refusal 8"));
        }
        for full in ["desk not full", "desk full"].iter() {
            names.push(format!("line: {request}: numberB is no line, {full}: {}", error("long")));
            names.push(format!("line: {request}: kind isn't allowed, {full}: {}", error("long")));
        }
        let reasons = [
            "same identifier",
            "same two numbers, same kind",
            "same two numbers, other kind",
            "the line has 5",
            "the desk has 32",
        ];
        for reason in reasons.iter() {
            names.push(format!("line: {request}: {reason}: {}", error("short")));
        }
        accepted_rows(names, request);
    }
    names.push("line: request: numberA withheld on both sides, same numberB: accepted".to_string());
    names.push("line: request: same numberA, other numberB: accepted".to_string());
    names.push("line: request: other numberA, same numberB: accepted".to_string());
}

/// "Line report: 10", "Look: 10, 11".
const REPORTS_AND_LOOKS: [&str; 31] = [
    "report busy: line was free: stored",
    "report busy: line was busy: stored",
    "report free: line was free: stored",
    "report free: line was busy: stored",
    "report busy: record in Invoked, not active: marked active",
    "report busy: record in Await, not active: not marked",
    "report busy: record in Alert, not active: not marked",
    "report busy: record of another line: not marked",
    "report free: record marked active: stays marked",
    "report busy: unknown digits: refusal 10",
    "report busy: the number has no digits: refusal 10",
    "report busy: the number has over 15 digits: refusal 10",
    "report busy: the number has a digit over 9: refusal 10",
    "report free: unknown digits: refusal 10",
    "report free: the number has no digits: refusal 10",
    "report free: the number has over 15 digits: refusal 10",
    "report free: the number has a digit over 9: refusal 10",
    "Look: unknown digits: refusal 10",
    "Look: the number has no digits: refusal 10",
    "Look: the number has over 15 digits: refusal 10",
    "Look: the number has a digit over 9: refusal 10",
    "Look: the line is busy: refusal 11",
    "Look: a record in Alert: refusal 11",
    "Look: a record in Await without suspended mark: refusal 11",
    "Look: CCNR never active: refusal 11",
    "Look: only suspended records: refusal 11",
    "Look: no records: refusal 11",
    "Look: offered past an older suspended record",
    "Look: offered before a younger suspended record",
    "Look: offered past an older CCNR record never active",
    "Look: the oldest of several that fit",
];

fn offer_rows(names: &mut Vec<String>) {
    for kind in ["CCBS", "CCNR"] {
        for choice in CHOICES.iter() {
            let sent = format!("sends ccExecPossible in {}", choice.offer_sent);
            names.push(format!("line: Look: {kind} {} fits: Await, {sent}", choice.name));
        }
    }
}

fn start_rows(names: &mut Vec<String>) {
    let starts = [
        ("no lines", "started"),
        ("1 to 15 lines", "started"),
        ("16 lines", "started"),
        ("more than 16 lines", "refusal 2"),
        ("a line has no digits", "refusal 2"),
        ("a line has over 15 digits", "refusal 2"),
        ("a line has a digit over 9", "refusal 2"),
        ("one number twice", "refusal 2"),
    ];
    for (input, outcome) in starts.iter() {
        for desk in ["desk without records", "desk with records"].iter() {
            names.push(format!("line: start: {input}, {desk}: {outcome}"));
        }
    }
}

/// All rows of both desks.
pub fn rows() -> Vec<String> {
    let mut names = Vec::new();
    ask_rows(&mut names);
    let rows = clerk_done();
    clerk_message_rows(&mut names, &rows);
    clerk_act_rows(&mut names, &rows);
    deletion_rows(&mut names, "clerk");
    bytes_rows(&mut names, "clerk");
    refusal_rows(&mut names, "clerk", &[1, 2, 3, 4, 5, 6, 7, 8, 9]);
    start_rows(&mut names);
    request_rows(&mut names);
    let rows = line_done();
    line_message_rows(&mut names, &rows);
    line_act_rows(&mut names, &rows);
    names.extend(REPORTS_AND_LOOKS.iter().map(|name| format!("line: {name}")));
    offer_rows(&mut names);
    names.extend(LINE_EDGES.iter().map(|name| format!("line: {name}")));
    names.extend(CONVERTED.iter().map(|name| format!("line: {name}")));
    deletion_rows(&mut names, "line");
    bytes_rows(&mut names, "line");
    refusal_rows(&mut names, "line", &[1, 2, 3, 6, 7, 8, 10, 11]);
    names
}
