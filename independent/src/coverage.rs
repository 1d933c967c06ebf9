//! Counts how often scripts reach each row of each desk's table.
//!
//! The rows are stated twice: expected.rs lists them as a table in document
//! 01's words, observed.rs names what an entry did when it was played. A name
//! that is observed and not listed is printed as `UNLISTED`: one of the two
//! statements, or the desk, is wrong then.
//!
//! Rows that no script can reach, and that are therefore not in the table:
//! - refusal 2 by a desk on a message with a field out of range (also 2 before
//!   3): the reader refuses such bytes with 2 before the desk sees a message;
//! - refusal 2 by the writer: code 48 writes only what was read;
//! - refusal 3 on a request at the line desk (READINGS 11: "3 cannot occur");
//! - refusal 7 on a user's cancel and on act "cancel" ("in any state"), and
//!   refusal 9 on the guard (READINGS 13: "only ever 6 or taken");
//! - carriers by an empty connection choice (READINGS 10: "In Wait-Ack the
//!   connection choice is never asked for");
//! - clear-the-call on a timer or in a tick: M1 leaves no timer that is taken in
//!   Ringout, and none that expires there;
//! - a suspended mark outside Await (READINGS 18: "Suspended only in Await");
//! - refusal 8, and M3's reply to it, on a ccExecPossible in Setup: since request
//!   11 every acknowledged record takes it in that carrier, and 7 comes first;
//! - a mark "connection down" in Wait-Ack or on an RLS record (refusal 7);
//! - a record whose numberB is no line: it would have got the long error, and
//!   a taken start makes a desk without records;
//! - elements absent from a message of types 5, 6, 9 or 10 in Setup: the byte form
//!   has no way to say so;
//! - refusal 7 on a ccCancel that is fitted (it is for every state), and refusal 8
//!   on any message that is fitted (it is in Setup, which all of them may be in);
//! - a ccRingout that is taken by place: it is taken in Setup alone, and fitted there;
//! - refusal 12 of a tick with room for 2048: the longest messages of a full desk take
//!   less.
//!
//! Request 1: rows about a record say how it was found, "by identifier", "by fit" or
//! "by place"; "no record" is the state where none was. A message for the other end
//! (refusal 3) is looked at as if it were an act. Coverage finds the record by a
//! search of its own (meaning.rs); where the desk's `at` is another, or a step alters
//! another record, or a message is sent with what isn't its record's, the row is not
//! listed.
//!
//! Request 6: timing.rs states a second time which timers a record has and when they
//! are due. A tick that ends other records, writes other bytes or leaves another desk
//! is not listed, nor is a step that moves a deadline which it should leave.
//!
//! Refusal 12 is the writer's, in the codec's table, and a tick's, at either desk.
//! Every fault of bytes is a row three times, with the place that is told for it:
//! in the codec's table and in that of each desk.
//!
//! The rows of `stop N` are counted apart: a script reaches one of them at most.

mod expected;
mod expected_codec;
mod expected_meant;
mod expected_ticks;
mod meaning;
mod observed;
mod observed_clerk;
mod observed_codec;
mod observed_line;
mod observed_meant;
mod observed_ticks;
mod stops;
mod timing;

pub use self::observed::is_at_clerk;
use crate::script::{take_entry, Answer, Entry, Session};
use std::collections::{BTreeSet, HashMap};

struct Row {
    name: String,
    count: u64,
}

/// Every row, those of `stop N` at the end.
fn all_rows() -> Vec<String> {
    let mut rows = expected::rows();
    rows.extend(expected_meant::rows());
    rows.extend(expected_ticks::rows());
    rows.extend(expected_codec::rows());
    rows.extend(stops::rows());
    rows
}

/// The tables as they are reported, and how their rows' names begin.
const TABLES: [(&str, &str); 4] =
    [("clerk's desk", "clerk: "), ("line desk", "line: "), ("count", "count: "), ("codec", "codec: ")];

const STOP: &str = "stop: ";

/// Document 01 has the refusal numbers 1 to 12.
const REFUSAL_NUMBERS: usize = 12;

/// The expected rows and those that were observed and not expected.
pub struct Coverage {
    rows: Vec<Row>,
    places: HashMap<String, usize>,
    unlisted: Vec<Row>,
    refusals: BTreeSet<u32>,
}

fn refusal_number(answer: &Answer) -> u32 {
    match answer {
        Answer::Step { outcome, .. } => outcome.refusal.map_or(0, |r| r.number()),
        Answer::Written { refusal, .. } => *refusal,
        Answer::Ticked { told, .. } => told.as_ref().err().map_or(0, |r| r.number()),
        Answer::Printed { .. } => 0,
    }
}

impl Coverage {
    pub fn new() -> Coverage {
        let names = all_rows();
        let places = names.iter().enumerate().map(|(place, name)| (name.clone(), place)).collect();
        let rows = names.into_iter().map(|name| Row { name, count: 0 }).collect();
        Coverage { rows, places, unlisted: Vec::new(), refusals: BTreeSet::new() }
    }

    /// Counts a row; true where it was listed and never reached before.
    fn note(&mut self, name: String) -> bool {
        let place = self.places.get(&name).copied();
        if let Some(row) = place.and_then(|place| self.rows.get_mut(place)) {
            row.count += 1;
            return row.count == 1;
        }
        match self.unlisted.iter_mut().find(|row| row.name == name) {
            Some(row) => row.count += 1,
            None => self.unlisted.push(Row { name, count: 1 }),
        }
        false
    }

    /// Plays one entry and counts its rows; true where one of them was never
    /// reached before.
    pub fn step(&mut self, session: &mut Session, entry: &Entry) -> (Answer, bool) {
        let before = session.clone();
        let answer = session.play(entry);
        self.refusals.extend(Some(refusal_number(&answer)).filter(|number| *number > 0));
        let mut new = false;
        for name in observed::names(&before, entry, &answer, session) {
            new |= self.note(name);
        }
        (answer, new)
    }

    /// Plays one entry and tells the places of its rows, and counts nothing.
    pub fn places_of(&self, session: &mut Session, entry: &Entry) -> Vec<usize> {
        let before = session.clone();
        let answer = session.play(entry);
        let names = observed::names(&before, entry, &answer, session);
        names.iter().filter_map(|name| self.places.get(name).copied()).collect()
    }

    /// Plays one script as far as it goes.
    pub fn play(&mut self, script: &[u8]) {
        let mut session = Session::default();
        let mut rest = script;
        while let Some((entry, behind)) = take_entry(rest) {
            self.step(&mut session, &entry);
            rest = behind;
        }
        self.note_stop(rest);
    }

    /// Counts the stop at what is left of a script, if something is.
    pub fn note_stop(&mut self, rest: &[u8]) {
        if !rest.is_empty() {
            self.note(stops::name(rest));
        }
    }

    /// How many rows are listed, those of `stop N` too.
    pub fn all_rows(&self) -> usize {
        self.rows.len()
    }

    /// How many of the rows whose names begin so were reached, and how many
    /// there are.
    fn reached(&self, start: &str) -> (usize, usize) {
        let of_table: Vec<&Row> = self.rows.iter().filter(|row| row.name.starts_with(start)).collect();
        (of_table.iter().filter(|row| row.count > 0).count(), of_table.len())
    }

    /// The same for all rows but those of `stop N`.
    pub fn reached_of_tables(&self) -> (usize, usize) {
        let each = TABLES.map(|(_, start)| self.reached(start));
        each.iter().fold((0, 0), |sum, table| (sum.0 + table.0, sum.1 + table.1))
    }

    pub fn reached_stops(&self) -> (usize, usize) {
        self.reached(STOP)
    }

    /// The rows never reached, but those of `stop N`.
    pub fn missing(&self) -> Vec<&str> {
        let rows = self.rows.iter().filter(|row| row.count == 0 && !row.name.starts_with(STOP));
        rows.map(|row| row.name.as_str()).collect()
    }

    pub fn complete(&self) -> bool {
        self.unlisted.is_empty() && self.missing().is_empty()
    }

    /// All rows with their counts; the missing ones once more where they are
    /// asked for; the sums.
    pub fn report(&self, list_missing: bool) -> String {
        let mut text = String::new();
        for row in &self.rows {
            text.push_str(&format!("{} {}\n", row.count, row.name));
        }
        for row in &self.unlisted {
            text.push_str(&format!("UNLISTED {} {}\n", row.count, row.name));
        }
        if list_missing {
            for name in self.missing() {
                text.push_str(&format!("MISSING {name}\n"));
            }
        }
        let (reached, all) = self.reached_stops();
        text.push_str(&format!("stop rows, counted apart: reached {reached} of {all}\n"));
        for (table, start) in TABLES.iter() {
            let (reached, all) = self.reached(start);
            text.push_str(&format!("{table}: rows reached {reached} of {all}\n"));
        }
        text.push_str(&format!("refusal numbers reached {} of {REFUSAL_NUMBERS}\n", self.refusals.len()));
        let (reached, all) = self.reached_of_tables();
        text.push_str(&format!("rows reached {reached} of {all}\n"));
        text
    }
}

#[cfg(test)]
mod tests {
    use super::*;
    use crate::make::start_clerk;

    #[test]
    fn no_row_is_listed_twice() {
        let rows = all_rows();
        for (place, name) in rows.iter().enumerate() {
            assert!(!rows[..place].contains(name), "{name}");
        }
    }

    #[test]
    fn the_last_lines_are_the_sums() {
        let mut coverage = Coverage::new();
        // The clerk's desk is started, the count goes on, no bytes reach the desk, a
        // code isn't listed.
        let start = start_clerk(Default::default());
        coverage.play(&[&start[..], &[3, 0, 0, 0, 1, 17, 0, 255, 0, 0]].concat());
        let report = coverage.report(false);
        assert!(report.contains("\n1 clerk: no bytes: refusal 1 at the bytes' length\n"));
        assert!(report.contains("\n1 stop: code not listed\n"));
        let [clerk, line, count, codec] = TABLES.map(|(_, start)| coverage.reached(start));
        // The start, the bytes, and the refusal's own row.
        assert_eq!((clerk.0, line.0, count.0, codec.0), (3, 0, 1, 0));
        let all = clerk.1 + line.1 + count.1 + codec.1;
        assert_eq!(all + coverage.reached_stops().1, coverage.all_rows());
        let lines = [
            format!("stop rows, counted apart: reached 1 of {}", coverage.reached_stops().1),
            format!("clerk's desk: rows reached 3 of {}", clerk.1),
            format!("line desk: rows reached 0 of {}", line.1),
            format!("count: rows reached 1 of {}", count.1),
            format!("codec: rows reached 0 of {}", codec.1),
            "refusal numbers reached 1 of 12".to_string(),
            format!("rows reached 4 of {all}"),
        ];
        assert!(report.ends_with(&format!("{}\n", lines.join("\n"))), "{report}");
    }

    #[test]
    fn missing_rows_are_listed_where_all_are_required() {
        let mut coverage = Coverage::new();
        coverage.play(&start_clerk(Default::default()));
        assert!(!coverage.complete());
        let listed = |report: &str| report.lines().filter(|line| line.starts_with("MISSING ")).count();
        let (reached, all) = coverage.reached_of_tables();
        assert_eq!(reached, 1);
        assert_eq!(listed(&coverage.report(true)), all - 1);
        assert_eq!(listed(&coverage.report(false)), 0);
        assert!(coverage.report(true).contains("\nMISSING line: refusal 10\n"));
        assert!(!coverage.report(true).contains("MISSING clerk: start, desk without records: started\n"));
        // A stop row is counted apart and never required.
        assert!(!coverage.report(true).contains("MISSING stop"));
    }

    #[test]
    fn a_name_that_is_not_listed_is_no_completeness() {
        let mut coverage = Coverage::new();
        for row in all_rows() {
            coverage.note(row);
        }
        assert!(coverage.complete());
        coverage.note("clerk: something else".to_string());
        assert!(!coverage.complete());
    }

    #[test]
    fn stops_are_named() {
        let name = |rest: &[u8]| stops::name(rest);
        assert_eq!(name(&[0, 64]), "stop: code not listed");
        assert_eq!(name(&[34, 2, 1]), "stop: code 34: the script ends inside");
        assert_eq!(name(&[1, 1, 1, 5, 4, 0]), "stop: code 1: kinds not listed");
        assert_eq!(name(&[1, 1, 1, 5, 3, 4, 64]), "stop: code 1: settings not listed");
        assert_eq!(name(&[17, 2, 0, 0]), "stop: code 17: User A busy not listed");
        assert_eq!(name(&[33, 1, 1, 2]), "stop: code 33: busy or free not listed");
        assert_eq!(name(&[16, 0, 3, 0]), "stop: code 16: kind not listed");
        assert_eq!(name(&[16, 0, 1, 0, 1, 1, 0, 0, 2, 0]), "stop: code 16: can-keep not listed");
        let named = [&[35, 16][..], &[5; 16], &[0, 0]].concat();
        assert_eq!(name(&named), "stop: code 35: act not listed");
        assert_eq!(name(&named[..9]), "stop: code 35: the script ends inside");
        assert_eq!(name(&[21, 0, 9, 4]), "stop: code 21: timer not listed");
        assert_eq!(name(&[19, 0, 9, 2]), "stop: code 19: resume or recall not listed");
        assert_eq!(name(&[36, 8, 9, 2]), "stop: code 36: identifier's length not listed");
        assert_eq!(name(&[23, 1, 8]), "stop: code 23: room not listed");
        assert_eq!(name(&[38, 0, 9, 64]), "stop: code 38: room not listed");
        assert_eq!(name(&[38, 0]), "stop: code 38: the script ends inside");
        assert_eq!(name(&[38, 0, 8]), "stop: code 38: nothing is wrong");
        assert_eq!(name(&[&[2][..], &[1; 15]].concat()), "stop: code 2: the script ends inside");
        assert_eq!(name(&[3, 1, 1, 1]), "stop: code 3: the script ends inside");
    }

    #[test]
    fn the_stop_scripts_reach_every_stop_row() {
        let mut coverage = Coverage::new();
        for script in crate::make::stop::scripts().into_cases() {
            coverage.play(&script);
        }
        let (reached, all) = coverage.reached_stops();
        assert_eq!(reached, all);
    }
}
