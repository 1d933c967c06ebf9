//! One script that reaches every row that coverage knows: cases of the directed
//! makers, chosen greedily by new rows for their bytes. Nothing in it hangs on
//! a clock or on chance, so that it has the same bytes each time.

use super::{
    clerk, clerk_ticks, codec, count, count_entries, line, line_ticks, stop, PRINT_CLERK, PRINT_LINE, START_CLERK,
};
use crate::coverage::{is_at_clerk, Coverage};
use crate::script::{play_script, take_entry, Entry, Session};
use std::cmp::Reverse;
use std::collections::BinaryHeap;
use std::fs;
use std::io;
use std::path::Path;

/// The stored script's own limits; the replay takes a little more.
pub const FEWEST_BYTES: usize = 100_000;
pub const MOST_BYTES: usize = 250_000;
pub const MOST_PRINTED: usize = 2_500_000;

/// A case that may be chosen, and the rows that it reaches by itself.
struct Candidate {
    bytes: Vec<u8>,
    rows: Vec<usize>,
}

/// One entry of a case, and whether a print follows it there.
struct Step {
    bytes: Vec<u8>,
    entry: Entry,
    print: Option<u8>,
}

fn steps(case: &[u8]) -> Vec<Step> {
    let mut steps: Vec<Step> = Vec::new();
    let mut rest = case;
    while let Some((entry, behind)) = take_entry(rest) {
        let bytes = rest.get(..rest.len() - behind.len()).unwrap_or(rest).to_vec();
        match (&entry, steps.last_mut()) {
            (Entry::PrintClerk, Some(step)) => step.print = Some(PRINT_CLERK),
            (Entry::PrintLine, Some(step)) => step.print = Some(PRINT_LINE),
            _ => steps.push(Step { bytes, entry, print: None }),
        }
        rest = behind;
    }
    steps
}

/// The rows that a case reaches wherever it stands. What the start at its
/// front meets is what the case before it left behind, so a start of the line
/// desk counts only further on.
fn candidate(coverage: &Coverage, bytes: Vec<u8>) -> Candidate {
    let mut session = Session::default();
    let mut rows = Vec::new();
    for (place, step) in steps(&bytes).iter().enumerate() {
        let reached = coverage.places_of(&mut session, &step.entry);
        if place > 0 || !matches!(step.entry, Entry::StartLine { .. }) {
            rows.extend(reached);
        }
    }
    rows.sort_unstable();
    rows.dedup();
    Candidate { bytes, rows }
}

/// The line desk's cases come first: one of them is played before any start.
/// Every other case starts its desk anew, or is a write, which has no desk.
fn candidates(coverage: &Coverage) -> Vec<Candidate> {
    let mut cases = line::scripts().into_cases();
    cases.extend(clerk::scripts().into_cases());
    cases.extend(codec::scripts().into_cases());
    let fresh = |place: usize, case: &[u8]| place == 0 || matches!(case.first(), Some(&(1 | START_CLERK | 48)));
    let fitting = cases.into_iter().enumerate().filter(|(place, case)| fresh(*place, case));
    fitting.map(|(_, case)| candidate(coverage, case)).collect()
}

/// New rows for a million bytes: what the choice goes by.
fn worth(candidate: &Candidate, reached: &[bool]) -> usize {
    let new = candidate.rows.iter().filter(|row| reached.get(**row) == Some(&false)).count();
    new * 1_000_000 / candidate.bytes.len().max(1)
}

/// The places of the chosen candidates, in the makers' order. A worth only
/// falls while others are chosen, so the heap's top, once its worth is up to
/// date, is the best of all; of equals the first is taken.
fn choose(candidates: &[Candidate], rows: usize) -> Vec<usize> {
    let mut reached = vec![false; rows];
    let first_worths = candidates.iter().enumerate().map(|(place, c)| (worth(c, &reached), Reverse(place)));
    let mut heap: BinaryHeap<(usize, Reverse<usize>)> = first_worths.collect();
    let mut chosen = Vec::new();
    while let Some((old, Reverse(place))) = heap.pop() {
        let candidate = match candidates.get(place) {
            Some(candidate) => candidate,
            None => continue,
        };
        let now = worth(candidate, &reached);
        if now < old {
            heap.push((now, Reverse(place)));
        } else if now > 0 {
            chosen.push(place);
            for row in &candidate.rows {
                if let Some(mark) = reached.get_mut(*row) {
                    *mark = true;
                }
            }
        }
    }
    chosen.sort_unstable();
    chosen
}

/// The stored script, and what it was found to reach.
pub struct Stored {
    pub script: Vec<u8>,
    pub cases: usize,
    pub coverage: Coverage,
}

impl Stored {
    pub fn new() -> Stored {
        let mut coverage = Coverage::new();
        let candidates = candidates(&coverage);
        let chosen = choose(&candidates, coverage.all_rows());
        let mut session = Session::default();
        // What there is before any start: at the clerk's desk here, at the line desk
        // in the first case.
        let mut script = clerk_ticks::opening();
        for step in steps(&script) {
            coverage.step(&mut session, &step.entry);
        }
        let mut cases = 0;
        for candidate in chosen.iter().filter_map(|place| candidates.get(*place)) {
            // A case begins with the count at 0, as it was looked at.
            let case = if session.count == 0 { Vec::new() } else { count(0) };
            let (kept, after) = lean_case(&mut coverage, &session, &[case, candidate.bytes.clone()].concat());
            if let Some(bytes) = kept {
                script.extend(bytes);
                session = after;
                cases += 1;
            }
        }
        let closing = line_ticks::closing();
        for step in steps(&closing) {
            coverage.step(&mut session, &step.entry);
        }
        script.extend(closing);
        let ending = stop::ending();
        coverage.note_stop(&ending);
        script.extend(ending);
        Stored { script, cases, coverage }
    }

    /// How many bytes of lines it gives, and how many lines.
    pub fn printed(&self) -> (usize, usize) {
        let (mut bytes, mut lines) = (0, 0);
        play_script(&self.script, |text| {
            bytes += text.len();
            lines += text.lines().count();
        });
        (bytes, lines)
    }

    /// What keeps it from being stored.
    fn fault(&self) -> Option<String> {
        let bytes = self.script.len();
        let (printed, _) = self.printed();
        if !self.coverage.complete() {
            Some(format!("stored: rows are missing or not listed: {}", self.coverage.missing().join("; ")))
        } else if !(FEWEST_BYTES..=MOST_BYTES).contains(&bytes) {
            Some(format!("stored: {bytes} bytes are not {FEWEST_BYTES} to {MOST_BYTES}"))
        } else if printed >= MOST_PRINTED {
            Some(format!("stored: {printed} bytes of lines are not below {MOST_PRINTED}"))
        } else {
            None
        }
    }

    pub fn save(&self, file: &Path) -> io::Result<String> {
        if let Some(fault) = self.fault() {
            return Err(io::Error::new(io::ErrorKind::Other, fault));
        }
        fs::write(file, &self.script)?;
        let (reached, all) = self.coverage.reached_of_tables();
        let (stops, all_stops) = self.coverage.reached_stops();
        let (printed, lines) = self.printed();
        Ok(format!(
            "stored: {} cases, {} entries, {} bytes, {lines} lines of {printed} bytes, \
             rows {reached} of {all}, stop rows {stops} of {all_stops}",
            self.cases,
            count_entries(&self.script),
            self.script.len()
        ))
    }
}

/// The print of the desk that an entry is at; a write and the count are at none.
fn print_of(entry: &Entry) -> Option<u8> {
    match entry {
        Entry::Write { .. } | Entry::Count(_) | Entry::PrintClerk | Entry::PrintLine => None,
        entry if is_at_clerk(entry) => Some(PRINT_CLERK),
        _ => Some(PRINT_LINE),
    }
}

/// Plays a case behind what was played before and gives it up to the last entry
/// that reaches a row for the first time, with a print behind each such entry and no
/// other; nothing where no entry does. Of the others those that change nothing are left
/// out: what is refused, a start of a desk that is as a start makes it. The session
/// behind it comes with it.
fn lean_case(coverage: &mut Coverage, before: &Session, case: &[u8]) -> (Option<Vec<u8>>, Session) {
    let (mut session, mut kept) = (before.clone(), before.clone());
    let (mut bytes, mut length) = (Vec::new(), 0);
    for step in steps(case) {
        let unplayed = session.clone();
        let (_, new) = coverage.step(&mut session, &step.entry);
        if new || session != unplayed {
            bytes.extend_from_slice(&step.bytes);
        }
        if new {
            bytes.extend(step.print.or(print_of(&step.entry)));
            length = bytes.len();
            kept = session.clone();
        }
    }
    bytes.truncate(length);
    ((length > 0).then_some(bytes), kept)
}

#[cfg(test)]
mod tests {
    use super::*;

    /// One test, as making the script takes some seconds without optimisation.
    #[test]
    fn the_stored_script_reaches_every_row_within_its_limits() {
        let stored = Stored::new();
        assert_eq!(stored.fault(), None);
        // Counted once more over the finished bytes, as `coverage` does it.
        let mut coverage = Coverage::new();
        coverage.play(&stored.script);
        assert!(coverage.complete(), "{:?}", coverage.missing());
        assert_eq!(coverage.reached_of_tables(), stored.coverage.reached_of_tables());
        assert_eq!(coverage.reached_stops().0, 1);
        assert!(stored.printed().0 < MOST_PRINTED);
        let mut last = String::new();
        play_script(&stored.script, |text| last = text.to_string());
        assert_eq!(last, format!("stop {}\n", count_entries(&stored.script)));
        assert_eq!(Stored::new().script, stored.script);
    }

    #[test]
    fn a_print_belongs_to_the_entry_before_it() {
        let start = crate::make::start_clerk(Default::default());
        let steps = steps(&[&start[..], &[PRINT_CLERK, 34, 0, PRINT_LINE]].concat());
        let prints: Vec<Option<u8>> = steps.iter().map(|step| step.print).collect();
        assert_eq!(prints, [Some(PRINT_CLERK), Some(PRINT_LINE)]);
    }
}
