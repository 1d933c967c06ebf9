//! STORY, "Words": what the event's end says to a step.

use super::ladder::End;
use super::scenes::{Event, Tag};
use crate::clerk;
use crate::codec::{Identifier, Refusal};
use crate::line;
use crate::meant::place_of;
use crate::outcome::{Notice, Outcome, GUARD, T1, T2, T3};
use crate::script::Session;

/// "A printed tag is the first byte of the identifier", "`#` and its two digits";
/// `#--` where there is none.
pub fn tag_text(identifier: &Option<Identifier>) -> String {
    identifier.map_or("#--".to_string(), |identifier| format!("#{:02}", identifier[0]))
}

/// A record without an identifier: "`#-- at P`".
fn placed_text(place: usize) -> String {
    format!("#-- at {place}")
}

fn tag_of_event(tag: Tag) -> String {
    match tag {
        Tag::Id(tag) => tag_text(&Some([tag; 16])),
        Tag::Nameless => tag_text(&None),
        Tag::At(place) => placed_text(place.into()),
    }
}

/// STORY, "Events", the column "Words of the cause".
pub fn cause(event: Event) -> Option<String> {
    let tag = event.tag().map_or(String::new(), tag_of_event);
    Some(match event {
        Event::Ask(_) => format!("{tag} ask: CCBS, can-keep 1"),
        Event::Accept(_) => format!("{tag} User A accepts"),
        Event::Cancel(_) => format!("{tag} User A cancels"),
        Event::ClerkFell(_) | Event::LineFell(_) => format!("{tag} the connection fell"),
        Event::Busy(line) => format!("line {line} is busy"),
        Event::Free(line) => format!("line {line} is free"),
        Event::Look(line) => format!("Look at line {line}"),
        Event::Alerted(_) => format!("{tag} the phone rings"),
        Event::Withdraw(_) => format!("{tag} the house withdraws"),
        Event::Stray(_) | Event::StrayCancel => "(no desk sent this)".to_string(),
        Event::ClerkHearsAt(Some(place)) | Event::LineHearsAt(Some(place)) => format!("the host names place {place}"),
        Event::ClerkHearsAt(None) | Event::LineHearsAt(None) => "the host names no place".to_string(),
        Event::ClerkHears | Event::LineHears | Event::ClerkTick => return None,
        Event::Clock(_) | Event::Records | Event::Say(_) => return None,
    })
}

/// A tick's words: "`tick: nothing is due`, or `tick: N expired`"; then "two rows for
/// each record that expired, from the oldest on: its tag, a blank and `X -> no
/// record`, X being its state before the tick; and `notice "failed"`".
pub fn of_tick(before: &Session, places: &[usize]) -> Vec<String> {
    let cause = match places.len() {
        0 => "tick: nothing is due".to_string(),
        expired => format!("tick: {expired} expired"),
    };
    let mut words = vec![cause];
    for place in places {
        let identifier = before.clerk.records.get(*place).and_then(|record| record.identifier);
        let state = state_at(before, End::Clerk, *place);
        words.push(format!("  {} {}", record_tag(*place, &identifier), state_word(state, NO_RECORD)));
        words.push(format!("  {}", notice_word(Notice::Failed)));
    }
    words
}

fn notice_word(notice: Notice) -> String {
    format!("notice \"{}\"", notice.name())
}

/// STORY, "Words of the refusal numbers".
fn refusal_words(refusal: Refusal) -> &'static str {
    match refusal {
        Refusal::BadBytes => "bytes that are no message",
        Refusal::OutOfRange => "a field is out of range",
        Refusal::NotForThisEnd => "a type for the other end",
        Refusal::IdentifierLive => "this identifier is live",
        Refusal::ClerkFull => "the clerk's desk is full",
        Refusal::NoRecord => "no record of this request",
        Refusal::NoRow => "no row for it in this state",
        Refusal::BadCarrier => "carrier not allowed",
        Refusal::TimerNotRunning => "that timer isn't running",
        Refusal::NoSuchLine => "no such line",
        Refusal::NothingToOffer => "nothing to offer",
        Refusal::NoRoom => "no room in the buffer",
    }
}

const TIMERS: [(u32, &str); 4] = [(T1, "T1"), (T2, "T2"), (T3, "T3"), (GUARD, "guard")];

/// "`stops` and then, for each of T1, T2, T3 and the guard in this order that
/// is stopped, a blank and `T1`, `T2`, `T3` or `guard`; no row if none is".
fn timers(verb: &str, sum: u32) -> Option<String> {
    let names: Vec<&str> = TIMERS.iter().filter(|(timer, _)| sum & timer != 0).map(|(_, name)| *name).collect();
    (!names.is_empty()).then(|| format!("{verb} {}", names.join(" ")))
}

/// Words 2 to 6, without the two blanks.
fn outcome_words(outcome: &Outcome) -> Vec<String> {
    let mut words = Vec::new();
    if let Some(refusal) = outcome.refusal {
        words.push(format!("refused with {}", refusal.number()));
        words.push(refusal_words(refusal).to_string());
    }
    words.extend(timers("stops", outcome.stops));
    words.extend(timers("starts", outcome.starts));
    words.extend(outcome.notice.map(notice_word));
    words.extend(outcome.clear.then(|| "clear the call".to_string()));
    words
}

/// "`X -> Y` where the state X before the step and Y after it differ, `still X`
/// where they are the same"; "States are compared by their printed words."
fn state_word(before: &str, after: &str) -> String {
    if before == after {
        return format!("still {after}");
    }
    format!("{before} -> {after}")
}

/// Whose step it was: a request by its identifier, or a record by its place, with
/// its states before and after.
pub struct About {
    pub nameless_at: Option<usize>,
    pub before: &'static str,
    pub after: &'static str,
}

/// A step's words: the cause "from the cell's first character on; all others
/// below have two blanks in front of them". A record without an identifier is named
/// where the event doesn't name its place.
pub fn of_step(event: Event, outcome: &Outcome, about: Option<About>) -> Vec<String> {
    let mut below = outcome_words(outcome);
    if let Some(About { nameless_at, before, after }) = about {
        let place = nameless_at.filter(|_| event.place().is_none());
        below.extend(place.map(|place| format!("about {}", placed_text(place))));
        below.push(state_word(before, after));
    }
    cause(event).into_iter().chain(below.into_iter().map(|word| format!("  {word}"))).collect()
}

fn line_state(record: &line::Record) -> &'static str {
    match record.state {
        line::State::Await if record.suspended => "Await, suspended",
        state => state.name(),
    }
}

const NO_RECORD: &str = "no record";

/// The state of the record at a place of one of the desks.
fn state_at(desks: &Session, end: End, place: usize) -> &'static str {
    let found = match end {
        End::Clerk => desks.clerk.records.get(place).map(|r| r.state.name()),
        End::Line => desks.line.records.get(place).map(line_state),
    };
    found.unwrap_or(NO_RECORD)
}

/// The state of a request at one of the desks.
fn state(desks: &Session, end: End, identifier: &Identifier) -> &'static str {
    let place = match end {
        End::Clerk => place_of(&desks.clerk.records, identifier),
        End::Line => place_of(&desks.line.records, identifier),
    };
    place.map_or(NO_RECORD, |place| state_at(desks, end, place))
}

pub fn about_identifier(before: &Session, after: &Session, end: End, identifier: &Identifier) -> About {
    About { nameless_at: None, before: state(before, end, identifier), after: state(after, end, identifier) }
}

/// A record that the step stores had none before, one that it ends has none after.
pub fn about_place(before: &Session, after: &Session, end: End, place: usize) -> About {
    let count = |desks: &Session| match end {
        End::Clerk => desks.clerk.records.len(),
        End::Line => desks.line.records.len(),
    };
    let ended = count(after) < count(before);
    let state_after = if ended { NO_RECORD } else { state_at(after, end, place) };
    About { nameless_at: Some(place), before: state_at(before, end, place), after: state_after }
}

/// "A record is its tag, a blank, its state as above, and `, keep 1`,
/// `, keep 0`, or `, keep -` where the choice is empty"; "A record that is
/// marked "connection down" ends with `, down`".
fn record_text(tag: &str, state: &str, keep: Option<bool>, down: bool) -> String {
    let keep = match keep {
        Some(true) => "1",
        Some(false) => "0",
        None => "-",
    };
    let down = if down { ", down" } else { "" };
    format!("{tag} {state}, keep {keep}{down}")
}

/// The tag of a record, or `#-- at P`.
fn record_tag(place: usize, identifier: &Option<Identifier>) -> String {
    match identifier {
        Some(_) => tag_text(identifier),
        None => placed_text(place),
    }
}

pub fn clerk_record((place, record): (usize, &clerk::Record)) -> String {
    let tag = record_tag(place, &record.identifier);
    record_text(&tag, record.state.name(), record.keep, record.down)
}

pub fn line_record((place, record): (usize, &line::Record)) -> String {
    let tag = record_tag(place, &record.identifier);
    record_text(&tag, line_state(record), Some(record.keep), record.down)
}

#[cfg(test)]
mod tests {
    use super::*;

    #[test]
    fn all_words_of_a_step_in_their_order() {
        let mut outcome = Outcome::refused(Refusal::NoRow).stopping(GUARD + T1 + T3).starting(T2);
        outcome = outcome.telling(Notice::BusyAgainEnded).clearing(true);
        let expected = [
            "#07 User A accepts",
            "  refused with 7",
            "  no row for it in this state",
            "  stops T1 T3 guard",
            "  starts T2",
            "  notice \"busy again, ended\"",
            "  clear the call",
            "  Ringout -> no record",
        ];
        let about = About { nameless_at: None, before: "Ringout", after: "no record" };
        assert_eq!(of_step(Event::Accept(Tag::Id(7)), &outcome, Some(about)), expected);
        assert!(expected.iter().all(|word| word.len() <= 29));
    }

    #[test]
    fn the_fall_is_told_alike_at_both_ends() {
        let expected = ["#34 the connection fell", "  still Invoked"];
        let tag = Tag::Id(34);
        for (event, end) in [(Event::ClerkFell(tag), End::Clerk), (Event::LineFell(tag), End::Line)] {
            assert_eq!(event.end(), end);
            let about = About { nameless_at: None, before: "Invoked", after: "Invoked" };
            assert_eq!(of_step(event, &Outcome::done(), Some(about)), expected);
        }
    }

    #[test]
    fn a_marked_record_ends_with_down() {
        let text = |keep, down| record_text("#34", "Invoked", keep, down);
        assert_eq!(text(Some(true), true), "#34 Invoked, keep 1, down");
        assert_eq!(text(Some(true), false), "#34 Invoked, keep 1");
        assert_eq!(text(Some(false), true), "#34 Invoked, keep 0, down");
        assert_eq!(text(None, false), "#34 Invoked, keep -");
    }

    /// "W being document 01's words", and the tenth notice's.
    #[test]
    fn the_words_of_the_notices() {
        let words = |notice| outcome_words(&Outcome::done().telling(notice));
        assert_eq!(words(Notice::BusyAgainKept), ["notice \"busy again, kept\""]);
        assert_eq!(words(Notice::NowWaitingForFree), ["notice \"busy again, now waiting for free\""]);
    }

    #[test]
    fn a_record_without_an_identifier_is_told_by_its_place() {
        let words = |event, nameless_at| {
            let about = About { nameless_at, before: "Await", after: "Alert" };
            of_step(event, &Outcome::done(), Some(about))
        };
        assert_eq!(words(Event::LineHears, Some(1)), ["  about #-- at 1", "  Await -> Alert"]);
        assert_eq!(words(Event::LineHearsAt(Some(1)), Some(1)), ["the host names place 1", "  Await -> Alert"]);
        assert_eq!(words(Event::LineHearsAt(None), None), ["the host names no place", "  Await -> Alert"]);
        assert_eq!(words(Event::Alerted(Tag::At(1)), Some(1)), ["#-- at 1 the phone rings", "  Await -> Alert"]);
        assert_eq!(words(Event::Ask(Tag::Nameless), Some(1))[0], "#-- ask: CCBS, can-keep 1");
        assert_eq!(words(Event::Ask(Tag::Nameless), Some(1))[1], "  about #-- at 1");
        assert_eq!(record_tag(3, &None), "#-- at 3");
        assert_eq!(record_tag(3, &Some([34; 16])), "#34");
    }

    #[test]
    fn a_tick_tells_each_record_that_expired() {
        let mut desks = Session::default();
        assert_eq!(of_tick(&desks, &[]), ["tick: nothing is due"]);
        let number_b = vec![1];
        for identifier in [Some([7; 16]), None, Some([34; 16])] {
            let (number_a, number_b) = (vec![], number_b.clone());
            let kind = crate::outcome::Kind::Ccbs;
            let ask = clerk::Ask { identifier, kind, number_a, number_b, service: 0, can_keep: true, preference: 0 };
            desks.clerk.ask(&ask, 0);
        }
        desks.clerk.records[2].state = clerk::State::Suspended;
        let expected = [
            "tick: 3 expired",
            "  #07 Wait-Ack -> no record",
            "  notice \"failed\"",
            "  #-- at 1 Wait-Ack -> no record",
            "  notice \"failed\"",
            "  #34 Suspended -> no record",
            "  notice \"failed\"",
        ];
        assert_eq!(of_tick(&desks, &[0, 1, 2]), expected);
    }

    #[test]
    fn a_hearing_has_no_cause() {
        let about = About { nameless_at: None, before: "Alert", after: "Alert" };
        assert_eq!(of_step(Event::LineHears, &Outcome::done(), Some(about)), ["  still Alert"]);
        assert!(of_step(Event::ClerkHears, &Outcome::done(), None).is_empty());
    }
}
