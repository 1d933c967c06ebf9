//! The story of STORY.md: six scenes, each on two desks of its own with two
//! wires between them, printed as ladders.

mod ladder;
mod scenes;
mod words;

use self::ladder::End;
use self::scenes::{Event, House, Place, Scene, Tag};
use self::words::About;
use crate::clerk::Ask;
use crate::codec::{message_bytes, read_message, Carrier, Content, Identifier, Message};
use crate::line::{Act, Line, LineDesk};
use crate::meant::Name;
use crate::outcome::{message, Kind, Outcome};
use crate::script::{Session, MOST_ROOM};
use std::collections::VecDeque;

/// "sixteen bytes, each of the tag's value"; none for the tag `--`.
fn identifier(tag: Tag) -> Option<Identifier> {
    match tag {
        Tag::Id(tag) => Some([tag; 16]),
        Tag::Nameless | Tag::At(_) => None,
    }
}

/// "255 always is" absent.
const NO_PLACE: usize = 255;

fn place_number(place: Place) -> usize {
    place.map_or(NO_PLACE, usize::from)
}

/// How an act or a timer report names its record.
fn name(tag: Tag) -> Name {
    let place = match tag {
        Tag::At(place) => Some(place),
        _ => None,
    };
    Name { identifier: identifier(tag), place: place_number(place) }
}

fn digits(text: &str) -> Vec<u8> {
    text.bytes().map(|b| b.wrapping_sub(b'0')).collect()
}

/// The data of a tag; None for a tag that is never asked for.
fn ask_of(tag: Tag, preference: u32) -> Option<Ask> {
    let request = scenes::REQUESTS.iter().find(|r| r.tag == tag)?;
    Some(Ask {
        identifier: identifier(tag),
        kind: Kind::Ccbs,
        number_a: digits(request.number_a),
        number_b: digits(request.number_b),
        service: request.service,
        can_keep: true,
        preference,
    })
}

/// "both kinds allowed on both; it keeps requests or not as the scene says, and
/// does not retain connections by default". The wrong end "is started with
/// "does not keep requests"".
fn line_desk(house: House) -> LineDesk {
    let line = |text: &&str| Line { digits: digits(text), allows_ccbs: true, allows_ccnr: true, busy: false };
    let lines = scenes::LINES.iter().map(line).collect();
    LineDesk::start(lines, house == House::Keeps, false).unwrap_or_default()
}

/// What a scene is played on. The wires hold bytes. The count of both desks is "what
/// the clock shows, in seconds since midnight"; the clerk's desk starts "with 20, 900,
/// 3600 and 20 seconds", as any desk does that was never started.
struct Stage {
    desks: Session,
    to_clerk: VecDeque<Vec<u8>>,
    to_line: VecDeque<Vec<u8>>,
    preference: u32,
    house: House,
}

impl Stage {
    fn of(scene: &Scene) -> Stage {
        Stage {
            desks: Session { line: line_desk(scene.house), count: scenes::BEGIN, ..Session::default() },
            to_clerk: VecDeque::new(),
            to_line: VecDeque::new(),
            preference: scene.preference,
            house: scene.house,
        }
    }

    fn wire_to(&mut self, end: End) -> &mut VecDeque<Vec<u8>> {
        match end {
            End::Clerk => &mut self.to_clerk,
            End::Line => &mut self.to_line,
        }
    }

    /// Plays an event and gives the lines that it prints.
    fn play(&mut self, event: Event) -> Vec<String> {
        self.desks.count += u32::from(event.takes_time());
        match event {
            Event::Clock(time) => {
                self.desks.count = time;
                Vec::new()
            }
            Event::ClerkTick => self.tick(event),
            Event::Say(number) => scenes::narration(number).into_iter().map(str::to_string).collect(),
            Event::Records => self.records(),
            // "a result (type 3) with keep 1 in Connect and the identifier of tag T".
            Event::Stray(tag) => {
                self.stray(event, message(Carrier::Connect, identifier(tag), Content::RequestResult { keep: 1 }))
            }
            // "a ccCancel (type 10) in Release Complete without an identifier".
            Event::StrayCancel => self.stray(event, message(Carrier::ReleaseComplete, None, Content::CcCancel)),
            Event::ClerkHears | Event::LineHears | Event::ClerkHearsAt(_) | Event::LineHearsAt(_) => {
                match self.wire_to(event.end()).pop_front() {
                    Some(bytes) => self.hear(event, &bytes),
                    // "no desk steps; one row, whose middle is a name row with
                    // `nothing is under way` in place of the name (no tag)".
                    None => self.block(event, &[], &[ladder::name_row(event.end(), "nothing is under way")]),
                }
            }
            _ => self.step(event),
        }
    }

    fn block(&self, event: Event, words: &[String], middle: &[String]) -> Vec<String> {
        ladder::block(self.desks.count, event.end(), words, middle)
    }

    /// "a tick, with room for its messages"; "every message that it sent, in their
    /// order". A refused one, which no scene has, would print nothing.
    fn tick(&mut self, event: Event) -> Vec<String> {
        let before = self.desks.clone();
        let mut buffer = [0; MOST_ROOM];
        let ticked = match self.desks.clerk.tick(self.desks.count, &mut buffer) {
            Ok(ticked) => ticked,
            Err(_) => return Vec::new(),
        };
        let mut middle = Vec::new();
        let mut rest = buffer.get(..ticked.length).unwrap_or(&[]);
        while let Ok((sent, behind)) = read_message(rest) {
            self.to_line.push_back(message_bytes(&sent));
            middle.extend(ladder::sent(End::Clerk, &sent));
            rest = behind;
        }
        self.block(event, &words::of_tick(&before, &ticked.places), &middle)
    }

    fn records(&self) -> Vec<String> {
        let clerk = self.desks.clerk.records.iter().enumerate().map(words::clerk_record).collect();
        let line = self.desks.line.records.iter().enumerate().map(words::line_record).collect();
        ladder::records(clerk, line)
    }

    /// "no desk steps: .. goes behind the last message of the wire to the clerk".
    fn stray(&mut self, event: Event, stray: Message) -> Vec<String> {
        self.to_clerk.push_back(message_bytes(&stray));
        self.block(event, &words::of_step(event, &Outcome::done(), None), &ladder::stray(&stray))
    }

    /// The bytes go to the desk: read, and stepped with. Bytes that are refused
    /// hold no message, so that none is shown and no request is named.
    fn hear(&mut self, event: Event, bytes: &[u8]) -> Vec<String> {
        let before = self.desks.clone();
        match read_message(bytes) {
            Ok((heard, _)) => {
                let outcome = self.take(event, &heard);
                self.tell(event, &before, Some(&heard), outcome)
            }
            Err(fault) => self.tell(event, &before, None, Outcome::refused(fault.refusal)),
        }
    }

    /// "The host's word on User A is always "not busy"." It names a place in the
    /// events that say so.
    fn take(&mut self, event: Event, heard: &Message) -> Outcome {
        let place = place_number(event.place());
        match event.end() {
            End::Clerk => self.desks.clerk.take(heard, place, false, self.desks.count),
            End::Line => self.desks.line.take(heard, place, self.desks.count),
        }
    }

    fn step(&mut self, event: Event) -> Vec<String> {
        let before = self.desks.clone();
        match self.input(event) {
            Some(outcome) => self.tell(event, &before, None, outcome),
            None => Vec::new(),
        }
    }

    /// STORY, "Events", the column "Input"; None where the event is no input
    /// of this kind.
    fn input(&mut self, event: Event) -> Option<Outcome> {
        let Session { clerk, line, count } = &mut self.desks;
        Some(match event {
            Event::Ask(tag) => clerk.ask(&ask_of(tag, self.preference)?, *count),
            Event::Accept(tag) => clerk.accept(&name(tag)),
            Event::Cancel(tag) => clerk.user_cancels(&name(tag)),
            Event::ClerkFell(tag) => clerk.connection_fell(&name(tag)),
            Event::Busy(number) => line.report(&digits(number), true),
            Event::Free(number) => line.report(&digits(number), false),
            Event::Look(number) => line.look(&digits(number)),
            Event::Alerted(tag) => line.act(&name(tag), Act::Alerted),
            Event::Withdraw(tag) => line.act(&name(tag), Act::Cancel),
            Event::LineFell(tag) => line.connection_fell(&name(tag)),
            Event::ClerkHears | Event::LineHears | Event::ClerkHearsAt(_) | Event::LineHearsAt(_) => return None,
            Event::Stray(_) | Event::StrayCancel | Event::ClerkTick => return None,
            Event::Clock(_) | Event::Records | Event::Say(_) => return None,
        })
    }

    /// The wrong end: "in each result (type 3) that it sends the field keep is
    /// made 1 before the message goes onto the wire. Nothing else is altered".
    fn as_put_on_wire(&self, end: End, sent: Message) -> Message {
        match sent.content {
            Content::RequestResult { .. } if end == End::Line && self.house == House::WrongEnd => {
                Message { content: Content::RequestResult { keep: 1 }, ..sent }
            }
            _ => sent,
        }
    }

    /// Puts what the step sends onto the wire to the other end, and gives the
    /// step's block.
    fn tell(&mut self, event: Event, before: &Session, heard: Option<&Message>, outcome: Outcome) -> Vec<String> {
        let end = event.end();
        let sent = outcome.message.clone().map(|sent| self.as_put_on_wire(end, sent));
        if let Some(sent) = &sent {
            self.wire_to(end.other()).push_back(message_bytes(sent));
        }
        let about = self.about(event, before, heard, &outcome);
        let mut middle = Vec::new();
        middle.extend(heard.into_iter().flat_map(|m| ladder::arrived(end, m)));
        middle.extend(sent.iter().flat_map(|m| ladder::sent(end, m)));
        self.block(event, &words::of_step(event, &outcome, about), &middle)
    }

    /// "The step's request is the event's tag; for a hearing the identifier of the
    /// message that arrived; for `look` that of the message that is sent, and no row
    /// 7 if none is sent. .. Without an identifier it is the record that the outcome
    /// tells the place of; where it tells none, the record at the place that the
    /// event names; no row 7 if there is neither."
    fn about(&self, event: Event, before: &Session, heard: Option<&Message>, outcome: &Outcome) -> Option<About> {
        let end = event.end();
        let identifier = match event {
            Event::Look(_) => outcome.message.as_ref()?.identifier,
            Event::Busy(_) | Event::Free(_) => return None,
            _ => heard.map_or_else(|| event.tag().and_then(identifier), |heard| heard.identifier),
        };
        if let Some(identifier) = identifier {
            return Some(words::about_identifier(before, &self.desks, end, &identifier));
        }
        let place = outcome.at.or_else(|| event.place().map(usize::from))?;
        Some(words::about_place(before, &self.desks, end, place))
    }
}

/// STORY, "A scene", 1 to 6.
fn opening_lines(number: usize, scene: &Scene) -> Vec<String> {
    let rule = "=".repeat(109);
    let title = format!("Scene {number}. {}", scene.title);
    vec![rule.clone(), title, rule, scene.opening.to_string(), String::new(), ladder::head(), ladder::dashes()]
}

/// STORY, "A scene", 7 to 11 behind the opening.
fn scene_lines(number: usize, scene: &Scene) -> Vec<String> {
    let mut stage = Stage::of(scene);
    let mut lines = opening_lines(number, scene);
    for event in scene.prelude {
        stage.play(*event);
    }
    for event in scene.events() {
        lines.extend(stage.play(event));
    }
    lines.push(ladder::dashes());
    lines.extend(scene.lesson.iter().map(|line| line.to_string()));
    lines.push(String::new());
    lines
}

/// The whole story; "each line ends with one newline character".
pub fn text() -> String {
    let mut lines: Vec<String> = scenes::BEFORE.iter().map(|line| line.to_string()).collect();
    for (place, scene) in scenes::SCENES.iter().enumerate() {
        lines.extend(scene_lines(place + 1, scene));
    }
    lines.iter().map(|line| format!("{line}\n")).collect()
}

#[cfg(test)]
mod tests {
    use super::*;

    #[test]
    fn plain_ascii_in_lines_of_at_most_109_without_a_blank_at_the_end() {
        let text = text();
        assert!(text.bytes().all(|b| b == b'\n' || (b' '..=b'~').contains(&b)));
        assert!(text.ends_with("\n\n") && !text.ends_with("\n\n\n"));
        for line in text.lines() {
            assert!(line.len() <= 109 && !line.ends_with(' '), "{line}");
        }
    }

    /// "no text of a left or right cell is longer than 29 characters and none of
    /// the middle longer than 38, so nothing is ever cut".
    #[test]
    fn every_row_has_its_bars_in_their_places() {
        for scene in &scenes::SCENES {
            let mut stage = Stage::of(scene);
            for event in scene.prelude.iter().copied().chain(scene.events()) {
                let rows = stage.play(event);
                assert_eq!(rows.is_empty(), matches!(event, Event::Clock(_)), "{event:?}");
                let is_row = |row: &String| row.get(39..40) == Some("|") && row.get(78..79) == Some("|");
                let is_say = matches!(event, Event::Say(_));
                assert_eq!(rows.iter().all(is_row), !is_say, "{event:?}");
                for (place, row) in rows.iter().enumerate().filter(|_| !is_say) {
                    let timed = place == 0 && event.takes_time();
                    assert_eq!(row.starts_with("18:"), timed, "{row}");
                    assert!(timed || row.starts_with("         "), "{row}");
                    assert!(row[8..9] == *" " && row[..39].ends_with(' ') && row.len() <= 80 + 29, "{row}");
                    assert!(row.len() == 79 || row[79..].starts_with(' '), "{row}");
                }
            }
        }
    }

    /// "Looks that have nothing to offer are left out of the scenes", so those
    /// that are left out have nothing to offer; "No scene has more than four
    /// messages on one wire."
    #[test]
    fn no_look_is_left_out_that_has_something_to_offer() {
        for scene in &scenes::SCENES {
            let mut stage = Stage::of(scene);
            let events: Vec<Event> = scene.prelude.iter().copied().chain(scene.events()).collect();
            for (place, event) in events.iter().enumerate() {
                stage.play(*event);
                assert!(stage.to_clerk.len() <= 4 && stage.to_line.len() <= 4);
                let next = events.get(place + 1).copied();
                for line in scenes::LINES.into_iter().filter(|l| next != Some(Event::Look(l))) {
                    let offered = stage.desks.line.clone().look(&digits(line));
                    assert_eq!(offered.refusal.map(|r| r.number()), Some(11), "{event:?} {line}");
                }
            }
        }
    }

    #[test]
    fn the_wrong_end_tells_keep_1_and_stores_keep_0() {
        let [wrong, right, ..] = scenes::SCENES;
        let first_records = |scene: &Scene| {
            let lines = scene_lines(1, scene);
            lines.into_iter().find(|line| line.contains("(records)"))
        };
        let middle = "              (records)";
        let expected = ladder::row("", "#34 Invoked, keep 1", middle, "#34 Invoked, keep 0");
        assert_eq!(first_records(&wrong), Some(expected));
        let expected = ladder::row("", "#34 Invoked, keep 1", middle, "#34 Invoked, keep 1");
        assert_eq!(first_records(&right), Some(expected));
    }

    /// Scene 1: at 18:10:01 nothing is due, at 18:20:01 T2 is, and the line's end hears
    /// of a request that it has not.
    #[test]
    fn the_ticks_of_scene_1() {
        let lines = scene_lines(1, &scenes::SCENES[0]);
        let first = lines.iter().position(|line| line.starts_with("18:10:01")).unwrap();
        let expected = [
            "18:10:01 tick: nothing is due          |                                      |",
            "18:20:01 tick: 1 expired               | #34 ccCancel                         |",
            "           #34 Invoked -> no record    |o---[Release Complete]---...          |",
            "           notice \"failed\"             |                                      |",
            "18:20:02                               |                         #34 ccCancel |   refused with 6",
        ];
        assert_eq!(lines[first..first + 5], expected);
    }

    #[test]
    fn six_scenes_each_with_its_title() {
        let text = text();
        let titles: Vec<&str> = text.lines().filter(|line| line.starts_with("Scene ")).collect();
        let expected = [
            "Scene 1. The evening as it went wrong",
            "Scene 2. The evening as it goes now",
            "Scene 3. A cancel meets a ring-back",
            "Scene 4. A stray reply",
            "Scene 5. The connection falls",
            "Scene 6. Two callers without a name",
        ];
        assert_eq!(titles, expected);
        assert!(text.starts_with("TOLLHERRING: THREE LESSONS IN SIX SCENES\n"));
    }

    /// Each line of the narration is told, and none that there is not.
    #[test]
    fn every_line_of_the_narration_is_told() {
        let mut told: Vec<usize> = Vec::new();
        for event in scenes::SCENES.iter().flat_map(|scene| scene.events()) {
            if let Event::Say(number) = event {
                assert!(scenes::narration(number).is_some(), "{number}");
                told.push(number);
            }
        }
        told.sort();
        told.dedup();
        assert_eq!(told, (1..=22).collect::<Vec<_>>());
        assert_eq!(scenes::narration(23), None);
    }

    /// Scene 5: the mark goes up at the house's end, then at the clerk's, and
    /// goes with the record.
    #[test]
    fn the_marks_of_scene_5() {
        let [.., falls, _] = scenes::SCENES;
        let lines = scene_lines(5, &falls);
        let records: Vec<&String> = lines.iter().filter(|line| line.contains("(records)")).collect();
        let row = |left, right| ladder::row("", left, "              (records)", right);
        let expected = [
            row("#34 Invoked, keep 1", "#34 Invoked, keep 1"),
            row("#34 Invoked, keep 1", "#34 Invoked, keep 1, down"),
            row("#34 Ringout, keep 1, down", "#34 Alert, keep 1, down"),
            row("no record", "no record"),
        ];
        assert_eq!(records, expected.iter().collect::<Vec<_>>());
    }

    /// Scene 6: no place keeps the stray ccCancel off, a wrong one ends the second
    /// request at the clerk's desk alone; both are let go in the end.
    #[test]
    fn the_records_of_scene_6() {
        let [.., nameless] = scenes::SCENES;
        let mut stage = Stage::of(&nameless);
        let mut counts = Vec::new();
        for event in nameless.prelude.iter().copied().chain(nameless.events()) {
            stage.play(event);
            if matches!(event, Event::StrayCancel | Event::Records) {
                counts.push((stage.desks.clerk.records.len(), stage.desks.line.records.len()));
            }
        }
        assert_eq!(counts, [(2, 2), (2, 2), (2, 2), (2, 2), (1, 2), (0, 0)]);
        assert!(stage.to_clerk.is_empty() && stage.to_line.is_empty());
        let lines = scene_lines(6, &nameless);
        let told = |text: &str| lines.iter().filter(|line| line.contains(text)).count();
        assert_eq!((told("the host names no place"), told("refused with 6"), told("notice \"failed\"")), (2, 2, 1));
        // No message and no record of this scene has a tag.
        assert_eq!(told("#34") + told("#12"), 0);
    }

    #[test]
    fn a_wire_with_nothing_on_it() {
        let mut stage = Stage::of(&scenes::SCENES[0]);
        let left = ladder::row("18:00:01", "", " nothing is under way", "");
        assert_eq!(stage.play(Event::ClerkHears), [left]);
        let right = ladder::row("18:00:02", "", "                 nothing is under way ", "");
        assert_eq!(stage.play(Event::LineHears), [right]);
    }
}
