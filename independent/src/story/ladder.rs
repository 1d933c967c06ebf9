//! STORY, "Layout of the ladder": rows of three cells.

use super::words::tag_text;
use crate::codec::{Carrier, Message};

/// Whose cell: the clerk's is the left one, the line's the right one.
#[derive(Clone, Copy, PartialEq, Eq, Debug)]
pub enum End {
    Clerk,
    Line,
}

impl End {
    pub fn other(self) -> End {
        match self {
            End::Clerk => End::Line,
            End::Line => End::Clerk,
        }
    }

    /// The head "where it arrives".
    fn arrival(self) -> char {
        match self {
            End::Clerk => '<',
            End::Line => '>',
        }
    }
}

/// "the clock cell, padded with blanks to 9 characters; the left cell, padded with
/// blanks to 30 characters; `|`; the middle cell, padded with blanks to 38 characters;
/// `|`; and, only if the right cell is not empty, one blank and the right cell".
pub fn row(clock: &str, left: &str, middle: &str, right: &str) -> String {
    let blank = if right.is_empty() { "" } else { " " };
    format!("{clock:<9}{left:<30}|{middle:<38}|{blank}{right}")
}

/// "39, 38 and 30 dashes".
pub fn dashes() -> String {
    format!("{0:-<39}+{0:-<38}+{0:-<30}", "")
}

/// The first line of the head; "`THE WIRES` has fifteen blanks in front of it".
pub fn head() -> String {
    row("CLOCK", "CLERK'S DESK (User A)", &format!("{:15}THE WIRES", ""), "LINE DESK (User B)")
}

/// Seconds since midnight as `HH:MM:SS`.
fn clock_text(clock: u32) -> String {
    format!("{:02}:{:02}:{:02}", clock / 3600, clock / 60 % 60, clock % 60)
}

/// "On the left: one blank, then the name. On the right: blanks, the name, one
/// blank, together 38 characters."
pub fn name_row(side: End, name: &str) -> String {
    match side {
        End::Clerk => format!(" {name}"),
        End::Line => format!("{name:>37} "),
    }
}

/// "The 24 are the carrier in brackets, .. with dashes on both sides; where the
/// number of dashes is odd, the one more is on the right."
fn arrow_row(side: End, head: char, carrier: Carrier) -> String {
    let way = format!("{:-^24}", format!("[{}]", carrier.name()));
    match side {
        End::Clerk => format!("{head}{way}..."),
        End::Line => format!("{:10}...{way}{head}", ""),
    }
}

/// "A message takes two rows, its name and its arrow."
fn message_rows(side: End, head: char, message: &Message) -> [String; 2] {
    let name = format!("{} {}", tag_text(&message.identifier), message.content.name());
    [name_row(side, &name), arrow_row(side, head, message.carrier)]
}

pub fn sent(side: End, message: &Message) -> [String; 2] {
    message_rows(side, 'o', message)
}

pub fn arrived(side: End, message: &Message) -> [String; 2] {
    message_rows(side, side.arrival(), message)
}

/// "a stray one, on the right".
pub fn stray(message: &Message) -> [String; 2] {
    message_rows(End::Line, '?', message)
}

fn cell(list: &[String], place: usize) -> &str {
    list.get(place).map_or("", String::as_str)
}

/// "Two lists are filled independently from the top, the words of the event's
/// end and the middle; the block has as many rows as the longer list; where a
/// list has ended its cell is empty. The other end's cell is empty in all rows."; "The
/// clock cell has the clock .. in the first row of a block, and is empty in all other
/// rows."
pub fn block(clock: u32, end: End, words: &[String], middle: &[String]) -> Vec<String> {
    let clock = [clock_text(clock)];
    match end {
        End::Clerk => rows(&clock, words, middle, &[]),
        End::Line => rows(&clock, &[], middle, words),
    }
}

fn rows(clock: &[String], left: &[String], middle: &[String], right: &[String]) -> Vec<String> {
    let count = left.len().max(middle.len()).max(right.len());
    (0..count).map(|n| row(cell(clock, n), cell(left, n), cell(middle, n), cell(right, n))).collect()
}

/// "The middle of the first row is fourteen blanks and `(records)`; of the
/// others it is empty"; "`no record` in the first row where a desk has none". It is no
/// block, so that it has no clock.
pub fn records(mut clerk: Vec<String>, mut line: Vec<String>) -> Vec<String> {
    for list in [&mut clerk, &mut line] {
        if list.is_empty() {
            list.push("no record".to_string());
        }
    }
    rows(&[], &clerk, &[format!("{:14}(records)", "")], &line)
}

#[cfg(test)]
mod tests {
    use super::*;
    use crate::codec::{Content, REMOTE_USER_BUSY_AGAIN};
    use crate::outcome::message;

    #[test]
    fn two_messages_as_story_shows_them() {
        let busy_again = Content::RingoutError { error: REMOTE_USER_BUSY_AGAIN };
        let mut middle = sent(End::Clerk, &message(Carrier::Setup, [34; 16], Content::CcRingout)).to_vec();
        middle.extend(arrived(End::Clerk, &message(Carrier::ReleaseComplete, [34; 16], busy_again)));
        let words = ["#34 User A accepts".to_string(), "  stops T3".to_string()];
        let expected = [
            "18:00:12 #34 User A accepts            | #34 ccRingout                        |",
            "           stops T3                    |o--------[Setup]---------...          |",
            "                                       | #34 ringout error remoteUserBusyAgain|",
            "                                       |<---[Release Complete]---...          |",
        ];
        assert_eq!(block(64812, End::Clerk, &words, &middle), expected);
        let first = block(64814, End::Clerk, &[], &middle[2..]);
        assert_eq!(first[0], "18:00:14                               | #34 ringout error remoteUserBusyAgain|");
        assert_eq!(block(0, End::Line, &words, &[]).len(), 2);
    }

    #[test]
    fn the_right_side_is_38_characters_wide() {
        let cancel = message(Carrier::Facility, [7; 16], Content::CcCancel);
        let name = "                         #07 ccCancel ";
        assert_eq!(arrived(End::Line, &cancel), [name, "          ...-------[Facility]------->"]);
        assert_eq!(sent(End::Line, &cancel), [name, "          ...-------[Facility]-------o"]);
        assert_eq!(stray(&cancel), [name, "          ...-------[Facility]-------?"]);
        assert_eq!(name.len(), 38);
    }

    #[test]
    fn the_head_and_the_dashes() {
        let expected =
            "CLOCK    CLERK'S DESK (User A)         |               THE WIRES              | LINE DESK (User B)";
        assert_eq!(head(), expected);
        assert_eq!(dashes().len(), 109);
        assert_eq!(dashes().match_indices('+').map(|(place, _)| place).collect::<Vec<_>>(), [39, 78]);
    }

    #[test]
    fn records_of_desks_of_unlike_length() {
        assert_eq!(records(vec![], vec![]), [row("", "no record", "              (records)", "no record")]);
        let list = |texts: &[&str]| texts.iter().map(|t| t.to_string()).collect();
        let expected = [row("", "#34 a", "              (records)", "#34 c"), row("", "#12 b", "", "")];
        assert_eq!(records(list(&["#34 a", "#12 b"]), list(&["#34 c"])), expected);
    }
}
