//! Scripts that stop: "Where the script ends inside an entry, or an entry has a
//! code or a choice not listed here, the program prints `stop N`". A stop ends
//! the play, so each stands in a file of its own.

use super::{
    bytes_of, count, elements, look, report, spread_identifier, start_clerk, start_line, tick, to_clerk, to_line,
    with_choice, with_name, write_entry, AskEntry, Scripts, Who, ACCEPT, ACT, FELL_AT_CLERK, FELL_AT_LINE,
    GUARD_RUNS_OUT, PRINT_CLERK, PRINT_LINE, TICK_AT_CLERK, TICK_AT_LINE, TIMER, USER_A_FREE, USER_CANCELS,
};
use crate::codec::{Carrier, Content};
use crate::outcome::Kind;
use crate::script::MOST_ROOM;
use crate::timers::Lengths;

fn an_ask() -> AskEntry<'static> {
    AskEntry {
        identifier: Some(spread_identifier(1)),
        kind: Kind::Ccbs,
        number_a: &[1, 2],
        number_b: &[3],
        service: 300,
        can_keep: true,
        preference: 1,
    }
}

/// One good entry of each code whose record is named.
fn named(who: Who) -> Vec<Vec<u8>> {
    vec![
        with_name(ACCEPT, who),
        with_choice(USER_A_FREE, who, 0),
        with_name(USER_CANCELS, who),
        with_choice(TIMER, who, 1),
        with_name(FELL_AT_CLERK, who),
        with_choice(ACT, who, 1),
        with_name(GUARD_RUNS_OUT, who),
        with_name(FELL_AT_LINE, who),
    ]
}

/// One good entry of each code that has fields, with an identifier and without.
fn samples() -> Vec<Vec<u8>> {
    let identifier = Some(spread_identifier(1));
    let message = bytes_of(Carrier::ReleaseComplete, identifier, Content::CcCancel, &elements(&[], &[3], 0));
    let mut samples = vec![
        start_clerk(Lengths::default()),
        count(0x0403_0201),
        tick(TICK_AT_CLERK, 5),
        tick(TICK_AT_LINE, MOST_ROOM as u16),
        start_line(&[([1, 2], 3), ([3, 4], 1)], 3),
        an_ask().bytes(),
        AskEntry { identifier: None, ..an_ask() }.bytes(),
        to_clerk(true, 0, &message),
        to_clerk(false, 255, &[]),
        to_line(0, &message),
        to_line(255, &[]),
        report(&[1, 2], true),
        look(&[1, 2]),
        write_entry(&message, 1, 20),
    ];
    samples.extend(named(Who::seed(1)));
    samples.extend(named(Who::at(0)));
    samples
}

/// An identifier's length that is neither 0 nor 16, with more bytes behind it than
/// any entry takes.
fn bad_lengths() -> Vec<Vec<u8>> {
    let mut entries = Vec::new();
    let codes = [16, ACCEPT, USER_A_FREE, USER_CANCELS, TIMER, FELL_AT_CLERK, ACT, GUARD_RUNS_OUT, FELL_AT_LINE];
    for code in codes {
        for length in [1, 2, 8, 15, 17, 32, 128, 255] {
            entries.push([&[code, length][..], &[1; 40]].concat());
        }
    }
    entries
}

/// Entries with a choice that isn't listed.
fn bad_choices() -> Vec<Vec<u8>> {
    let mut entries = bad_lengths();
    for bad in [4, 5, 128, 255].iter() {
        entries.push(start_line(&[([1, 2], *bad)], 0));
        entries.push(start_line(&[([1, 2], 3)], *bad));
        entries.push(with_choice(TIMER, Who::seed(1), *bad));
        entries.push(with_choice(TIMER, Who::at(0), *bad));
        entries.push(with_choice(ACT, Who::seed(1), *bad));
        entries.push(with_choice(ACT, Who::at(0), *bad));
    }
    for bad in [2, 3, 128, 255].iter() {
        entries.push(with_choice(USER_A_FREE, Who::seed(1), *bad));
        entries.push(with_choice(USER_A_FREE, Who::at(255), *bad));
        entries.push(vec![17, *bad, 0, 0]);
        entries.push(vec![33, 1, 1, *bad]);
    }
    for room in [2049, 2050, 2304, 4096, 32768, 65535] {
        entries.push(tick(TICK_AT_CLERK, room));
        entries.push(tick(TICK_AT_LINE, room));
    }
    entries.push(with_choice(TIMER, Who::seed(1), 0));
    entries.push(with_choice(ACT, Who::seed(1), 0));
    for (place, values) in [(18, [0, 3, 255]), (26, [2, 3, 255])].iter() {
        // Place 18 of an ask's entry is the kind, place 26 the can-keep; sixteen
        // less without an identifier.
        for value in values.iter() {
            let mut entry = an_ask().bytes();
            entry[*place] = *value;
            entries.push(entry);
            let mut entry = AskEntry { identifier: None, ..an_ask() }.bytes();
            entry[*place - 16] = *value;
            entries.push(entry);
        }
    }
    entries
}

/// A stopping script: some entries that are played, the one that stops, and
/// more behind it that must not be played.
fn add(scripts: &mut Scripts, stopping: &[u8], behind: &[u8]) {
    let mut script = start_clerk(Lengths::default());
    script.extend(start_line(&[([1, 2], 3)], 1));
    script.extend(an_ask().bytes());
    script.extend([PRINT_CLERK, PRINT_LINE]);
    script.extend_from_slice(stopping);
    script.extend_from_slice(behind);
    scripts.add(&script);
    scripts.close();
}

/// The end of the stored script: a choice that isn't listed, and prints behind
/// it that must not be played.
pub fn ending() -> Vec<u8> {
    let mut ending = with_choice(ACT, Who::at(1), 4);
    ending.extend([PRINT_CLERK, PRINT_LINE]);
    ending
}

pub fn scripts() -> Scripts {
    let mut scripts = Scripts::default();
    add(&mut scripts, &[], &[]);
    for sample in samples() {
        for length in 1..sample.len() {
            // Inside an identifier one place is as good as another.
            if sample.len() < 17 || !(6..=15).contains(&length) {
                add(&mut scripts, sample.get(..length).unwrap_or(&sample), &[]);
            }
        }
    }
    for entry in bad_choices() {
        add(&mut scripts, &entry, &[PRINT_CLERK, PRINT_LINE]);
    }
    let unlisted = [0, 4, 15, 24, 31, 39, 40, 41, 47, 49, 50, 63, 66, 80, 127, 128, 129, 144, 160, 176, 192, 255];
    for code in unlisted.iter() {
        add(&mut scripts, &[*code], &[PRINT_CLERK, PRINT_LINE]);
    }
    scripts
}
