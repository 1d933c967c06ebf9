//! Tests of the random scripts.

use super::*;
use crate::meant::Name;
use crate::script::Entry;
use std::collections::BTreeSet;

#[test]
fn the_same_seed_gives_the_same_scripts() {
    let bytes = |seed| {
        let mut scripts = scripts(seed, 3000);
        scripts.close();
        scripts.full
    };
    assert_eq!(bytes(5), bytes(5));
    assert_ne!(bytes(5), bytes(6));
}

#[test]
fn every_entry_is_played_and_no_file_is_too_long() {
    let mut made = scripts(7, 20000);
    made.close();
    let entries: usize = made.full.iter().map(|script| crate::make::count_entries(script)).sum();
    assert_eq!(entries, 20000);
    assert!(made.full.iter().all(|script| script.len() < crate::make::LARGEST_SCRIPT));
}

#[test]
fn faults_at_many_places_are_told_by_both_desks_and_by_writes() {
    let mut places = [BTreeSet::new(), BTreeSet::new(), BTreeSet::new()];
    for script in scripts(11, 40000).into_cases() {
        let entry = match take_entry(&script) {
            Some((entry, _)) => entry,
            None => continue,
        };
        let whose = match entry {
            Entry::ToClerk { .. } => 0,
            Entry::ToLine { .. } => 1,
            _ => 2,
        };
        match Session::default().play(&entry) {
            Answer::Step { fault_place, .. } | Answer::Written { fault_place, .. } => {
                places[whose].extend(fault_place);
            }
            Answer::Ticked { .. } | Answer::Printed { .. } => {}
        }
    }
    // The longest message has 54 bytes, and the bytes can end behind 53.
    assert!(places.iter().all(|told| told.len() > 25 && told.iter().all(|place| *place < 54)), "{places:?}");
}

#[test]
fn in_calm_a_wire_delivers_in_order_or_drops() {
    let mut player = Player::new(3, 0);
    player.wire_to_line = (0..200).map(|n| Parcel { bytes: vec![n], origin: n.into() }).collect();
    let taken: Vec<Option<Parcel>> = (0..200).map(|_| player.take_off(true)).collect();
    assert!(player.wire_to_line.is_empty());
    assert!(taken.iter().any(Option::is_none));
    for (n, message) in taken.iter().enumerate() {
        assert!(message.is_none() || message.as_ref().map_or(false, |parcel| parcel.origin == n));
    }
}

#[test]
fn nothing_panics_on_any_bytes() {
    let mut dice = Dice { state: 99 };
    for _ in 0..20000 {
        let length = dice.below(400);
        let script: Vec<u8> = (0..length).map(|_| dice.byte() % 70).collect();
        crate::script::play_script(&script, |_| {});
    }
}
/// The host knows its records, whatever has happened at the desks.
#[test]
fn the_origins_stand_beside_the_records() {
    let mut player = Player::new(21, 30000);
    player.new_file();
    while player.left > 0 {
        player.turn();
        let (clerk, line) = (player.session.clerk.records.len(), player.session.line.records.len());
        assert_eq!((player.origins.count(false), player.origins.count(true)), (clerk, line));
    }
}

/// Records with an identifier and without, by place and by fit, are all met.
#[test]
fn steps_are_taken_with_and_without_identifiers() {
    let mut seen = BTreeSet::new();
    let mut session = Session::default();
    for entry in scripts(5, 40000).into_cases() {
        let bytes = match take_entry(&entry) {
            Some((Entry::ToLine { bytes, .. } | Entry::ToClerk { bytes, .. }, _)) => bytes,
            _ => {
                let parsed = take_entry(&entry);
                parsed.map(|(entry, _)| session.play(&entry));
                continue;
            }
        };
        let (parsed, _) = take_entry(&entry).unwrap();
        if let Answer::Step { outcome, .. } = session.play(&parsed) {
            let named = bytes.get(2) == Some(&16);
            seen.insert((bytes.first().copied(), named, outcome.at.is_some()));
        }
    }
    for type_number in 1..=12 {
        for named in [false, true] {
            assert!(seen.contains(&(Some(type_number), named, true)), "{type_number} {named}");
        }
    }
}

/// The count moves mostly on and by little, sometimes far, rarely back, and over the
/// wrap.
#[test]
fn the_count_moves_on_mostly() {
    let (mut little, mut far, mut back, mut wraps, mut all) = (0, 0, 0, 0, 0);
    let mut count = 0_u32;
    for case in scripts(8, 60000).into_cases() {
        if let Some((Entry::Count(next), _)) = take_entry(&case) {
            let step = next.wrapping_sub(count);
            all += 1;
            little += usize::from(step < 10);
            far += usize::from((1000..1 << 31).contains(&step));
            back += usize::from(step >= 1 << 31);
            wraps += usize::from(step < 1 << 31 && next < count);
            count = next;
        }
    }
    assert!(all > 2000 && little * 10 > all * 7, "{little} of {all}");
    assert!(far > 10 && back > 10 && back * 10 < all && wraps > 1, "{far} {back} {wraps}");
}

/// Ticks at both ends: with nothing due, with one and with several, in all rooms.
#[test]
fn ticks_expire_records_at_both_ends() {
    let mut seen = BTreeSet::new();
    let mut session = Session::default();
    for case in scripts(9, 80000).into_cases() {
        let (entry, _) = take_entry(&case).unwrap();
        if let (Answer::Ticked { told, buffer }, at_line) =
            (session.play(&entry), matches!(entry, Entry::TickAtLine { .. }))
        {
            let (expired, left) = match &told {
                Ok(ticked) => (ticked.places.len().min(2), (buffer.len() - ticked.length).min(1)),
                Err(_) => (12, buffer.len().min(1)),
            };
            seen.insert((at_line, expired, left));
        }
    }
    for at_line in [false, true] {
        for expired in [0, 1, 2, 12] {
            for left in [0, 1] {
                assert!(seen.contains(&(at_line, expired, left)), "{at_line} {expired} {left}");
            }
        }
    }
}

/// "the world's tick is the run of those reports": the reports by hand of those that
/// expired, from the oldest on, give the same desks and the same bytes.
#[test]
fn a_tick_is_the_run_of_its_reports() {
    let mut session = Session::default();
    let mut expired = [0, 0];
    for case in scripts(10, 60000).into_cases() {
        let (entry, _) = take_entry(&case).unwrap();
        let (mut by_hand, count) = (session.clone(), session.count);
        let (ticked, buffer) = match session.play(&entry) {
            Answer::Ticked { told: Ok(ticked), buffer } => (ticked, buffer),
            _ => continue,
        };
        let at_line = matches!(entry, Entry::TickAtLine { .. });
        let mut sent = Vec::new();
        for (gone, place) in ticked.places.iter().enumerate() {
            let name = Name { identifier: None, place: place - gone };
            let outcome = if at_line {
                by_hand.line.guard_runs_out(&name)
            } else {
                let timer = by_hand.clerk.records[name.place].due_timer(count).unwrap();
                by_hand.clerk.timer_runs_out(&name, timer)
            };
            assert_eq!((outcome.refusal, outcome.clear), (None, false));
            sent.extend(message_bytes(&outcome.message.unwrap()));
        }
        assert_eq!(by_hand, session);
        assert_eq!(sent, buffer[..ticked.length]);
        expired[usize::from(at_line)] += ticked.places.len();
    }
    assert!(expired.iter().all(|expired| *expired > 100), "{expired:?}");
}
