//! Tests of the clerk's desk.

use super::*;

const ID: Identifier = [5; 16];
const NAME: Name = Name { identifier: Some(ID), place: 9 };

fn an_ask(identifier: Identifier, can_keep: bool) -> Ask {
    Ask {
        identifier: Some(identifier),
        kind: Kind::Ccbs,
        number_a: vec![1, 2],
        number_b: vec![3],
        service: 9,
        can_keep,
        preference: 0,
    }
}

fn elements() -> Elements {
    Elements { number_a: vec![1, 2], number_b: vec![3], service: 9 }
}

/// A message with the elements of the ask, where it has any.
fn message(carrier: Carrier, identifier: impl Into<Option<Identifier>>, content: Content) -> Message {
    super::message(carrier, identifier, content).with_elements(&elements())
}

fn at(place: usize) -> Name {
    Name { identifier: None, place }
}

/// Hands a message in, the place absent, User A not busy; and the record is
/// the first, unless the message is refused.
fn takes(desk: &mut ClerkDesk, message: &Message) -> Outcome {
    desk.take(message, 255, false, 0)
}

fn done() -> Outcome {
    Outcome::done().about(0)
}

fn invoked(carrier: Carrier, can_keep: bool, keep: u32) -> ClerkDesk {
    let mut desk = ClerkDesk::default();
    desk.ask(&an_ask(ID, can_keep), 0);
    takes(&mut desk, &message(carrier, ID, Content::RequestResult { keep }));
    desk
}

fn ringing_out(can_keep: bool, keep: u32) -> ClerkDesk {
    let mut desk = invoked(Carrier::Connect, can_keep, keep);
    takes(&mut desk, &message(Carrier::Facility, ID, Content::CcExecPossible));
    desk.accept(&NAME);
    assert_eq!(desk.records[0].state, State::Ringout);
    desk
}

fn busy_again() -> Message {
    message(Carrier::ReleaseComplete, ID, Content::RingoutError { error: REMOTE_USER_BUSY_AGAIN })
}

#[test]
fn example_10_ret_ccexecpossible_user_a_busy_ccsuspend_in_facility() {
    let mut desk = invoked(Carrier::Connect, true, 1);
    let outcome = desk.take(&message(Carrier::Facility, ID, Content::CcExecPossible), 255, true, 0);
    let expected = done().sending(message(Carrier::Facility, ID, Content::CcSuspend));
    assert_eq!(outcome, expected);
    assert_eq!(desk.records[0].state, State::Suspended);
}

#[test]
fn example_11_busy_again_in_ringout_keep_chosen_invoked_not_chosen_gone() {
    let mut desk = ringing_out(true, 1);
    assert_eq!(takes(&mut desk, &busy_again()), done().telling(Notice::BusyAgainKept));
    assert_eq!(desk.records[0].state, State::Invoked);
    let mut desk = ringing_out(true, 0);
    let ended = done().telling(Notice::BusyAgainEnded).stopping(T2);
    assert_eq!(takes(&mut desk, &busy_again()), ended);
    assert!(desk.records.is_empty());
}

#[test]
fn request_5_a_ccnr_record_met_busy_again_becomes_ccbs_once() {
    let mut desk = ClerkDesk::default();
    desk.ask(&Ask { kind: Kind::Ccnr, ..an_ask(ID, true) }, 0);
    takes(&mut desk, &message(Carrier::Connect, ID, Content::RequestResult { keep: 1 }));
    for notice in [Notice::NowWaitingForFree, Notice::BusyAgainKept, Notice::BusyAgainKept] {
        takes(&mut desk, &message(Carrier::Facility, ID, Content::CcExecPossible));
        desk.accept(&NAME);
        assert_eq!(takes(&mut desk, &busy_again()), done().telling(notice));
        assert_eq!((desk.records[0].kind, desk.records[0].state), (Kind::Ccbs, State::Invoked));
    }
    // Without keep it ends as before, whatever the kind.
    let mut desk = ringing_out(true, 0);
    desk.records[0].kind = Kind::Ccnr;
    let ended = done().telling(Notice::BusyAgainEnded).stopping(T2);
    assert_eq!(takes(&mut desk, &busy_again()), ended);
}

#[test]
fn example_12_t3_reported_in_suspended_9() {
    let mut desk = invoked(Carrier::Connect, true, 1);
    desk.take(&message(Carrier::Facility, ID, Content::CcExecPossible), 255, true, 0);
    assert_eq!(desk.timer_runs_out(&NAME, Timer::T3), Outcome::refused(Refusal::TimerNotRunning));
}

#[test]
fn seen_in_class_keep_from_the_result_alone() {
    // "Taking keep from the result alone, though can-keep was sent false."
    assert_eq!(invoked(Carrier::Connect, false, 1).records[0].keep, Some(false));
    assert_eq!(invoked(Carrier::Connect, true, 1).records[0].keep, Some(true));
}

#[test]
fn m1_t2_in_ringout_is_9() {
    let mut desk = ringing_out(true, 1);
    assert_eq!(desk.timer_runs_out(&NAME, Timer::T2), Outcome::refused(Refusal::TimerNotRunning));
    assert_eq!(desk.records.len(), 1);
}

#[test]
fn m2_type_12_in_ringout_sends_cccancel() {
    let mut desk = ringing_out(true, 1);
    let outcome = takes(&mut desk, &message(Carrier::ReleaseComplete, ID, Content::CallFailed));
    let cancel = message(Carrier::ReleaseComplete, ID, Content::CcCancel);
    let expected = done().sending(cancel).telling(Notice::Failed).stopping(T2);
    assert_eq!(outcome, expected);
}

#[test]
fn m3_ccexecpossible_in_setup_is_answered_on_7_and_never_refused_with_8() {
    // Request 11: "type 5 in Setup is never 8 any more, and mend M3 replies
    // to it on 6 and 7; type 5 in Facility for RLS is 8 without a reply".
    let exec = |carrier| message(carrier, ID, Content::CcExecPossible);
    let recall = done().starting(T3).telling(Notice::Recall);
    for down in [false, true] {
        for carrier in [Carrier::Setup, Carrier::Facility] {
            let mut desk = invoked(Carrier::Connect, true, 1);
            desk.records[0].down = down;
            assert_eq!(takes(&mut desk, &exec(carrier)), recall);
        }
    }
    let mut desk = invoked(Carrier::Connect, true, 1);
    assert_eq!(takes(&mut desk, &exec(Carrier::Connect)), Outcome::refused(Refusal::BadCarrier));
    takes(&mut desk, &exec(Carrier::Setup));
    let reply = message(Carrier::ReleaseComplete, ID, Content::CcCancel);
    assert_eq!(takes(&mut desk, &exec(Carrier::Setup)), Outcome::refused(Refusal::NoRow).sending(reply));
    assert_eq!(takes(&mut desk, &exec(Carrier::Facility)), Outcome::refused(Refusal::NoRow));
    let mut desk = invoked(Carrier::ReleaseComplete, true, 1);
    assert_eq!(takes(&mut desk, &exec(Carrier::Facility)), Outcome::refused(Refusal::BadCarrier));
    assert_eq!(takes(&mut desk, &exec(Carrier::Setup)), recall);
}

#[test]
fn request_11_refusals_of_the_report() {
    let mut desk = ClerkDesk::default();
    assert_eq!(desk.connection_fell(&NAME), Outcome::refused(Refusal::NoRecord));
    desk.ask(&an_ask(ID, true), 0);
    assert_eq!(desk.connection_fell(&NAME), Outcome::refused(Refusal::NoRow));
    let mut desk = invoked(Carrier::ReleaseComplete, true, 1);
    assert_eq!(desk.connection_fell(&NAME), Outcome::refused(Refusal::NoRow));
    assert!(!desk.records[0].down);
}

#[test]
fn request_11_a_marked_record_sends_by_the_rls_carriers() {
    let mut desk = invoked(Carrier::Connect, true, 1);
    assert_eq!(desk.connection_fell(&NAME), done());
    let marked = desk.clone();
    assert_eq!(desk.connection_fell(&NAME), done());
    assert_eq!(desk, marked);
    assert_eq!(desk.records[0].connection, Some(Connection::Ret));
    let outcome = desk.take(&message(Carrier::Setup, ID, Content::CcExecPossible), 255, true, 0);
    let suspend = message(Carrier::ReleaseComplete, ID, Content::CcSuspend);
    assert_eq!(outcome, done().sending(suspend));
    let resume = message(Carrier::Setup, ID, Content::CcResume);
    assert_eq!(desk.user_a_free(&NAME, FreeChoice::Resume, 0), done().sending(resume));
    // "Nothing clears the mark; a resume and busy again do not."
    assert!(desk.records[0].down);
    takes(&mut desk, &message(Carrier::Facility, ID, Content::CcExecPossible));
    desk.accept(&NAME);
    assert_eq!(takes(&mut desk, &busy_again()), done().telling(Notice::BusyAgainKept));
    assert!(desk.records[0].down);
    let cancel = message(Carrier::Setup, ID, Content::CcCancel);
    let failed = done().sending(cancel).telling(Notice::Failed).stopping(T2);
    assert_eq!(desk.clone().timer_runs_out(&NAME, Timer::T2), failed);
    // "also the ccCancel of mend M2".
    let mut desk = ringing_out(true, 1);
    desk.connection_fell(&NAME);
    assert_eq!(takes(&mut desk, &message(Carrier::ReleaseComplete, ID, Content::CallFailed)), failed);
}

#[test]
fn m4_cccancel_in_ringout_clears_the_call() {
    let mut desk = ringing_out(true, 1);
    let outcome = takes(&mut desk, &message(Carrier::Setup, ID, Content::CcCancel));
    let expected = done().telling(Notice::Failed).stopping(T2).clearing(true);
    assert_eq!(outcome, expected);
}

#[test]
fn sixteen_against_seventeen_asks() {
    let mut desk = ClerkDesk::default();
    for n in 0..16 {
        assert_eq!(desk.ask(&an_ask([n; 16], true), 0).refusal, None);
    }
    assert_eq!(desk.ask(&an_ask([16; 16], true), 0), Outcome::refused(Refusal::ClerkFull));
    // READINGS 8: "A live identifier at a full desk is 4."
    assert_eq!(desk.ask(&an_ask([0; 16], true), 0), Outcome::refused(Refusal::IdentifierLive));
}

#[test]
fn reading_7_2_before_3() {
    let fields = RequestFields { number_a: vec![], number_b: vec![], service: 0, flags: 0 };
    let request = message(Carrier::Setup, ID, Content::CcbsRequest(fields));
    let outcome = takes(&mut ClerkDesk::default(), &request);
    assert_eq!(outcome, Outcome::refused(Refusal::OutOfRange));
}

/// A record without an identifier in each of these states, all alike.
fn nameless_desk(states: &[State]) -> ClerkDesk {
    let mut desk = ClerkDesk::default();
    for (place, state) in states.iter().enumerate() {
        let outcome = desk.ask(&Ask { identifier: None, ..an_ask(ID, true) }, 0);
        assert_eq!((outcome.refusal, outcome.at), (None, Some(place)));
        if *state != State::WaitAck {
            desk.take(&message(Carrier::Connect, None, Content::RequestResult { keep: 1 }), place, false, 0);
            desk.records[place].state = *state;
        }
    }
    desk
}

#[test]
fn request_1_ccexecpossible_is_fitted_to_the_oldest_in_invoked() {
    let exec = message(Carrier::Setup, None, Content::CcExecPossible);
    let mut desk = nameless_desk(&[State::WaitAck, State::Ringout, State::Invoked, State::Invoked]);
    assert_eq!(desk.take(&exec, 0, false, 0), Outcome::done().starting(T3).telling(Notice::Recall).about(2));
    assert_eq!(desk.take(&exec, 0, false, 0).at, Some(3));
    // "7 on type 5 and 6 on type 5 the ccCancel of mend M3".
    let reply = message(Carrier::ReleaseComplete, None, Content::CcCancel);
    assert_eq!(desk.take(&exec, 2, false, 0), Outcome::refused(Refusal::NoRow).sending(reply.clone()));
    let other = Elements { service: 10, ..elements() };
    let exec = exec.with_elements(&other);
    assert_eq!(desk.take(&exec, 2, false, 0), Outcome::refused(Refusal::NoRecord).sending(reply));
}

#[test]
fn request_1_what_is_not_in_setup_goes_by_place() {
    let mut desk = nameless_desk(&[State::Ringout, State::WaitAck]);
    let result = message(Carrier::Connect, None, Content::RequestResult { keep: 1 });
    assert_eq!(desk.take(&result, 0, false, 0), Outcome::refused(Refusal::NoRow));
    let reply = message(Carrier::ReleaseComplete, None, Content::CcCancel);
    assert_eq!(desk.take(&result, 2, false, 0), Outcome::refused(Refusal::NoRecord).sending(reply));
    assert_eq!(desk.take(&result, 1, false, 0).at, Some(1));
    // "`at` is .. where it stands now, or stood until this step ended it".
    let again = desk.ask(&Ask { identifier: None, ..an_ask(ID, true) }, 0);
    assert_eq!(again.at, Some(2));
    let error = message(Carrier::ReleaseComplete, None, Content::RequestError { error: SHORT });
    let denied = Outcome::done().stopping(T1).telling(Notice::DeniedShort).about(2);
    assert_eq!(desk.take(&error, 2, false, 0), denied);
    assert_eq!(desk.timer_runs_out(&at(0), Timer::T2), Outcome::refused(Refusal::TimerNotRunning));
    assert_eq!(desk.timer_runs_out(&at(1), Timer::T2).at, Some(1));
    assert_eq!(desk.user_cancels(&at(1)), Outcome::refused(Refusal::NoRecord));
    assert_eq!(desk.user_cancels(&NAME), Outcome::refused(Refusal::NoRecord));
}

#[test]
fn request_1_what_is_sent_in_setup_has_the_records_elements() {
    let mut desk = nameless_desk(&[State::WaitAnswer, State::Suspended]);
    desk.records[0].number_a = vec![];
    desk.records[1].down = true;
    let sent = desk.accept(&at(0)).message.unwrap();
    let withheld = Elements { number_a: vec![], ..elements() };
    assert_eq!(sent, message(Carrier::Setup, None, Content::CcRingout).with_elements(&withheld));
    let sent = desk.user_a_free(&at(1), FreeChoice::Resume, 0).message.unwrap();
    assert_eq!(sent, message(Carrier::Setup, None, Content::CcResume));
    let sent = desk.user_cancels(&at(0)).message.unwrap();
    assert_eq!((sent.carrier, sent.elements), (Carrier::ReleaseComplete, None));
}

#[test]
fn request_1_a_full_desk_of_asks_without_identifiers() {
    // "An ask without an identifier is never 4."
    let mut desk = nameless_desk(&[State::WaitAck; 16]);
    let ask = Ask { identifier: None, ..an_ask(ID, true) };
    assert_eq!(desk.ask(&ask, 0), Outcome::refused(Refusal::ClerkFull));
}
