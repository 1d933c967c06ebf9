//! The words that both desks use: kinds, connection choices and outcomes.

use crate::codec::{Carrier, Content, Identifier, Message, Refusal};

/// "kind (CCBS busy, CCNR no reply)".
#[derive(Clone, Copy, PartialEq, Eq, Debug)]
pub enum Kind {
    Ccbs,
    Ccnr,
}

impl Kind {
    pub fn number(self) -> u32 {
        match self {
            Kind::Ccbs => 1,
            Kind::Ccnr => 2,
        }
    }

    pub fn name(self) -> &'static str {
        match self {
            Kind::Ccbs => "CCBS",
            Kind::Ccnr => "CCNR",
        }
    }
}

/// "connection choice (RET or RLS)".
#[derive(Clone, Copy, PartialEq, Eq, Debug)]
pub enum Connection {
    Ret,
    Rls,
}

impl Connection {
    pub fn number(self) -> u32 {
        match self {
            Connection::Ret => 1,
            Connection::Rls => 2,
        }
    }

    pub fn name(self) -> &'static str {
        match self {
            Connection::Ret => "RET",
            Connection::Rls => "RLS",
        }
    }

    /// The choice whose carriers a record sends by. Request 11: "A marked record
    /// sends by the RLS carriers .. The connection choice stays RET."
    pub fn for_sending(self, down: bool) -> Connection {
        if down {
            Connection::Rls
        } else {
            self
        }
    }

    /// Request 11: "For a RET record, marked or not, the receiver takes either
    /// carrier: 5 in Facility or Setup, .. 9 in Facility or Setup. RLS stays as
    /// it was."
    pub fn takes_exec_or_resume_in(self, carrier: Carrier) -> bool {
        match self {
            Connection::Ret => matches!(carrier, Carrier::Facility | Carrier::Setup),
            Connection::Rls => carrier == Carrier::Setup,
        }
    }

    /// ccExecPossible and ccResume are sent "RET Facility, RLS Setup".
    pub fn facility_or_setup(self) -> Carrier {
        match self {
            Connection::Ret => Carrier::Facility,
            Connection::Rls => Carrier::Setup,
        }
    }

    /// "A sent ccCancel goes in Release Complete for RET or before
    /// acknowledgment, in Setup for RLS."
    pub fn cancel_carrier(choice: Option<Connection>) -> Carrier {
        match choice {
            Some(Connection::Rls) => Carrier::Setup,
            Some(Connection::Ret) | None => Carrier::ReleaseComplete,
        }
    }
}

/// READINGS 12: "Clerk's notices, nine", and with request 5 of document 02 a
/// tenth. The line desk has none.
#[derive(Clone, Copy, PartialEq, Eq, Debug)]
pub enum Notice {
    Accepted,
    DeniedShort,
    DeniedLong,
    Recall,
    Completed,
    Failed,
    BusyAgainKept,
    BusyAgainEnded,
    Cancelled,
    NowWaitingForFree,
}

impl Notice {
    /// REPLAY: "`notice`: 0 none, 1 accepted, 2 denied short, .."; REPLAY-02:
    /// "Notice 10 is "busy again, now waiting for free"".
    pub fn number(self) -> u32 {
        match self {
            Notice::Accepted => 1,
            Notice::DeniedShort => 2,
            Notice::DeniedLong => 3,
            Notice::Recall => 4,
            Notice::Completed => 5,
            Notice::Failed => 6,
            Notice::BusyAgainKept => 7,
            Notice::BusyAgainEnded => 8,
            Notice::Cancelled => 9,
            Notice::NowWaitingForFree => 10,
        }
    }

    pub fn name(self) -> &'static str {
        match self {
            Notice::Accepted => "accepted",
            Notice::DeniedShort => "denied short",
            Notice::DeniedLong => "denied long",
            Notice::Recall => "recall",
            Notice::Completed => "completed",
            Notice::Failed => "failed",
            Notice::BusyAgainKept => "busy again, kept",
            Notice::BusyAgainEnded => "busy again, ended",
            Notice::Cancelled => "cancelled",
            Notice::NowWaitingForFree => "busy again, now waiting for free",
        }
    }
}

/// REPLAY: "sums of T1 1, T2 2, T3 4, guard 8".
pub const T1: u32 = 1;
pub const T2: u32 = 2;
pub const T3: u32 = 4;
pub const GUARD: u32 = 8;

/// READINGS 12: "An outcome has: refusal or done; at most one message (the
/// sent one or the reply); at most one notice; timers started; timers stopped;
/// the clear-the-call word." REPLAY-02, request 1: "An outcome tells the place of
/// its record (`at`)".
#[derive(Clone, PartialEq, Eq, Debug, Default)]
pub struct Outcome {
    pub refusal: Option<Refusal>,
    pub message: Option<Message>,
    pub starts: u32,
    pub stops: u32,
    pub notice: Option<Notice>,
    pub clear: bool,
    /// "where it stands now, or stood until this step ended it"; none "for every
    /// refused step, a denied request, a line report, a start".
    pub at: Option<usize>,
}

impl Outcome {
    pub fn done() -> Outcome {
        Outcome::default()
    }

    pub fn refused(refusal: Refusal) -> Outcome {
        Outcome { refusal: Some(refusal), ..Outcome::default() }
    }

    pub fn sending(mut self, message: Message) -> Outcome {
        self.message = Some(message);
        self
    }

    pub fn starting(mut self, timers: u32) -> Outcome {
        self.starts = timers;
        self
    }

    pub fn stopping(mut self, timers: u32) -> Outcome {
        self.stops = timers;
        self
    }

    pub fn telling(mut self, notice: Notice) -> Outcome {
        self.notice = Some(notice);
        self
    }

    pub fn clearing(mut self, clear: bool) -> Outcome {
        self.clear = clear;
        self
    }

    /// The step was about the record at this place, unless it was refused.
    pub fn about(mut self, place: usize) -> Outcome {
        self.at = self.refusal.is_none().then_some(place);
        self
    }
}

/// A message without elements, its small field given.
pub fn message(carrier: Carrier, identifier: impl Into<Option<Identifier>>, content: Content) -> Message {
    Message { carrier, identifier: identifier.into(), content, elements: None }
}
