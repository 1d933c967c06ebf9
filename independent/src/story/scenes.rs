//! What STORY.md fixes of the scenes: the requests, the events, the texts.

use self::Event::*;
use super::ladder::End;

/// A request's tag: "a number of two decimal digits", or none for a request without
/// an identifier, whose record an event names by its place.
#[derive(Clone, Copy, PartialEq, Eq, Debug)]
pub enum Tag {
    Id(u8),
    Nameless,
    At(u8),
}

const T12: Tag = Tag::Id(12);
const T20: Tag = Tag::Id(20);
const T34: Tag = Tag::Id(34);

/// The place that the host names with a message; none for `--`.
pub type Place = Option<u8>;

/// A line's digits, as they are printed.
pub type Digits = &'static str;

/// STORY, "Events".
#[derive(Clone, Copy, PartialEq, Eq, Debug)]
pub enum Event {
    Ask(Tag),
    Accept(Tag),
    Cancel(Tag),
    ClerkTick,
    ClerkFell(Tag),
    ClerkHears,
    ClerkHearsAt(Place),
    Busy(Digits),
    Free(Digits),
    Look(Digits),
    Alerted(Tag),
    Withdraw(Tag),
    LineFell(Tag),
    LineHears,
    LineHearsAt(Place),
    Stray(Tag),
    StrayCancel,
    /// "the clock is set", to seconds since midnight.
    Clock(u32),
    Records,
    Say(usize),
}

/// `HH:MM:SS` in seconds since midnight.
const fn time(hours: u32, minutes: u32, seconds: u32) -> u32 {
    3600 * hours + 60 * minutes + seconds
}

/// "It stands at 18:00:00 when the scene begins".
pub const BEGIN: u32 = time(18, 0, 0);

impl Event {
    /// "The event's end is the clerk's for `ask`, `accept`, `cancel`, `clerk tick`,
    /// `clerk fell`, `clerk hears` and `clerk hears at`, the line's for the others
    /// (`stray` and `stray cancel` too)."
    pub fn end(self) -> End {
        match self {
            Ask(_) | Accept(_) | Cancel(_) | ClerkTick | ClerkFell(_) | ClerkHears | ClerkHearsAt(_) => End::Clerk,
            _ => End::Line,
        }
    }

    /// The clock "goes on by one second before each event that is an input, before
    /// each `stray` and each `stray cancel`"; a hearing with nothing on its wire is an
    /// input too.
    pub fn takes_time(self) -> bool {
        !matches!(self, Clock(_) | Records | Say(_))
    }

    /// The tag of an input that has one; `stray` is no input.
    pub fn tag(self) -> Option<Tag> {
        match self {
            Ask(tag) | Accept(tag) | Cancel(tag) | ClerkFell(tag) => Some(tag),
            Alerted(tag) | Withdraw(tag) | LineFell(tag) => Some(tag),
            _ => None,
        }
    }

    /// The place that the event itself names: `-- at P`, or that of a hearing.
    pub fn place(self) -> Place {
        match (self, self.tag()) {
            (ClerkHearsAt(place) | LineHearsAt(place), _) => place,
            (_, Some(Tag::At(place))) => Some(place),
            _ => None,
        }
    }
}

/// What is asked for; the kind is CCBS and can-keep 1 in all of them, the
/// preference is the scene's.
pub struct Request {
    pub tag: Tag,
    pub number_a: Digits,
    pub number_b: Digits,
    pub service: u32,
}

/// An empty numberA is a withheld one.
pub const REQUESTS: [Request; 3] = [
    Request { tag: T34, number_a: "5550134", number_b: "41180", service: 34 },
    Request { tag: T12, number_a: "5550112", number_b: "52290", service: 12 },
    Request { tag: Tag::Nameless, number_a: "", number_b: "41180", service: 34 },
];

/// "The line desk starts with the lines 41180 and 52290, in this order".
pub const LINES: [Digits; 2] = ["41180", "52290"];

/// "Flags are .. 2 x preference (0 none, 1 retain, 2 release)".
pub const RETAIN: u32 = 1;
pub const RELEASE: u32 = 2;

/// The house's end of a scene: a line desk that keeps requests, or the wrong
/// end of scene 1.
#[derive(Clone, Copy, PartialEq, Eq, Debug)]
pub enum House {
    Keeps,
    WrongEnd,
}

pub struct Scene {
    pub title: &'static str,
    pub preference: u32,
    pub house: House,
    pub opening: &'static str,
    pub prelude: &'static [Event],
    /// The events in parts, as scenes 1 and 2 share the evening.
    pub events: [&'static [Event]; 2],
    pub lesson: [&'static str; 2],
}

impl Scene {
    pub fn events(&self) -> impl Iterator<Item = Event> + '_ {
        self.events.iter().flat_map(|part| part.iter().copied())
    }
}

/// "Before the first scene, four lines and an empty line".
pub const BEFORE: [&str; 5] = [
    "TOLLHERRING: THREE LESSONS IN SIX SCENES",
    "A clerk finds a house's line busy and asks to be rung back. #34 is the request for a group of 34.",
    "A message is sent: o---...   It arrives: ...--->   No desk sent it: ...---?   Its carrier is in [ ].",
    "States, timers, notices and refusals are the desks' own. A scene says which messages it forges.",
    "",
];

const NARRATION: [&str; 22] = [
    "* The house's line is busy. The clerk asks to be rung back, and says that it can keep the request.",
    "* The line clears, and the house rings back. But another caller is faster than the clerk.",
    "* Busy again. What has each end kept?",
    "* The line clears once more.",
    "* The clerk waits for a ring-back that nobody will make, until T2 runs out.",
    "* The house has rung back once more. User A accepts, and this time the call gets through.",
    "* The request is accepted at both ends. The line clears and the house rings back.",
    "* At the same moment User A cancels: the two messages pass each other.",
    "* Each end now hears what the other had sent. The ring-back that came too late gets a reply.",
    "* Two requests, #34 and #12, both rung back. User A accepts both, and the second house withdraws.",
    "* A late reply for #12. Request #34 stands in Ringout, the very state that such a reply is for.",
    "* Two forged replies: one for a request that nobody made, and a second result for #34.",
    "* Nothing has touched #34: its call goes through.",
    "* The connection falls while the request waits. The house's end sees it, the clerk's not yet.",
    "* The line clears. The house rings back all the same, over a new connection.",
    "* Now the clerk's end sees it too. User A accepts, and the call gets through.",
    "* Two requests that look alike: one line, one service, no identifier. They are no duplicates.",
    "* A stray ccCancel arrives. The host knows that it belongs to neither, and names no place.",
    "* The line clears and the house rings back the first. The host knows that too.",
    "* The same stray ccCancel once more. This time the host guesses, and guesses the second.",
    "* The first goes on. Its ccRingout has no name either: both records fit, one has been rung back.",
    "* The house rings back the second. It has no record here any more, and its caller was told \"failed\".",
];

/// Line N of the narration, from 1.
pub fn narration(number: usize) -> Option<&'static str> {
    NARRATION.get(number.checked_sub(1)?).copied()
}

/// "The evening is a list of events that scenes 1 and 2 share".
const EVENING: &[Event] = &[
    Say(1),
    Busy("41180"),
    Ask(T34),
    LineHears,
    ClerkHears,
    Records,
    Say(2),
    Free("41180"),
    Look("41180"),
    ClerkHears,
    Busy("41180"),
    Accept(T34),
    LineHears,
    ClerkHears,
    Say(3),
    Records,
    Say(4),
    Free("41180"),
    Look("41180"),
    ClerkHears,
];

const WENT_WRONG: Scene = Scene {
    title: "The evening as it went wrong",
    preference: RETAIN,
    house: House::WrongEnd,
    opening: "The house's end stores no keep; its answer \"keep 1\" is forged here. Each end alone looks well.",
    prelude: &[],
    events: [
        EVENING,
        &[Say(5), Clock(time(18, 10, 0)), ClerkTick, Clock(time(18, 20, 0)), ClerkTick, LineHears, Records],
    ],
    lesson: [
        "LESSON 1. Two good ends are not yet a good pair: one believed in a request that the other had",
        "deleted. No ring-back came, the clerk split the group, and 34 guests slept in two houses.",
    ],
};

const GOES_NOW: Scene = Scene {
    title: "The evening as it goes now",
    preference: RETAIN,
    house: House::Keeps,
    opening: "The same evening and the same inputs; the house's end now stores what it answers.",
    prelude: &[],
    events: [EVENING, &[Say(6), Accept(T34), LineHears, Alerted(T34), ClerkHears, Records]],
    lesson: [
        "LESSON 1, LEARNED. What one end holds as kept, the other has stored. The ring-back came, and the 34",
        "slept in one house.",
    ],
};

const CANCEL_MEETS_RING_BACK: Scene = Scene {
    title: "A cancel meets a ring-back",
    preference: RELEASE,
    house: House::Keeps,
    opening: "User A no longer wants the call, just when the house rings back.",
    prelude: &[Busy("41180"), Ask(T34), LineHears, ClerkHears],
    events: [
        &[Records, Say(7), Free("41180"), Look("41180"), Say(8), Cancel(T34)],
        &[Say(9), ClerkHears, LineHears, LineHears, Records],
    ],
    lesson: [
        "LESSON 2. A cancel does meet a ring-back on the wire. A late message finds no record, is refused",
        "and changes nothing; and both ends have let the request go.",
    ],
};

const STRAY_PRELUDE: &[Event] = &[
    Busy("41180"),
    Busy("52290"),
    Ask(T34),
    LineHears,
    ClerkHears,
    Ask(T12),
    LineHears,
    ClerkHears,
    Free("41180"),
    Look("41180"),
    ClerkHears,
    Free("52290"),
    Look("52290"),
    ClerkHears,
];

/// The events of scene 4 up to the late reply.
const STRAY_UP_TO_LATE: &[Event] = &[
    Records,
    Say(10),
    Accept(T34),
    LineHears,
    Accept(T12),
    Withdraw(T12),
    LineHears,
    ClerkHears,
    Records,
    Say(11),
    ClerkHears,
    Records,
];

const STRAY_TO_THE_END: &[Event] = &[
    Say(12),
    Stray(T20),
    ClerkHears,
    LineHears,
    Stray(T34),
    ClerkHears,
    Records,
    Say(13),
    Alerted(T34),
    ClerkHears,
    Records,
];

const STRAY_REPLY: Scene = Scene {
    title: "A stray reply",
    preference: RETAIN,
    house: House::Keeps,
    opening: "Replies arrive that no request is waiting for, at a desk that holds a live request.",
    prelude: STRAY_PRELUDE,
    events: [STRAY_UP_TO_LATE, STRAY_TO_THE_END],
    lesson: [
        "LESSON 3. A stray reply must never touch the nearest request. Different identifiers never meet,",
        "however alike the two requests are.",
    ],
};

/// The events of scene 5 up to the ring-back.
const FALL_UP_TO_RING_BACK: &[Event] =
    &[Records, Say(14), LineFell(T34), Records, Say(15), Free("41180"), Look("41180"), ClerkHears];

const FALL_TO_THE_END: &[Event] =
    &[Say(16), ClerkFell(T34), Accept(T34), LineHears, Records, Alerted(T34), ClerkHears, Records];

const CONNECTION_FALLS: Scene = Scene {
    title: "The connection falls",
    preference: RETAIN,
    house: House::Keeps,
    opening: "Both ends keep a connection for the request, and it falls. Nobody cancels anything.",
    prelude: &[Busy("41180"), Ask(T34), LineHears, ClerkHears],
    events: [FALL_UP_TO_RING_BACK, FALL_TO_THE_END],
    lesson: [
        "LESSON 1, ONCE MORE. A connection is not the request. What both ends have stored outlives it, and",
        "whichever end sees the fall first, the other takes its messages.",
    ],
};

/// The events of scene 6 up to the stray ccCancel that is kept off.
const NAMELESS_UP_TO_RING_BACK: &[Event] = &[
    Say(17),
    Ask(Tag::Nameless),
    Ask(Tag::Nameless),
    LineHears,
    LineHears,
    ClerkHearsAt(Some(0)),
    ClerkHearsAt(Some(1)),
    Records,
    Say(18),
    StrayCancel,
    ClerkHearsAt(None),
    Records,
    Say(19),
    Free("41180"),
    Look("41180"),
    ClerkHearsAt(Some(0)),
];

const NAMELESS_TO_THE_END: &[Event] = &[
    Say(20),
    StrayCancel,
    ClerkHearsAt(Some(1)),
    Records,
    Say(21),
    Accept(Tag::At(0)),
    LineHears,
    Alerted(Tag::At(0)),
    Look("41180"),
    ClerkHearsAt(Some(0)),
    Say(22),
    ClerkHearsAt(None),
    LineHearsAt(Some(0)),
    Records,
];

const NAMELESS: Scene = Scene {
    title: "Two callers without a name",
    preference: RETAIN,
    house: House::Keeps,
    opening: "An end that sends no identifier and withholds its number: #-- is all that a message says.",
    prelude: &[Busy("41180")],
    events: [NAMELESS_UP_TO_RING_BACK, NAMELESS_TO_THE_END],
    lesson: [
        "LESSON 3, WITHOUT A NAME. Where no identifier tells whose a message is, the host has to know it.",
        "A right place kept the stray off. A guess let it touch the nearest request, and a caller was lost.",
    ],
};

pub const SCENES: [Scene; 6] = [WENT_WRONG, GOES_NOW, CANCEL_MEETS_RING_BACK, STRAY_REPLY, CONNECTION_FALLS, NAMELESS];
