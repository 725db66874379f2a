//! "Why is it forty?": document 02 f), as its readings f1 to f8 have it, and what `why` prints of it.

use crate::card;
use crate::desk::{Main, Session, BTS};
use crate::ride;
use std::io::{self, Write};

/// "Reasons are numbered in 02's order" (f2): "vmax, T, BTS speed, main, stop staying alongside, crossing, limit".
pub const VMAX: u8 = 1;
pub const TRAIN: u8 = 2;
pub const BTS_SPEED: u8 = 3;
pub const MAIN: u8 = 4;
pub const ALONGSIDE: u8 = 5;
pub const CROSSING: u8 = 6;
pub const LIMIT: u8 = 7;

/// A standing limit: its reason, its value in hundredths of km/h, its age.
#[derive(Clone, Copy, PartialEq, Debug)]
pub struct Standing {
    pub reason: u8,
    pub value: i64,
    pub age: i64,
}

impl Session {
    /// The limits that stand at the sample's end, in 02's order; "its value and age (0 for the first three)". "3 stands in BTS
    /// only, 4 neither there nor under clear." (f2) "Main's age is its row's ... a 1 answered, missed or displaced, stop and zone
    /// have their reading's." (f3) "Alongside has its own age" (f4); crossing "the reading's", and 0 at a turn (f5); limit "its
    /// row's" (f6). "of equal ones the single is named" (02 g): it stands before the paired ones (g25).
    pub fn standing(&self) -> Vec<Standing> {
        let of = |reason, value, age| Standing { reason, value, age };
        let mut standing = vec![of(VMAX, 100 * self.settings.vmax as i64, 0), of(TRAIN, 100 * self.t(), 0)];
        if self.mode == BTS {
            standing.push(of(BTS_SPEED, 100 * self.settings.bts as i64, 0));
        }
        standing.extend(self.main_value().map(|value| of(MAIN, value, self.main_age)));
        standing.extend(self.alongside.map(|alongside| of(ALONGSIDE, alongside.value, alongside.age)));
        standing.extend(self.crossing.map(|crossing| of(CROSSING, self.crossing_value(crossing), crossing.age)));
        standing.extend(self.limit.map(|limit| of(LIMIT, self.limit_value(limit), limit.age)));
        standing.extend(self.paired_standing().into_iter().map(|(_, value, age)| of(LIMIT, value, age)));
        standing
    }

    /// "names which standing limit sets S (the first in the order ... where several are equal)"; "The sample is run; the reason is
    /// that of its answer's S, at the sample's end. The value is S." (f1)
    pub fn why(&self) -> Standing {
        self.standing().into_iter().find(|limit| limit.value == self.s).expect("a standing limit that equals S")
    }

    /// The reason in words.
    pub fn reason_name(&self) -> &'static str {
        match self.why().reason {
            VMAX => "vmax",
            TRAIN => "T of the train type",
            BTS_SPEED => "BTS speed",
            MAIN => self.main_name(),
            ALONGSIDE => "stop alongside",
            CROSSING if self.crossing.is_some_and(|crossing| crossing.protected) => "protected crossing",
            CROSSING => "unprotected crossing",
            _ if self.names_single() => "limit",
            _ => "paired limit",
        }
    }

    /// "reason 7, the single's age if it equals S, else the paired one's" (g25).
    pub fn names_single(&self) -> bool {
        self.limit.is_some_and(|limit| self.limit_value(limit) == self.s)
    }

    fn main_name(&self) -> &'static str {
        match self.main {
            Main::Row(card::CONDITIONAL_CLEAR) => "conditional clear",
            Main::Row(card::ANNOUNCEMENT) => "stop announcement",
            Main::Row(card::PREANNOUNCEMENT) => "preannouncement",
            Main::Row(card::CAUTION) => "caution",
            Main::Row(card::BEFORE_STOP) => "before-stop",
            Main::Row(card::START) => "start",
            Main::Stop => "stop",
            Main::Zone => "stop zone",
            Main::Row(_) | Main::Clear | Main::Nothing => unreachable!("no main limit"),
        }
    }
}

/// What `why` prints: the heading; as `ride` does, the refusals; a line a sample with S, the reason, the age of the named limit,
/// the standing cause and how many samples ago the brake came on.
pub fn print(card: &[u8], bytes: &[u8], out: &mut impl Write) -> io::Result<()> {
    let mut lines = "n limit reason age cause since\n".to_string();
    let mut n = 0;
    let end = ride::ride(card, bytes, |session, answer| {
        n += 1;
        let why = session.why();
        lines += &format!("{n} {} {} {} {} {}\n", answer.s, why.reason, why.age, answer.cause, session.brake_age);
    });
    lines += &ride::ending(end);
    out.write_all(lines.as_bytes())
}

/// What is named after a sample: the reason's name and the standing cause.
#[derive(Clone, Copy, PartialEq, Debug)]
pub struct Named {
    pub name: &'static str,
    pub cause: u8,
}

impl Named {
    pub fn of(session: &Session) -> Named {
        Named { name: session.reason_name(), cause: session.cause }
    }
}

/// What `why CARD words` prints: no heading; a line where what is named changed, the first sample always; a refusal's line.
pub fn print_words(card: &[u8], bytes: &[u8], out: &mut impl Write) -> io::Result<()> {
    let mut lines = String::new();
    let mut n = 0;
    let mut before: Option<Named> = None;
    let end = ride::ride(card, bytes, |session, _| {
        n += 1;
        let now = Named::of(session);
        if before != Some(now) {
            let was_braked = before.is_some_and(|named| named.cause != 0);
            lines += &format!("{n}  {}\n", words(session, was_braked));
        }
        before = Some(now);
    });
    lines += &ride::ending(end);
    out.write_all(lines.as_bytes())
}

/// S, the name, its age for reasons 4 to 7, and the brake: on, or off where it was on after the sample before.
pub fn words(session: &Session, was_braked: bool) -> String {
    let why = session.why();
    let mut text = format!("{} km/h  {}", in_kmh(why.value), session.reason_name());
    if why.reason >= MAIN {
        text += &format!(", {} s old", in_seconds(why.age));
    }
    if session.cause != 0 {
        text += &format!("; braked {} s ago: {}", in_seconds(session.brake_age), cause_name(session.cause));
    } else if was_braked {
        text += "; brake off";
    }
    text
}

/// Hundredths of km/h in km/h: whole, or with two digits behind the point.
fn in_kmh(value: i64) -> String {
    match value % 100 {
        0 => format!("{}", value / 100),
        hundredths => format!("{}.{hundredths:02}", value / 100),
    }
}

/// Samples of 0.1 s in seconds, with one digit behind the point.
fn in_seconds(samples: i64) -> String {
    format!("{}.{}", samples / 10, samples % 10)
}

fn cause_name(cause: u8) -> &'static str {
    match cause {
        1 => "a main window missed",
        2 => "a side window missed",
        3 => "a reminder missed",
        4 => "a stop signal passed without override",
        5 => "too fast",
        _ => "the pickup is quiet",
    }
}
