//! Replay: document 02 d), as its readings d1 to d7 have it.

use crate::desk::{Answer, Sample, Session};
use crate::ride;
use std::fmt;
use std::io::{self, Write};

/// "steps 0..8" are among the session's ranges (R 46).
pub const STEPS_TOP: i64 = 8;

/// "The session is handed in and handed back". Of its ranges (R 46) only "steps 0..8" are asked here: nothing that makes a
/// session for a replay can put anything else out of them.
#[derive(Clone, Debug)]
pub struct Handed {
    pub session: Session,
    /// The steps of a limit that does not stand, for which the model's session has no place. They have their range whether a
    /// limit stands or not, and mean nothing else: a limit that is set has none (R 47).
    pub steps: i64,
}

/// How a replay ended: all that was due ran, it was refused before any sample, or at the sample of this position.
#[derive(Clone, Copy, PartialEq, Debug)]
pub enum End {
    Done,
    Refused(u8),
    RefusedAt(u8, u64),
}

impl fmt::Display for End {
    fn fmt(&self, f: &mut fmt::Formatter) -> fmt::Result {
        match self {
            End::Done => write!(f, "done"),
            End::Refused(number) => write!(f, "refused {number}"),
            End::RefusedAt(number, position) => write!(f, "refused {number} at {position}"),
        }
    }
}

/// "returns the last answer (none if no sample ran), the session and the number of samples run".
#[derive(Clone, Debug)]
pub struct Replayed {
    pub ran: u64,
    pub last: Option<Answer>,
    pub handed: Handed,
    pub end: End,
}

impl Handed {
    pub fn new(session: Session) -> Handed {
        Handed { session, steps: 0 }
    }

    /// "session out of its ranges" is 8.
    fn in_range(&self) -> bool {
        let standing = self.session.limit.map_or(0, |limit| limit.steps);
        self.steps <= STEPS_TOP && standing <= STEPS_TOP
    }
}

/// "past the end none are left": "The place is the number of samples before the first to run; at n and beyond none are left,
/// nothing is refused." (d1)
pub fn left(samples: &[Sample], place: u64) -> &[Sample] {
    if place < samples.len() as u64 { &samples[place as usize..] } else { &[] }
}

/// "the smaller of quota and samples left"; "A bad sample just behind the quota is not looked at." (d5) "Place, quota and
/// their sums never wrap." (d7)
pub fn due(samples: &[Sample], place: u64, quota: u64) -> &[Sample] {
    let left = left(samples, place);
    &left[..quota.min(left.len() as u64) as usize]
}

/// "Refusals: 14, 8 even if none runs, then the sample's own": "14, then 8, also at quota 0 or past the end, then 9, 10, 11."
/// (d3) "The session's train type rules": "The ride's type byte is not looked at, 0 or 99 included: no 7." (d2)
pub fn replay(bytes: &[u8], place: u64, quota: u64, start: &Handed) -> Replayed {
    let none_ran = |end| Replayed { ran: 0, last: None, handed: start.clone(), end };
    match ride::recording(bytes) {
        Err(number) => none_ran(End::Refused(number)),
        Ok(_) if !start.in_range() => none_ran(End::Refused(8)),
        Ok(recording) => run(due(&recording.samples, place, quota), place, start.clone()),
    }
}

/// The samples that are due, or those "before the first refused one". "A refused sample gives its number, its position as a
/// place (place + run), last answer or none, session before it, number run." (d4)
fn run(due: &[Sample], place: u64, handed: Handed) -> Replayed {
    let mut replayed = Replayed { ran: 0, last: None, handed, end: End::Done };
    for sample in due {
        match replayed.handed.session.sample(*sample) {
            Ok(answer) => {
                replayed.ran += 1;
                replayed.last = Some(answer);
            }
            Err(number) => {
                replayed.end = End::RefusedAt(number, place + replayed.ran);
                break;
            }
        }
    }
    replayed
}

/// The last answer as it is printed, limit, lamps, cause, icon and standing, or `none`.
pub fn five(last: Option<Answer>) -> String {
    match last {
        Some(answer) => format!("{} {} {} {} {}", answer.s, answer.lamps, answer.cause, answer.icon, answer.limit as u8),
        None => "none".to_string(),
    }
}

/// Decimal digits of any size: what is above the greatest u64 acts as that.
pub fn quota(digits: &str) -> Option<u64> {
    if digits.is_empty() || !digits.bytes().all(|byte| byte.is_ascii_digit()) {
        return None;
    }
    let value = |quota: u64, byte: u8| quota.saturating_mul(10).saturating_add((byte - b'0') as u64);
    Some(digits.bytes().fold(0, value))
}

/// What `replay` prints: the heading; then, as `ride` has them, the card's refusal, 14, 7; then a line a quota, each from
/// where the last ended, the first from place 0. A refused sample is a line behind its quota's, and ends it.
pub fn print(card: &[u8], bytes: &[u8], quotas: &[u64], out: &mut impl Write) -> io::Result<()> {
    writeln!(out, "place ran limit lamps cause icon standing")?;
    let mut start = match ride::open(card, bytes) {
        Ok((session, _)) => Handed::new(session),
        Err(number) => return writeln!(out, "refused {number}"),
    };
    let mut place = 0;
    for quota in quotas {
        let replayed = replay(bytes, place, *quota, &start);
        writeln!(out, "{place} {} {}", replayed.ran, five(replayed.last))?;
        if replayed.end != End::Done {
            return writeln!(out, "{}", replayed.end);
        }
        place += replayed.ran;
        start = replayed.handed;
    }
    Ok(())
}
