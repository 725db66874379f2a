//! Replays by seed: rides of up to 60 samples, in calls that go after both sides of every line of d1 to d7.

use crate::card::LIMIT;
use crate::desk::{Sample, Session};
use crate::make::Rng;
use crate::replay::{replay, Handed};
use crate::replay_damage::{bad, fields, frame, opening, refused_sample, steps, type_byte};
use crate::replays::{written, Case};
use crate::ride::recorded;
use crate::steer::{fresh, run};

/// What a case is after.
#[derive(Clone, Copy, PartialEq)]
enum Kind {
    On,
    Middle,
    Jumps,
    Ends,
    Great,
    Frame,
    Steps,
    Type,
    Opening,
    Bad,
    Fields,
    NoSamples,
    Split,
    /// The case before it again, with its last two quotas as one.
    Sum,
}

/// The cases of a batch take turns.
const TURNS: [Kind; 26] = [
    Kind::On, Kind::Middle, Kind::Bad, Kind::Ends, Kind::Frame, Kind::Split, Kind::Sum, Kind::Type, Kind::Great, Kind::Steps,
    Kind::Opening, Kind::Bad, Kind::Jumps, Kind::Fields, Kind::Middle, Kind::Split, Kind::Sum, Kind::Bad, Kind::NoSamples,
    Kind::Frame, Kind::Type, Kind::Great, Kind::Opening, Kind::Bad, Kind::Split, Kind::Sum,
];

/// That many cases, a line each.
pub fn batch(seed: u64, size: u64) -> String {
    let mut rng = Rng::new("replays", seed);
    let mut last: Option<Case> = None;
    (0..size).map(|turn| {
        let case = match (TURNS[turn as usize % TURNS.len()], &last) {
            (Kind::Sum, Some(split)) => sum_of(split),
            (kind, _) => made(&mut rng, kind),
        };
        let text = written(&case);
        last = Some(case);
        format!("replay {}\n", if rng.chance(10) { text.to_uppercase() } else { text })
    }).collect()
}

/// A good card, the session it opens, and a ride on it that is not refused.
pub struct Ride {
    pub card: Vec<u8>,
    pub session: Session,
    pub samples: Vec<Sample>,
}

pub fn ride(rng: &mut Rng, shortest: i64) -> Ride {
    let (mut card, mut session) = fresh(rng, "replays");
    if rng.chance(25) {
        // A limit that is at its final from the beginning, for its steps.
        session.settings.rows[LIMIT].initial = session.settings.rows[LIMIT].r#final;
        card[7 + 4 * LIMIT] = card[8 + 4 * LIMIT];
    }
    let kind = rng.pick(&["random", "answers", "answers", "answers", "drive", "stand", "quiet", "long", "pairs"]);
    let most = rng.pick(&[1, 3, 8, 24, 60, 60]).max(shortest);
    let n = rng.within(shortest, most) as usize;
    let seed = rng.next();
    let mut samples = run(Rng::new(kind, seed), session.clone(), kind, n).unwrap();
    let mut along = session.clone();
    let good = samples.iter().take_while(|sample| along.sample(**sample).is_ok()).count();
    samples.truncate(good);
    while (samples.len() as i64) < shortest {
        samples.push(Sample { mode: along.mode, ..Sample::default() });
    }
    Ride { card, session, samples }
}

impl Ride {
    pub fn n(&self) -> u64 {
        self.samples.len() as u64
    }

    /// In these calls, from a session with few steps or none.
    pub fn case(&self, rng: &mut Rng, calls: Vec<(u64, u64)>) -> Case {
        let few = rng.within(1, 7) as u8;
        let steps = rng.pick(&[0, 0, 0, 0, 8, few]);
        let train = self.session.train;
        Case { train, steps, card: self.card.clone(), recording: recorded(train, &self.samples), calls }
    }

    /// The session before the sample of this position, when a call from this place meets it behind these calls.
    pub fn before(&self, calls: &[(u64, u64)], place: u64, at: u64) -> Session {
        let bytes = recorded(self.session.train, &self.samples);
        let mut start = Handed::new(self.session.clone());
        for (place, quota) in [calls, &[(place, at - place)]].concat() {
            start = replay(&bytes, place, quota, &start).handed;
        }
        start.session
    }
}

fn made(rng: &mut Rng, kind: Kind) -> Case {
    match kind {
        Kind::On => on(rng),
        Kind::Middle => middle(rng),
        Kind::Jumps => jumps(rng),
        Kind::Ends => ends(rng),
        Kind::Great => great(rng),
        Kind::Frame => frame(rng),
        Kind::Steps => steps(rng),
        Kind::Type => type_byte(rng),
        Kind::Opening => opening(rng),
        Kind::Bad => bad(rng),
        Kind::Fields => fields(rng),
        Kind::NoSamples => no_samples(rng),
        Kind::Split | Kind::Sum => split(rng),
    }
}

/// One quota after the other, and some past the end.
fn on(rng: &mut Rng) -> Case {
    let ride = ride(rng, 1);
    let longest = rng.pick(&[1, 3, 10, 30]);
    let mut calls = Vec::new();
    let mut place = 0;
    while calls.len() < 12 && (place < ride.n() || rng.chance(50)) {
        let least = rng.pick(&[0, 1, 1, 1, 1, 1, 1, 1]);
        let quota = rng.within(least, longest) as u64;
        calls.push((place, quota));
        place += quota.min(ride.n() - place);
    }
    ride.case(rng, calls)
}

/// Whether a session has what few have.
fn is_rare(session: &Session) -> bool {
    let mut windows = session.main_window.iter().chain(session.side_window.iter());
    windows.any(|window| window.zone || window.left == 1) || session.limit.is_some_and(|limit| limit.steps > 0)
}

/// A call that ends where something stands, and one that goes on from there, at the next sample or at another.
fn middle(rng: &mut Rng) -> Case {
    let ride = ride(rng, 40);
    let n = ride.n() as i64;
    let mut session = ride.session.clone();
    let rare: Vec<u64> = (1..n as u64).filter(|place| {
        session.sample(ride.samples[*place as usize - 1]).is_ok() && is_rare(&session)
    }).collect();
    let any = rng.within(1, n - 1) as u64;
    let ended = if rare.is_empty() { any } else { rng.pick(&rare) };
    let second = (rng.pick(&[ended, ended, any]), rng.within(1, n) as u64);
    ride.case(rng, vec![(0, ended), second])
}

/// From any place to any other, back and forth; much of the ride again and again.
fn jumps(rng: &mut Rng) -> Case {
    let ride = ride(rng, 4);
    let n = ride.n() as i64;
    let calls = (0..rng.within(2, 7)).map(|_| {
        let place = rng.within(0, n - 1);
        let any = rng.within(0, n + 2);
        (place as u64, rng.pick(&[any, n, n - place, 1]) as u64)
    }).collect();
    ride.case(rng, calls)
}

/// A place at the beginning, in the middle, beside the end or far behind it.
fn place_at_an_end(rng: &mut Rng, n: u64) -> u64 {
    let middle = rng.within(0, n as i64) as u64;
    rng.pick(&[0, middle, n.saturating_sub(1), n, n + 1, u64::MAX])
}

/// A quota beside nothing, beside what is left, or far above it.
fn quota_at_an_end(rng: &mut Rng, left: u64) -> u64 {
    let less = rng.within(0, left as i64) as u64;
    rng.pick(&[0, less, left.saturating_sub(1), left, left + 1, u64::MAX])
}

/// Places and quotas beside their ends, sometimes in the middle of a ride.
pub fn calls_at_ends(rng: &mut Rng, n: u64) -> Vec<(u64, u64)> {
    let mut calls = Vec::new();
    for _ in 0..rng.within(1, 3) {
        let place = place_at_an_end(rng, n);
        if place <= n && rng.chance(30) {
            calls.push((0, place));
        }
        calls.push((place, quota_at_an_end(rng, n.saturating_sub(place))));
    }
    calls
}

fn ends(rng: &mut Rng) -> Case {
    let ride = ride(rng, 3);
    let calls = calls_at_ends(rng, ride.n());
    ride.case(rng, calls)
}

/// Numbers that wrap, or lose their upper half, in a program that is not careful: their sum at 2^64, a small one with 2^16, 2^32
/// or 2^63 added.
fn great(rng: &mut Rng) -> Case {
    let ride = ride(rng, 3);
    let n = ride.n();
    let calls = (0..rng.within(1, 3)).map(|_| {
        let inside = rng.within(0, n as i64 - 1) as u64;
        let small = rng.within(0, n as i64) as u64;
        let more = rng.pick(&[1 << 16, 1 << 32, 1 << 32, 1 << 63, 1 << 63]);
        let place = rng.pick(&[inside, inside, inside, more + inside, more + inside, n + 1, u64::MAX - 1, u64::MAX]);
        let to_the_top = u64::MAX - place;
        let beside_the_top = rng.pick(&[0, 1, 2]);
        let quota = rng.pick(&[to_the_top.saturating_add(beside_the_top), u64::MAX, more + small, more + small, more, small]);
        (place, quota)
    }).collect();
    ride.case(rng, calls)
}

fn no_samples(rng: &mut Rng) -> Case {
    let mut ride = ride(rng, 1);
    ride.samples.clear();
    let calls = (0..rng.within(1, 3)).map(|_| (rng.pick(&[0, 0, 1, u64::MAX]), rng.pick(&[0, 1, 9, u64::MAX]))).collect();
    ride.case(rng, calls)
}

/// Two quotas, the second from where the first ended; a bad sample may be among the second's.
fn split(rng: &mut Rng) -> Case {
    let mut ride = ride(rng, 4);
    let n = ride.n();
    let mut calls = Vec::new();
    let mut place = rng.within(0, n as i64) as u64;
    match rng.within(0, 3) {
        0 | 1 => calls.push((0, place)),
        2 => place = rng.pick(&[n, n + 1, u64::MAX]),
        _ => {}
    }
    let left = n.saturating_sub(place);
    let some = rng.within(0, left as i64) as u64;
    let first = rng.pick(&[0, some, some, some, left, left + 1]);
    let ran = first.min(left);
    let rest = rng.within(0, (left - ran) as i64) as u64;
    let second = rng.pick(&[rest, rest, left - ran, left - ran, left + 1, u64::MAX - first, u64::MAX]);
    if ran < left && rng.chance(60) {
        let at = place + ran + rng.pick(&[0, rest / 2, rest]).min(left - ran - 1);
        let number = rng.pick(&[9, 10, 11]);
        let session = ride.before(&calls, place, at);
        refused_sample(rng, number, &mut ride.samples[at as usize], &session);
    }
    calls.push((place, first));
    calls.push((place + ran, second));
    let mut case = ride.case(rng, calls);
    if rng.chance(15) {
        case.steps = rng.pick(&[9, case.steps]);
        case.recording[4] = rng.pick(&[0, 1]);
    }
    case
}

/// The last two quotas as one of their sum; what is above the greatest number is that number.
fn sum_of(split: &Case) -> Case {
    let mut calls = split.calls.clone();
    let (_, second) = calls.pop().unwrap();
    let (place, first) = calls.pop().unwrap();
    calls.push((place, first.saturating_add(second)));
    Case { calls, ..split.clone() }
}
