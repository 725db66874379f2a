//! Reasons by seed: rides of up to 60 samples from sessions whose brake stands as no ride leaves it, after both sides of f7 and f8.

use crate::desk::{Sample, Session, AGE_TOP, BTS, CAUSE_TOP, QUIET};
use crate::line::bend_card;
use crate::make::Rng;
use crate::replay_damage::{fastest, refused_sample};
use crate::ride::recorded;
use crate::steer::{fresh, run};
use crate::whys::{written, Case};

/// What a case is after.
#[derive(Clone, Copy, PartialEq)]
enum Kind {
    Ride,
    Braked,
    Top,
    Standing,
    Out,
    Unbraked,
    Between,
    Opening,
    Bytes,
}

/// The cases of a batch take turns.
const TURNS: [Kind; 14] = [
    Kind::Ride, Kind::Braked, Kind::Standing, Kind::Out, Kind::Between, Kind::Top, Kind::Opening, Kind::Unbraked, Kind::Standing,
    Kind::Braked, Kind::Between, Kind::Bytes, Kind::Top, Kind::Out,
];

/// That many cases, a line each.
pub fn batch(seed: u64, size: u64) -> String {
    let mut rng = Rng::new("whys", seed);
    (0..size).map(|turn| {
        let text = written(&made(&mut rng, TURNS[turn as usize % TURNS.len()]));
        format!("why {}\n", if rng.chance(10) { text.to_uppercase() } else { text })
    }).collect()
}

fn made(rng: &mut Rng, kind: Kind) -> Case {
    match kind {
        Kind::Ride => ride(rng, (0, 0)),
        Kind::Braked => {
            let brake = braked(rng);
            ride(rng, brake)
        }
        Kind::Top => {
            let brake = (rng.within(1, CAUSE_TOP as i64) as u8, rng.within(29_996, AGE_TOP) as u16);
            if rng.chance(50) { standing(rng, brake) } else { ride(rng, brake) }
        }
        Kind::Standing => {
            let brake = if rng.chance(20) { (0, 0) } else { braked(rng) };
            standing(rng, brake)
        }
        Kind::Out => out(rng),
        Kind::Unbraked => unbraked(rng),
        Kind::Between => between(rng),
        Kind::Opening => opening(rng),
        Kind::Bytes => bytes(rng),
    }
}

/// A cause and since when it stands, inside the ranges.
fn braked(rng: &mut Rng) -> (u8, u16) {
    let any = rng.within(2, AGE_TOP) as u16;
    (rng.within(1, CAUSE_TOP as i64) as u8, rng.pick(&[0, 0, 1, 1, any, 29_998, 29_999, 30_000]))
}

/// A card and the session that it opens, with this brake.
fn begun(rng: &mut Rng, brake: (u8, u16)) -> (Vec<u8>, Session) {
    let kind = rng.pick(&["random", "stand", "why", "why", "pairs"]);
    let (card, session) = fresh(rng, kind);
    (card, Session { cause: brake.0, brake_age: brake.1 as i64, ..session })
}

fn case(card: Vec<u8>, session: &Session, brake: (u8, u16), samples: &[Sample]) -> Case {
    let samples = recorded(session.train, samples)[6..].to_vec();
    Case { train: session.train, cause: brake.0, since: brake.1, card, samples }
}

/// A ride of any kind from that session; it may end with a sample that is refused.
fn ride_from(rng: &mut Rng, session: &Session) -> Vec<Sample> {
    let kind = rng.pick(&["random", "answers", "answers", "drive", "stand", "quiet", "why", "why", "pairs", "pairs"]);
    let n = rng.pick(&[1, 3, 8, 24, 60, 60]);
    let seed = rng.next();
    run(Rng::new(kind, seed), session.clone(), kind, n).unwrap()
}

fn ride(rng: &mut Rng, brake: (u8, u16)) -> Case {
    let (card, session) = begun(rng, brake);
    let samples = ride_from(rng, &session);
    case(card, &session, brake, &samples)
}

/// Mostly without pulses: rearms that work, that come too early, and with a fresh cause; mode changes, causes of every kind on a
/// braked desk. Some of the mode changes are refused.
fn standing(rng: &mut Rng, brake: (u8, u16)) -> Case {
    let (card, mut session) = begun(rng, brake);
    let begins = session.clone();
    let n = rng.pick(&[1, 3, 8, 24, 40]);
    let fast = (100_000 / session.settings.tick as i64).min(65_535) as u16;
    let (moves, rearms) = (rng.pick(&[0, 2, 8]), rng.pick(&[2, 10, 30]));
    let samples: Vec<Sample> = (0..n).map(|_| {
        let mut sample = Sample { mode: session.mode, ..Sample::default() };
        if rng.chance(12) {
            sample.beacon = rng.pick(&[8, 8, QUIET, QUIET, 1, 7, 9, 10]);
        }
        if rng.chance(rearms) {
            sample.buttons = 1024;
        }
        if rng.chance(if session.mode == BTS { 16 } else { 8 }) {
            sample.mode = 3 - session.mode;
        } else if rng.chance(moves) {
            sample.pulses = rng.pick(&[1, fast]);
        }
        let _ = session.sample(sample);
        sample
    }).collect();
    case(card, &begins, brake, &samples)
}

/// A cause or an age out of its range, or both; a sample may be bad too.
fn out(rng: &mut Rng) -> Case {
    let mut case = ride(rng, (0, 0));
    let (cause, since) = braked(rng);
    case.cause = rng.pick(&[cause, 0, 7, 7, 8, 255]);
    case.since = match case.cause {
        0..=CAUSE_TOP => rng.pick(&[30_001, 30_001, 30_002, 65_535, 65_535]),
        _ => rng.pick(&[since, since, 0, 30_001, 65_535]),
    };
    if rng.chance(40) {
        let at = 6 * rng.within(0, case.samples.len() as i64 / 6 - 1) as usize;
        let place = rng.pick(&[0, 2, 3, 5]);
        case.samples[at + place] = 255;
    }
    case
}

/// An age beside a brake that is off; it may come on at once.
fn unbraked(rng: &mut Rng) -> Case {
    let brake = (0, rng.pick(&[1, 2, 29_998, 29_999, 30_000, 30_000]));
    let mut case = if rng.chance(50) { standing(rng, brake) } else { ride(rng, brake) };
    if rng.chance(50) {
        case.samples[2] = rng.pick(&[8, QUIET]);
    }
    case
}

/// Refused samples between those that are accepted.
fn between(rng: &mut Rng) -> Case {
    let brake = if rng.chance(20) { (0, 0) } else { braked(rng) };
    let (card, begins) = begun(rng, brake);
    let mut session = begins.clone();
    let mut samples = Vec::new();
    for sample in ride_from(rng, &begins) {
        if samples.len() < 60 && rng.chance(15) {
            for _ in 0..rng.pick(&[1, 1, 2]) {
                let mut bad = sample;
                let number = rng.pick(&[9, 10, 11]);
                refused_sample(rng, number, &mut bad, &session);
                samples.push(bad);
            }
        }
        let _ = session.sample(sample);
        samples.push(sample);
    }
    samples.truncate(64);
    case(card, &begins, brake, &samples)
}

/// A card or a train type that is refused, or the fastest that is not; the brake may be out of its ranges too.
fn opening(rng: &mut Rng) -> Case {
    let brake = braked(rng);
    let (mut card, session) = begun(rng, brake);
    let samples = ride_from(rng, &session);
    if rng.chance(60) {
        bend_card(rng, &mut card);
    }
    let fastest = fastest(&session);
    let mut case = case(card, &session, brake, &samples);
    case.train = rng.pick(&[session.train, 0, fastest, fastest + 1, fastest + 1, 9, 99, 255]);
    case.cause = rng.pick(&[case.cause, case.cause, 7]);
    case
}

/// No samples, or bytes behind the last whole one.
fn bytes(rng: &mut Rng) -> Case {
    let brake = braked(rng);
    let mut case = ride(rng, brake);
    if rng.chance(40) {
        case.samples.clear();
    }
    let behind = rng.pick(&[0, 0, 0, 1, 2, 3, 4, 5]);
    case.samples.extend((0..behind).map(|_| rng.byte()));
    case
}
