//! Replays by seed with something at fault: the recording, the session, the type byte, the card, a sample.

use crate::damage::{bend_sample, restate};
use crate::desk::{train_speed, Sample, Session, STANDING};
use crate::line::bend_card;
use crate::make::Rng;
use crate::replay_make::{calls_at_ends, ride};
use crate::replays::Case;

/// Where a bad sample stands: among those that are due, just behind the quota, just before the place.
#[derive(Clone, Copy, PartialEq)]
enum Spot {
    First,
    Middle,
    Last,
    Behind,
    Before,
}

/// Refusal 14 by each of its reasons, with a good session or a bad one.
pub fn frame(rng: &mut Rng) -> Case {
    let mut ride = ride(rng, 1);
    let n = ride.n();
    if rng.chance(30) {
        ride.samples[0].beacon = 13;
    }
    let calls = calls_at_ends(rng, n);
    let mut case = ride.case(rng, calls);
    case.steps = rng.pick(&[0, 0, 8, 9, 255]);
    bend_frame(rng, &mut case.recording);
    case
}

fn bend_frame(rng: &mut Rng, bytes: &mut Vec<u8>) {
    let whole = bytes.len() as i64;
    match rng.within(0, 9) {
        0 => bytes.truncate(rng.within(0, 5) as usize),
        1 => bytes.truncate(rng.within(6, whole - 1) as usize),
        2 => bytes.truncate(6 * rng.within(1, whole / 6 - 1) as usize),
        3 => bytes.extend(vec![1; rng.within(1, 13) as usize]),
        4 => bytes.extend([0, 0, 0, 0, 0, 1]),
        5 => {
            bytes.extend(vec![0; rng.within(1, 5) as usize]);
            restate(bytes);
        }
        6 => bytes[..4].copy_from_slice(&rng.pick(&[0u32, 6, 60_006, 60_007, 60_012, 60_012, 60_012]).to_be_bytes()),
        7 => bytes[rng.pick(&[0, 1])] = rng.pick(&[1, 255]),
        8 => bytes[4] = 0,
        _ => bytes[4] = rng.pick(&[2, 2, 3, 255]),
    }
}

/// A session out of its ranges, or the last one that is not: also where none runs, and where the sample is bad too.
pub fn steps(rng: &mut Rng) -> Case {
    let mut ride = ride(rng, 1);
    if rng.chance(15) {
        ride.samples.clear();
    } else if rng.chance(50) {
        for sample in &mut ride.samples {
            sample.mode = 3;
        }
    }
    let calls = calls_at_ends(rng, ride.n());
    let mut case = ride.case(rng, calls);
    case.steps = rng.pick(&[8, 9, 9, 9, 10, 128, 255]);
    case
}

/// The fastest train that the card of a session allows.
pub fn fastest(session: &Session) -> u8 {
    (1..=8).filter(|train| train_speed(*train) <= session.settings.vmax as i64).last().unwrap()
}

/// Type bytes that are not the session's.
pub fn type_byte(rng: &mut Rng) -> Case {
    let ride = ride(rng, 1);
    let calls = calls_at_ends(rng, ride.n());
    let mut case = ride.case(rng, calls);
    let fastest = fastest(&ride.session);
    let other = rng.within(1, fastest as i64) as u8;
    case.recording[5] = rng.pick(&[0, 99, other, other, (fastest + 1).min(8), (fastest + 1).min(8), 9, 255]);
    case
}

/// A card or a train type that is refused; the recording may be bad too.
pub fn opening(rng: &mut Rng) -> Case {
    let mut ride = ride(rng, 1);
    let fastest = fastest(&ride.session);
    if rng.chance(60) {
        bend_card(rng, &mut ride.card);
    }
    let calls = calls_at_ends(rng, ride.n());
    let mut case = ride.case(rng, calls);
    case.train = rng.pick(&[ride.session.train, 0, fastest, fastest + 1, fastest + 1, 9, 99, 255]);
    if rng.chance(30) {
        case.recording[4] = 0;
    }
    case
}

/// A sample that this session refuses by this number.
pub fn refused_sample(rng: &mut Rng, number: u8, sample: &mut Sample, session: &Session) {
    let too_many = (100_000 / session.settings.tick as u32 + 1) as u16;
    let other_mode = 3 - session.mode;
    match number {
        9 => {
            match rng.within(0, 2) {
                0 => sample.beacon = rng.pick(&[13, 13, 255]),
                1 => sample.buttons = rng.pick(&[2048, 2048, 65535]),
                _ => sample.mode = rng.pick(&[0, 3, 255]),
            }
            sample.pulses = rng.pick(&[sample.pulses, sample.pulses, too_many]);
            if sample.mode == session.mode && rng.chance(25) {
                (sample.pulses, sample.mode) = (1, other_mode);
            }
        }
        10 => {
            sample.pulses = rng.pick(&[too_many, too_many, 65_535]);
            sample.mode = rng.pick(&[session.mode, session.mode, other_mode]);
        }
        _ => {
            let pulses = if session.stood + 1 < STANDING { rng.pick(&[0, 1]) } else { 1 };
            (sample.pulses, sample.mode) = (pulses, other_mode);
        }
    }
}

/// A bad sample at each spot, by each number; calls may follow.
pub fn bad(rng: &mut Rng) -> Case {
    let mut ride = ride(rng, 6);
    let n = ride.n();
    let number = rng.pick(&[9, 10, 11]);
    let spot = rng.pick(&[Spot::First, Spot::Middle, Spot::Last, Spot::Behind, Spot::Before]);
    let place = rng.within(if spot == Spot::Before { 1 } else { 0 }, n as i64 - 4) as u64;
    let left = n - place;
    let less = rng.within(3, left as i64 - 1) as u64;
    let quota = if spot == Spot::Behind { less } else { rng.pick(&[less, left, left + 1, u64::MAX]) };
    let due = quota.min(left);
    let at = match spot {
        Spot::First => place,
        Spot::Middle => place + rng.within(1, due as i64 - 2) as u64,
        Spot::Last => place + due - 1,
        Spot::Behind => place + due,
        Spot::Before => place - 1,
    };
    let mut calls = Vec::new();
    let to = if spot == Spot::Before { place - 1 } else { place };
    if to > 0 && rng.chance(50) {
        calls.push((0, to));
    }
    let session = ride.before(&calls, place, at.max(place));
    refused_sample(rng, number, &mut ride.samples[at as usize], &session);
    calls.push((place, quota));
    if spot == Spot::Behind && rng.chance(30) {
        calls.push((at, 0));
    }
    for _ in 0..rng.pick(&[0, 1, 3]) {
        calls.push(rng.pick(&[(at, 0), (at, 1), (at, n), (at + 1, 1), (at + 1, n), (0, n), (place, quota)]));
    }
    ride.case(rng, calls)
}

/// Fields beside their ends, in the whole ride.
pub fn fields(rng: &mut Rng) -> Case {
    let mut ride = ride(rng, 1);
    let tick = ride.session.settings.tick;
    let at = rng.within(0, ride.n() as i64 - 1) as u64;
    let sample = &mut ride.samples[at as usize];
    match rng.within(0, 7) {
        0 => sample.beacon = rng.pick(&[12, 13]),
        1 | 6 => sample.buttons = rng.pick(&[2047, 2047, 2048]),
        2 | 3 | 7 => sample.pulses = (100_000 / tick as u32 + rng.pick(&[0, 0, 1])) as u16,
        _ => bend_sample(rng, sample, tick),
    }
    let middle = rng.pick(&[0, at, at + 1]);
    ride.case(rng, vec![(0, middle), (middle, u64::MAX)])
}
