//! Bad recordings and bad cards, one damage or two.

use crate::desk::Sample;
use crate::make::{card_area, Rng};
use crate::ride::recorded;
use crate::steer::{fresh, run};

/// A sample out of range: 9, 10 or 11, or the last one that is not.
pub fn bend_sample(rng: &mut Rng, sample: &mut Sample, tick: u16) {
    match rng.within(0, 7) {
        0 => sample.beacon = rng.pick(&[12, 13, 14, 255]),
        1 => sample.buttons = rng.pick(&[2047, 2048, 4096, 65535]),
        2 => sample.mode = rng.pick(&[0, 3, 255]),
        3 | 4 | 5 => sample.pulses = (100_000 / tick as i64 + rng.pick(&[0, 1, 1, 2])).min(65_535) as u16,
        _ => {
            sample.mode = 3 - sample.mode.clamp(1, 2);
            sample.pulses = rng.pick(&[0, 1, 1, 5]);
        }
    }
}

/// A short ride on a good card, then damaged in the card, the recording's frame or one of its samples.
pub fn damaged(rng: &mut Rng, samples: usize) -> (Vec<u8>, Vec<u8>) {
    let (mut card, session) = fresh(rng, "damaged");
    let (train, tick) = (session.train, session.settings.tick);
    let kind = rng.pick(&["random", "answers", "drive"]);
    let seed = rng.next();
    let mut samples = run(Rng::new(kind, seed), session, kind, samples).unwrap();
    let mut train = train;
    let mut bytes = recorded(train, &samples);
    let times = if rng.chance(30) { 2 } else { 1 };
    for _ in 0..times {
        match rng.within(0, 11) {
            0 => card = card_area(rng),
            1 => {
                let place = rng.pick(&[0, 1, 2, 2, 3, 4, 6, 7, 8, 10, 38]).min(card.len() - 1);
                card[place] = rng.pick(&[0, 1, 2, 3, 4, 38, 201, 255]);
            }
            2 => card.truncate(rng.within(0, 49) as usize),
            3 | 4 => bend_frame(rng, &mut bytes),
            5 | 6 => {
                train = if rng.chance(50) { rng.pick(&[0, 9, 255]) } else { rng.within(train as i64, 9) as u8 };
                bytes = recorded(train, &samples);
            }
            _ => {
                if !samples.is_empty() {
                    let at = rng.within(0, samples.len() as i64 - 1) as usize;
                    bend_sample(rng, &mut samples[at], tick);
                }
                bytes = recorded(train, &samples);
            }
        }
        if card.is_empty() {
            break;
        }
    }
    (card, bytes)
}

/// Refusal 14 in each of its ways, and a good recording beside each.
fn bend_frame(rng: &mut Rng, bytes: &mut Vec<u8>) {
    let length = bytes.len();
    match rng.within(0, 6) {
        0 => bytes.truncate(rng.within(0, length as i64) as usize),
        1 => bytes.push(0),
        2 => bytes[rng.pick(&[0, 1, 2, 3])] ^= 1 << rng.within(0, 7),
        3 => bytes[4] = rng.pick(&[0, 1, 2, 255]),
        4 => {
            // As long as stated, but not 6 + 6n.
            bytes.truncate((length as i64 - rng.within(1, 6)) as usize);
            restate(bytes);
        }
        5 => {
            // 10,001 samples, or 10,000, without pulses; the mode may change in each of the last.
            let n = rng.pick(&[10_000, 10_001]);
            let changes = rng.chance(50);
            bytes.truncate(6);
            for left in (0..n).rev() {
                bytes.extend([0, 0, 0, 0, 0, if changes && left < 300 && left % 2 == 0 { 2 } else { 1 }]);
            }
            restate(bytes);
        }
        _ => bytes.truncate(6),
    }
}

pub fn restate(bytes: &mut [u8]) {
    if bytes.len() >= 4 {
        let length = bytes.len() as u32;
        bytes[..4].copy_from_slice(&length.to_be_bytes());
    }
}
