//! Recordings as they come over a line, by seed: good and damaged ones, cut into pieces.

use crate::cases::written_bytes;
use crate::damage::bend_sample;
use crate::desk::{train_speed, Sample};
use crate::make::{card_area, Rng};
use crate::pieces::{written, Call};
use crate::ride::recorded;
use crate::steer::{fresh, run};

/// What is done to a recording.
#[derive(Clone, Copy, PartialEq)]
enum Kind {
    Good,
    Changed,
    Short,
    Longer,
    Head,
    Length,
    Type,
    Card,
    Sample,
    StopsInSample,
    NoSamples,
    Twice,
    NoEnd,
    After,
}

/// The cases of a batch take turns.
const TURNS: [Kind; 16] = [
    Kind::Good, Kind::Changed, Kind::Short, Kind::Longer, Kind::Head, Kind::Length, Kind::Type, Kind::Card, Kind::Sample,
    Kind::StopsInSample, Kind::NoSamples, Kind::Twice, Kind::NoEnd, Kind::After, Kind::Length, Kind::Sample,
];

/// A recording on its card.
struct Line {
    card: Vec<u8>,
    tick: u16,
    vmax: u8,
    train: u8,
    samples: Vec<Sample>,
    bytes: Vec<u8>,
}

/// That many cases, a line each.
pub fn batch(seed: u64, size: u64) -> String {
    let mut rng = Rng::new("pieces", seed);
    (0..size).map(|turn| {
        let kind = TURNS[turn as usize % TURNS.len()];
        let line = line(&mut rng, kind);
        format!("pieces {} {}\n", written_bytes(&line.card), written(&in_pieces(&mut rng, kind, &line.bytes)))
    }).collect()
}

/// The card and the bytes of one line.
pub fn make_line(seed: u64) -> (Vec<u8>, Vec<u8>) {
    let line = line(&mut Rng::new("line", seed), TURNS[seed as usize % TURNS.len()]);
    (line.card, line.bytes)
}

fn line(rng: &mut Rng, kind: Kind) -> Line {
    let fresh_for = rng.pick(&["pieces", "pieces", "pieces", "pairs"]);
    let (card, session) = fresh(rng, fresh_for);
    let (train, tick, vmax) = (session.train, session.settings.tick, session.settings.vmax);
    let ride = rng.pick(&["random", "answers", "drive", "stand", "quiet", "pairs"]);
    // Ten samples of standing need room.
    let most = if ["stand", "quiet", "pairs"].contains(&ride) { 24 } else { rng.pick(&[1, 2, 3, 8, 24]) };
    let n = if kind == Kind::NoSamples { 0 } else { rng.within(1, most) };
    let seed = rng.next();
    let samples = run(Rng::new(ride, seed), session, ride, n as usize).unwrap();
    let bytes = recorded(train, &samples);
    let mut line = Line { card, tick, vmax, train, samples, bytes };
    line.damage(rng, kind);
    line
}

impl Line {
    fn damage(&mut self, rng: &mut Rng, kind: Kind) {
        match kind {
            Kind::Good | Kind::NoSamples => {}
            Kind::Changed => {
                for _ in 0..rng.within(1, 3) {
                    self.change_byte(rng);
                }
            }
            Kind::Short => self.stop_short(rng),
            Kind::Longer => self.go_on(rng),
            Kind::Head => self.bend_head(rng),
            Kind::Length => self.bend_length(rng),
            Kind::Type => {
                self.bend_type(rng);
                if rng.chance(40) {
                    self.stop_short(rng);
                }
            }
            Kind::Card => {
                bend_card(rng, &mut self.card);
                if rng.chance(20) {
                    self.change_byte(rng);
                }
            }
            Kind::Sample => {
                self.bend_a_sample(rng);
            }
            Kind::StopsInSample => {
                let at = self.bend_a_sample(rng);
                self.bytes.truncate(6 + 6 * at + rng.within(1, 5) as usize);
            }
            Kind::Twice => {
                for _ in 0..2 {
                    let kind = rng.pick(&[Kind::Changed, Kind::Short, Kind::Longer, Kind::Type, Kind::Sample, Kind::Head]);
                    if self.bytes.len() >= 6 {
                        self.damage(rng, kind);
                    }
                }
            }
            Kind::NoEnd | Kind::After => {
                let kind = rng.pick(&[Kind::Good, Kind::Good, Kind::Changed, Kind::Short, Kind::Longer, Kind::Sample]);
                self.damage(rng, kind);
            }
        }
    }

    fn change_byte(&mut self, rng: &mut Rng) {
        let place = rng.within(0, self.bytes.len() as i64 - 1) as usize;
        let byte = self.bytes[place];
        let other = rng.byte();
        self.bytes[place] = rng.pick(&[other, other, byte ^ 1 << (other % 8), byte.wrapping_add(1), byte.wrapping_sub(1)]);
    }

    /// Nothing, a part of the head, whole samples, a part of one, all but a byte.
    fn stop_short(&mut self, rng: &mut Rng) {
        let length = self.bytes.len() as i64;
        let at = match rng.within(0, 5) {
            0 => rng.within(0, 5),
            1 => length - 1,
            2 | 3 => 6 * rng.within(1, (length / 6 - 1).max(1)),
            _ => rng.within(0, length - 1),
        };
        self.bytes.truncate(at as usize);
    }

    /// Bytes behind the stated length: anything, or what could be samples.
    fn go_on(&mut self, rng: &mut Rng) {
        let more = rng.within(1, 13);
        let as_samples = rng.chance(50);
        for place in 0..more {
            self.bytes.push(if as_samples { (place % 6 == 5) as u8 } else { rng.byte() });
        }
    }

    /// One of the first five bytes bad by itself, or six bytes at random.
    fn bend_head(&mut self, rng: &mut Rng) {
        let byte = rng.byte();
        match rng.within(0, 4) {
            0 => self.bytes[0] = rng.pick(&[1, 1, 255, byte]),
            1 => self.bytes[1] = rng.pick(&[1, 1, 255, byte]),
            2 => self.bytes[3] = self.bytes[3].wrapping_add(rng.pick(&[1, 255, 6, 250, byte])),
            3 => self.bytes[4] = rng.pick(&[0, 2, 0, 2, 255, byte]),
            _ => {
                for place in 0..6 {
                    self.bytes[place] = rng.byte();
                }
            }
        }
    }

    /// Stated lengths on both sides of a2's lines.
    fn bend_length(&mut self, rng: &mut Rng) {
        let byte = rng.byte() as u32;
        let length = rng.pick(&[0, 6, 7, 12, 60_006, 60_007, 60_012, 0xea00 + byte, 0xeb00 + byte, 0xeb00 + byte, 256 * byte]);
        self.bytes[..4].copy_from_slice(&length.to_be_bytes());
        if length <= 12 && rng.chance(50) {
            self.bytes.truncate((length as usize).max(6)); // no more than stated
        }
    }

    /// Types beside the ends of what refusal 7 allows.
    fn bend_type(&mut self, rng: &mut Rng) {
        let last = (1..=8).filter(|train| train_speed(*train) <= self.vmax as i64).last().unwrap();
        let byte = rng.byte();
        self.train = rng.pick(&[0, 0, last, last + 1, last + 1, 1, 8, 9, 255, byte]);
        self.bytes[5] = self.train;
    }

    /// A sample's fields beside their ends, one or two of them; its number from 0.
    fn bend_a_sample(&mut self, rng: &mut Rng) -> usize {
        let at = rng.within(0, self.samples.len() as i64 - 1) as usize;
        let sample = &mut self.samples[at];
        for _ in 0..rng.within(1, 2) {
            match rng.within(0, 8) {
                0 => sample.beacon = rng.pick(&[12, 13]),
                1 => sample.buttons = rng.pick(&[0x07ff, 0x0700, 0x0800, 0x08ff]),
                2 => sample.mode = rng.pick(&[0, 3]),
                3 => sample.mode = rng.pick(&[1, 2]),
                4 => sample.pulses = 0xffff,
                5 => {
                    sample.pulses = 0xffff;
                    sample.beacon = rng.pick(&[0, 12, 13, 255]);
                }
                6 | 7 => sample.pulses = (100_000 / self.tick as u32 + rng.pick(&[0, 0, 1])) as u16,
                _ => bend_sample(rng, sample, self.tick),
            }
        }
        let first = 6 + 6 * at;
        let six = recorded(self.train, &self.samples)[first..first + 6].to_vec();
        for (byte, bent) in self.bytes.iter_mut().skip(first).zip(six) {
            *byte = bent;
        }
        at
    }
}

/// Each refusal of a card, or any card.
pub fn bend_card(rng: &mut Rng, card: &mut Vec<u8>) {
    let whole = card.len() as i64;
    match rng.within(0, 8) {
        0 => card.truncate(rng.within(0, 2) as usize),
        1 => card.truncate(rng.within(3, whole.min(38)) as usize),
        2 => card[2] = 0,
        3 => card[2] = 4,
        4 => card[1] = rng.pick(&[38, 40, 43, 45, 48, 50]),
        5 => card[rng.pick(&[3, 6, 7, 8, 10, 44, 48]).min(whole as usize - 1)] = 0,
        6 => card[2] = rng.pick(&[0, 0, 4]),
        _ => *card = card_area(rng),
    }
}

/// The pieces of a line, its end, and what comes after that.
fn in_pieces(rng: &mut Rng, kind: Kind, bytes: &[u8]) -> Vec<Call> {
    let mut calls: Vec<Call> = cut(rng, bytes).into_iter().map(Call::Piece).collect();
    if kind != Kind::NoEnd {
        calls.push(Call::End);
    }
    if kind == Kind::After || rng.chance(15) {
        for _ in 0..rng.within(1, 4) {
            calls.push(match rng.within(0, 2) {
                0 => Call::Piece(Vec::new()),
                1 => Call::End,
                _ => Call::Piece((0..rng.within(1, 7)).map(|_| rng.byte()).collect()),
            });
        }
    }
    calls
}

/// One piece, byte by byte, pieces of one length, two pieces anywhere or beside a sample's end, any lengths with none
/// among them.
fn cut(rng: &mut Rng, bytes: &[u8]) -> Vec<Vec<u8>> {
    let length = bytes.len() as i64;
    let mut places: Vec<i64> = Vec::new();
    match rng.within(0, 6) {
        0 => {}
        1 => places.extend(1..length),
        2 => places.extend((0..length).step_by(rng.within(2, 13) as usize).skip(1)),
        3 => places.push(rng.within(0, length)),
        4 => places.push(6 * rng.within(1, (length / 6).max(1)) + rng.within(-1, 1)),
        _ => {
            let longest = rng.pick(&[3, 9, 40]);
            let mut place = rng.within(0, longest);
            while place < length {
                places.push(place);
                place += rng.within(0, longest);
            }
        }
    }
    let mut pieces = Vec::new();
    let mut from = 0;
    for place in places {
        let to = place.clamp(from, length);
        pieces.push(bytes[from as usize..to as usize].to_vec());
        from = to;
        if rng.chance(4) {
            pieces.push(Vec::new());
        }
    }
    pieces.push(bytes[from as usize..].to_vec());
    pieces
}
