//! Batches of cases by seed: cards to read, settings to write, sheets with tones; recordings in pieces are line.rs's, replays
//! replay_make.rs's, reasons whys_make.rs's.

use crate::card::{self, Row, Settings, PAIR_SPEEDS};
use crate::cards::{unhex, CARD_A, CARD_P, CARD_R, CARD_R2, CARD_RL};
use crate::cases::hex;
use crate::check::SHEET;
use crate::line;
use crate::replay_make;
use crate::whys_make;

/// Splitmix64: the same seed gives the same numbers everywhere.
pub struct Rng(u64);

impl Rng {
    pub fn new(kind: &str, seed: u64) -> Rng {
        let mut rng = Rng(kind.bytes().fold(seed, |n, b| n.wrapping_mul(0x100000001b3) ^ b as u64));
        rng.next();
        rng
    }

    pub fn next(&mut self) -> u64 {
        self.0 = self.0.wrapping_add(0x9e3779b97f4a7c15);
        let z = (self.0 ^ self.0 >> 30).wrapping_mul(0xbf58476d1ce4e5b9);
        let z = (z ^ z >> 27).wrapping_mul(0x94d049bb133111eb);
        z ^ z >> 31
    }

    /// Both ends belong to it.
    pub fn within(&mut self, low: i64, high: i64) -> i64 {
        low + (self.next() % (high - low + 1) as u64) as i64
    }

    pub fn chance(&mut self, percent: i64) -> bool {
        self.within(0, 99) < percent
    }

    pub fn pick<T: Copy>(&mut self, items: &[T]) -> T {
        items[self.within(0, items.len() as i64 - 1) as usize]
    }

    pub fn byte(&mut self) -> u8 {
        self.next() as u8
    }
}

pub fn batch(kind: &str, seed: u64, size: u64) -> Option<String> {
    let mut rng = Rng::new(kind, seed);
    let case = match kind {
        "cards" => card_case,
        "settings" => settings_case,
        "tones" => tone_case,
        "pieces" => return Some(line::batch(seed, size)),
        "replays" => return Some(replay_make::batch(seed, size)),
        "whys" => return Some(whys_make::batch(seed, size)),
        _ => return None,
    };
    Some((0..size).map(|_| case(&mut rng)).collect())
}

/// Random settings in range: rows of any shape.
fn any_settings(rng: &mut Rng) -> Settings {
    let mut s = Settings { vmax: rng.within(80, 200) as u8, tick: any_tick(rng), ..Settings::default() };
    s.bts = rng.within(1, 200) as u8;
    for row in &mut s.rows {
        let initial = rng.within(1, 200);
        let r#final = if rng.chance(10) { initial } else { rng.within(1, initial) };
        *row = Row {
            initial: initial as u8,
            r#final: r#final as u8,
            delay: rng.byte(),
            drop: rng.within(1, 255) as u8,
        };
    }
    s
}

/// Rows that fall soon and far, so that finals are reached within a short ride.
fn quick_settings(rng: &mut Rng) -> Settings {
    let mut s = any_settings(rng);
    s.vmax = rng.within(160, 200) as u8;
    s.bts = rng.within(40, 160) as u8;
    for row in &mut s.rows {
        row.initial = rng.within(60, 200) as u8;
        row.r#final = rng.within(1, 60) as u8;
        row.delay = rng.within(0, 40) as u8;
        row.drop = rng.within(60, 255) as u8;
    }
    // A low final leaves room for eight steps; one of nine km/h times a number is met exactly by m.
    s.rows[6].r#final = if rng.chance(40) { rng.within(1, 19) as u8 } else { rng.pick(&[9, 18, 27, 36, 45, 54]) };
    s
}

/// Small, large and usual tick lengths.
fn any_tick(rng: &mut Rng) -> u16 {
    match rng.within(0, 5) {
        0 => rng.within(10, 30) as u16,
        1 => rng.within(500, 1000) as u16,
        2 => rng.within(10, 1000) as u16,
        3 => rng.pick(&[10, 10, 20, 25, 40, 50, 1000, 12, 24, 463, 41, 271]),
        _ => 100,
    }
}

/// Speeds for the four kinds of pairs, any or all the same, and a pair distance: what version 3 adds.
pub fn pair_settings(rng: &mut Rng, s: &mut Settings) {
    s.pairs = [0; 4].map(|_| rng.pick(&PAIR_SPEEDS));
    if rng.chance(15) {
        s.pairs = [s.pairs[0]; 4];
    }
    s.distance = if rng.chance(50) { rng.within(1, 50) as u8 } else { rng.pick(&[1, 2, 10, 10, 20, 49, 50, 50]) };
}

/// A card in range and its version; functions 0 on version 1.
pub fn good_settings(rng: &mut Rng) -> (u8, Settings) {
    let (mut version, mut s) = older_settings(rng);
    if rng.chance(if version == 1 { 20 } else { 55 }) {
        version = 3;
        pair_settings(rng, &mut s);
    }
    (version, s)
}

/// A card of version 1 or 2 in range.
fn older_settings(rng: &mut Rng) -> (u8, Settings) {
    let mut s = match rng.within(0, 9) {
        0 | 1 | 2 => any_settings(rng),
        3 | 4 | 5 => quick_settings(rng),
        _ => {
            let card = rng.pick(&[CARD_A, CARD_R, CARD_RL, CARD_R2, CARD_P]);
            let mut s = card::read(2, &unhex(card)).unwrap();
            if rng.chance(50) {
                s.tick = any_tick(rng);
            }
            s
        }
    };
    if rng.chance(20) {
        s.functions = 0;
        s.x = 0;
        s.y = 0;
        return (rng.within(1, 2) as u8, s);
    }
    s.functions = if rng.chance(60) { 15 } else { rng.within(0, 15) as u8 };
    if s.function(2) {
        s.x = if rng.chance(80) { rng.within(2, 120) } else { rng.pick(&[2, 3, 200, 5999, 6000]) } as u16;
        s.y = if rng.chance(50) { rng.within(1, 300) } else { rng.pick(&[1, 500, 4999, 5000]) } as u16;
    } else {
        s.x = 0;
        s.y = 0;
    }
    (2, s)
}

/// One setting at or beyond an end of its range.
fn bend(rng: &mut Rng, s: &mut Settings) {
    let byte = rng.byte();
    let row = rng.within(0, 7) as usize;
    match rng.within(0, 10) {
        0 => s.vmax = rng.pick(&[0, 79, 80, 200, 201, 255, byte]),
        1 => s.tick = rng.pick(&[0, 9, 10, 1000, 1001, 65535, 256, byte as u16]),
        2 => s.bts = rng.pick(&[0, 1, 200, 201, 255, byte]),
        3 => s.rows[row].initial = rng.pick(&[0, 1, 200, 201, 255, byte]),
        4 => s.rows[row].r#final = rng.pick(&[0, 1, s.rows[row].initial, s.rows[row].initial.wrapping_add(1), 255, byte]),
        5 => s.rows[row].drop = rng.pick(&[0, 1, 255, byte]),
        6 => s.functions = rng.pick(&[0, 4, 11, 15, 16, 20, 255, byte]),
        7 => s.x = rng.pick(&[0, 1, 2, 6000, 6001, 65535, byte as u16]),
        8 => s.y = rng.pick(&[0, 1, 5000, 5001, 65535, byte as u16]),
        _ => bend_pairs(rng, s),
    }
}

/// A pair's speed at or beside one of the four, or the distance at or beside an end; or none of them, as versions 1 and 2 have it.
fn bend_pairs(rng: &mut Rng, s: &mut Settings) {
    let byte = rng.byte();
    match rng.within(0, 12) {
        0..=9 => {
            let speed = rng.pick(&PAIR_SPEEDS);
            let beside = rng.pick(&[speed - 1, speed, speed + 1]);
            s.pairs[rng.within(0, 3) as usize] = if rng.chance(15) { rng.pick(&[0, 0, 0, 60, 255, byte]) } else { beside };
        }
        10 | 11 => s.distance = rng.pick(&[0, 1, 50, 51, 255, byte]),
        _ => (s.pairs, s.distance) = ([0; 4], rng.pick(&[0, 0, 10])),
    }
}

/// A record of these settings as a card carries it; silent bytes may hold anything.
pub fn card_bytes(rng: &mut Rng, version: u8, s: &Settings) -> Vec<u8> {
    let mut bytes = card::record(version, s);
    if version != 1 && !s.function(2) && rng.chance(60) {
        for place in 40..44 {
            bytes[place] = rng.byte();
        }
    }
    bytes
}

/// A card area: as it should be, damaged in one place, cut short, with garbage behind, or of random bytes.
pub fn card_area(rng: &mut Rng) -> Vec<u8> {
    let (version, mut s) = good_settings(rng);
    if version == 3 && rng.chance(40) {
        // Nothing else is damaged, but X or Y now and then.
        bend_pairs(rng, &mut s);
        if s.function(2) && rng.chance(8) {
            (s.x, s.y) = rng.pick(&[(1, 1), (2, 0)]);
        }
        return card_bytes(rng, version, &s);
    }
    if rng.chance(40) {
        bend(rng, &mut s);
    }
    let mut area = card_bytes(rng, version, &s);
    match rng.within(0, 9) {
        0 => {
            let place = rng.within(0, area.len() as i64 - 1) as usize;
            area[place] = rng.byte();
        }
        1 => area.truncate(if rng.chance(50) { rng.pick(&[38, 39, 43, 44, 48]) } else { rng.within(0, 49) as usize }),
        2 => area[2] = rng.pick(&[0, 1, 2, 3, 4, 255]),
        3 => area[1] = rng.pick(&[0, 38, 39, 40, 43, 44, 45, 48, 49, 50]),
        4 => area[0] = rng.pick(&[0, 1, 255]),
        5 => {
            let length = rng.within(0, 60);
            area = (0..length).map(|_| rng.byte()).collect();
        }
        _ => {}
    }
    if rng.chance(10) && area.len() > 2 {
        area[rng.pick(&[1, 2])] = rng.pick(&[0, 1, 2, 3, 4, 39, 44, 49]);
    }
    if rng.chance(25) {
        let length = rng.within(1, 20);
        area.extend((0..length).map(|_| rng.byte()).collect::<Vec<u8>>());
    }
    area
}

fn card_case(rng: &mut Rng) -> String {
    let mut area = card_area(rng);
    let mut highest: u8 = if rng.chance(65) { 3 } else { rng.pick(&[0, 1, 1, 1, 2, 2, 2, 3, 4, 255]) };
    if rng.chance(10) && area.len() > 2 {
        // Any version under any highest.
        area[2] = rng.within(0, 4) as u8;
        highest = rng.within(0, 4) as u8;
    }
    format!("area {}\nread {highest:02x}\n", hex(&area))
}

fn settings_case(rng: &mut Rng) -> String {
    let (mut version, mut s) = good_settings(rng);
    match rng.within(0, 9) {
        0 | 1 | 2 => bend(rng, &mut s),
        3 | 4 | 5 => bend_pairs(rng, &mut s),
        _ => {}
    }
    if rng.chance(15) {
        bend(rng, &mut s);
    }
    if rng.chance(20) {
        version = rng.pick(&[0, 1, 2, 3, 4, 255]);
    }
    if rng.chance(10) && version < 3 {
        // One of what version 3 adds beside another version.
        (s.pairs, s.distance) = ([0; 4], 0);
        match rng.within(0, 4) as usize {
            4 => s.distance = rng.pick(&[1, 10, 255]),
            kind => s.pairs[kind] = rng.pick(&[1, 30, 70]),
        }
    }
    let room = if rng.chance(50) { rng.pick(&[0, 38, 39, 40, 43, 44, 45, 48, 49, 50, 64]) } else { rng.within(0, 64) };
    // A record carries the settings in order, but zeroes X and Y with bit 2 off: they go in as they are.
    let mut area = card::record(2, &s)[..40].to_vec();
    area.extend(s.x.to_be_bytes());
    area.extend(s.y.to_be_bytes());
    area.extend(s.pairs);
    area.push(s.distance);
    if s.pairs == [0; 4] && s.distance == 0 && rng.chance(50) {
        area.truncate(44); // what the area does not have is 0
    }
    format!("area {}\nwrite {version:02x} {room:02x} {:02x}\n", hex(&area), rng.byte())
}

fn next_up(tone: f32) -> f32 {
    f32::from_bits(tone.to_bits() + 1)
}

fn next_down(tone: f32) -> f32 {
    f32::from_bits(tone.to_bits() - 1)
}

/// Twelve rows that share no tone, in any order: ends picked from 32..128, neighbours sometimes one float apart.
fn good_rows(rng: &mut Rng) -> Vec<[f32; 3]> {
    let (bottom, top) = (32f32.to_bits() as i64, 128f32.to_bits() as i64);
    let mut ends: Vec<i64> = (0..24).map(|_| rng.within(bottom, top)).collect();
    if rng.chance(20) {
        ends[0] = bottom;
        ends[1] = top;
    }
    ends.sort();
    for i in 1..24 {
        if i % 2 == 0 && (rng.chance(10) || ends[i] <= ends[i - 1]) {
            ends[i] = ends[i - 1] + 1;
        }
        if i % 2 == 1 && (rng.chance(10) || ends[i] < ends[i - 1]) {
            ends[i] = ends[i - 1];
        }
    }
    let mut rows: Vec<[f32; 3]> = ends.chunks(2).map(|pair| {
        let centre = if rng.chance(20) { rng.pick(&[pair[0], pair[1]]) } else { rng.within(pair[0], pair[1]) };
        [pair[0], centre, pair[1]].map(|bits| f32::from_bits(bits as u32))
    }).collect();
    for i in (1..12).rev() {
        rows.swap(i, rng.within(0, i as i64) as usize);
    }
    rows
}

fn bits(number: f32) -> [u8; 4] {
    number.to_bits().to_be_bytes()
}

/// One row made bad, or good only just.
fn bend_row(rng: &mut Rng, rows: &mut [[f32; 3]]) {
    let i = rng.within(0, 11) as usize;
    let other = rows[rng.within(0, 11) as usize];
    let number = rng.within(0, 2) as usize;
    match rng.within(0, 9) {
        0 => rows[i][number] = f32::from_bits(rng.pick(&[0x7fc00000, 0xffffffff, 0x7f800001, 0x7f800000, 0xff800000])),
        1 => rows[i][0] = rng.pick(&[32.0, next_down(32.0), -0.0, 0.0]),
        2 => rows[i][2] = rng.pick(&[128.0, next_up(128.0), 129.0]),
        3 => rows[i][1] = rng.pick(&[next_down(rows[i][0]), rows[i][0], rows[i][2], next_up(rows[i][2])]),
        4 => rows[i].swap(0, 2),
        5 => rows[i] = [other[2]; 3],
        6 => rows[i][2] = rng.pick(&[other[0], other[2]]),
        7 => {
            // A whole octave, or one float more, and the other rows above it.
            let low = 32.0 + rng.within(0, 100) as f32 / 64.0;
            let high = rng.pick(&[2.0 * low, next_up(2.0 * low), next_down(2.0 * low)]);
            rows[0] = [low, low, high];
            let mut edge = high;
            for row in rows.iter_mut().skip(1) {
                *row = [next_up(edge) + 1.0, next_up(edge) + 2.0, next_up(edge) + 3.0];
                edge = row[2];
            }
        }
        8 => rows[i][number] = -rows[i][number],
        _ => rows[i][number] = f32::from_bits(rng.next() as u32),
    }
}

/// A tone at, beside or inside a row, or any bit pattern.
fn any_tone(rng: &mut Rng, rows: &[[f32; 3]]) -> u32 {
    let row = rng.pick(rows);
    let number = rng.pick(&row);
    match rng.within(0, 9) {
        0 => rng.next() as u32,
        1 => rng.pick(&[0x7fc00000, 0xffc00000, 0x7f800001, 0x7f800000, 0xff800000, 0, 0x80000000, 1]),
        2 | 3 => number.to_bits(),
        4 => number.to_bits().wrapping_add(1),
        5 => number.to_bits().wrapping_sub(1),
        6 => rng.within(31f32.to_bits() as i64, 129f32.to_bits() as i64) as u32,
        7 => number.to_bits() ^ 0x80000000,
        _ => {
            let (low, high) = (row[0].to_bits() as i64, row[2].to_bits() as i64);
            if low <= high { rng.within(low, high) as u32 } else { low as u32 }
        }
    }
}

fn tone_case(rng: &mut Rng) -> String {
    let known = rng.chance(30);
    let mut rows = good_rows(rng);
    if known {
        for (row, twelve) in rows.iter_mut().zip(unhex(SHEET)[3..].chunks(12)) {
            for (number, four) in row.iter_mut().zip(twelve.chunks(4)) {
                *number = f32::from_bits(card::big_endian(four));
            }
        }
    }
    if rng.chance(30) {
        bend_row(rng, &mut rows);
    }
    let mut area = vec![0, 147, 1];
    for row in &rows {
        area.extend(row.iter().flat_map(|number| bits(*number)));
    }
    match rng.within(0, 19) {
        0 | 1 => {
            let place = rng.within(0, 146) as usize;
            area[place] ^= 1 << rng.within(0, 7);
        }
        2 => area.truncate(rng.pick(&[0, 1, 2, 3, 100, 145, 146])),
        3 => area[rng.pick(&[0, 1])] = rng.byte(),
        4 => area[2] = rng.pick(&[0, 1, 2, 255]),
        5 | 6 => area.extend([0xaa; 9]),
        _ => {}
    }
    format!("area {}\ntone {:08x}\n", hex(&area), any_tone(rng, &rows))
}
