//! Cases of cards, tones, recordings in pieces, replays and reasons, a line each, in the notation of tests/compare/README.md: what each
//! is answered with, and what a batch of tones meets.

use crate::card::{self, big_endian};
use crate::cards::unhex;
use crate::pieces;
use crate::replays;
use crate::tone::{self, Tone};
use crate::whys;
use std::io::{self, Write};

/// Each line again with its answer; a comment as it stands, and none for an area.
pub fn answer(text: &str, out: &mut impl Write) -> io::Result<()> {
    let mut area = Vec::new();
    for line in text.lines() {
        let (word, digits) = line.split_once(' ').unwrap_or((line, ""));
        match word {
            "area" => area = unhex(digits),
            "read" => writeln!(out, "{line}: {}", read(&area, &unhex(digits)))?,
            "write" => writeln!(out, "{line}: {}", write(&area, &unhex(digits)))?,
            "tone" => writeln!(out, "{line}: {}", classify(&area, &unhex(digits)))?,
            "pieces" => write!(out, "{line}\n{}", pieces::answer_pieces(digits))?,
            "cuts" => write!(out, "{line}\n{}", pieces::answer_cuts(digits))?,
            "replay" => write!(out, "{line}\n{}", replays::answer_replay(digits))?,
            "splits" => write!(out, "{line}\n{}", replays::answer_splits(digits))?,
            "why" => write!(out, "{line}\n{}", whys::answer_why(digits))?,
            _ => writeln!(out, "{line}")?,
        }
    }
    Ok(())
}

/// As many bytes of an area as a case asks for, with another byte where it says which.
pub fn changed(area: &[u8], change: &[u8]) -> Vec<u8> {
    let mut part = area.to_vec();
    if let [_, place, value] = change {
        part[*place as usize] = *value;
    }
    if let Some(length) = change.first() {
        part.truncate(*length as usize);
    }
    part
}

/// A case: highest, and the change.
fn read(area: &[u8], case: &[u8]) -> String {
    match card::read(case[0], &changed(area, &case[1..])) {
        Err(refusal) => refusal.to_string(),
        Ok(s) => {
            let mut numbers = vec![s.vmax.into(), s.tick, s.bts.into()];
            for row in s.rows {
                numbers.extend([row.initial, row.r#final, row.delay, row.drop].map(u16::from));
            }
            numbers.extend([s.functions.into(), s.x, s.y]);
            numbers.extend(s.pairs.map(u16::from));
            numbers.push(s.distance.into());
            numbers.iter().map(u16::to_string).collect::<Vec<_>>().join(" ")
        }
    }
}

/// The settings in bytes 3 to 48 of a version 3 card, in range or not; what the area does not have is 0.
pub fn settings_in(area: &[u8]) -> card::Settings {
    let mut bytes = area.to_vec();
    bytes.resize(49, 0);
    let mut s = card::Settings {
        vmax: bytes[3],
        tick: big_endian(&bytes[4..6]) as u16,
        bts: bytes[6],
        functions: bytes[39],
        x: big_endian(&bytes[40..42]) as u16,
        y: big_endian(&bytes[42..44]) as u16,
        pairs: [bytes[44], bytes[45], bytes[46], bytes[47]],
        distance: bytes[48],
        ..card::Settings::default()
    };
    for (row, four) in s.rows.iter_mut().zip(bytes[7..39].chunks(4)) {
        *row = card::Row { initial: four[0], r#final: four[1], delay: four[2], drop: four[3] };
    }
    s
}

/// A case: version, the lent buffer's length, the byte it is filled with.
fn write(area: &[u8], case: &[u8]) -> String {
    let mut buffer = vec![case[2]; case[1] as usize];
    let answer = match card::write(case[0], &settings_in(area), &mut buffer) {
        Ok(()) => "written".to_string(),
        Err(refusal) => refusal.to_string(),
    };
    let hex = hex(&buffer);
    format!("{answer} {}", if hex.is_empty() { "-" } else { &hex })
}

/// A case: the tone's bits, and the change.
fn classify(area: &[u8], case: &[u8]) -> String {
    match tone::classify(&changed(area, &case[4..]), f32::from_bits(big_endian(&case[..4]))) {
        Err(refusal) => refusal.to_string(),
        Ok(tone) => {
            let code = tone::beacon_code(&tone);
            match tone {
                Tone::Nothing => format!("nothing {code}"),
                Tone::Permanent(offset) => format!("permanent {:08x} {code}", offset.to_bits()),
                Tone::Beacon(k, offset) => format!("beacon {k} {:08x} {code}", offset.to_bits()),
            }
        }
    }
}

/// What a tone on a good sheet is: both sides of "nothing".
const TONE_ROWS: [&str; 10] = [
    "a tone of a beacon", "the permanent tone", "a tone at a row's end", "not-a-number", "plus infinity", "minus infinity",
    "below all rows", "above all rows", "between two rows", "nothing, beside a row's end",
];

/// How often a batch meets each row.
pub fn cover_tones(batch: &str) -> Vec<(&'static str, u64)> {
    let mut counts = TONE_ROWS.map(|row| (row, 0));
    let mut area = Vec::new();
    for line in batch.lines() {
        match line.split_once(' ') {
            Some(("area", digits)) => area = unhex(digits),
            Some(("tone", digits)) => {
                let case = unhex(digits);
                let met = meet_tone(&changed(&area, &case[4..]), f32::from_bits(big_endian(&case[..4])));
                for (_, count) in counts.iter_mut().filter(|(row, _)| met.contains(row)) {
                    *count += 1;
                }
            }
            _ => {}
        }
    }
    counts.to_vec()
}

fn meet_tone(area: &[u8], tone: f32) -> Vec<&'static str> {
    let (Ok(rows), Ok(read)) = (tone::sheet(area), tone::classify(area, tone)) else { return Vec::new() };
    let at_an_end = rows.iter().any(|row| tone == row.low || tone == row.high);
    match read {
        Tone::Beacon(..) if at_an_end => return vec!["a tone of a beacon", "a tone at a row's end"],
        Tone::Beacon(..) => return vec!["a tone of a beacon"],
        Tone::Permanent(_) if at_an_end => return vec!["the permanent tone", "a tone at a row's end"],
        Tone::Permanent(_) => return vec!["the permanent tone"],
        Tone::Nothing => {}
    }
    let beside = |end: f32| tone.is_finite() && tone > 0.0 && tone.to_bits().abs_diff(end.to_bits()) == 1;
    let mut met = vec![match tone {
        _ if tone.is_nan() => "not-a-number",
        f32::INFINITY => "plus infinity",
        f32::NEG_INFINITY => "minus infinity",
        _ if rows.iter().all(|row| tone < row.low) => "below all rows",
        _ if rows.iter().all(|row| tone > row.high) => "above all rows",
        _ => "between two rows",
    }];
    if rows.iter().any(|row| beside(row.low) || beside(row.high)) {
        met.push("nothing, beside a row's end");
    }
    met
}

pub fn hex(bytes: &[u8]) -> String {
    bytes.iter().map(|byte| format!("{byte:02x}")).collect()
}

/// Bytes as a case has them: none are a dash.
pub fn written_bytes(bytes: &[u8]) -> String {
    if bytes.is_empty() { "-".to_string() } else { hex(bytes) }
}

pub fn bytes_in(text: &str) -> Vec<u8> {
    if text == "-" { Vec::new() } else { unhex(text) }
}
