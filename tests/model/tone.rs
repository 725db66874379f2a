//! The tone sheet and the classifier: document 01, "Tones".

use crate::card::{big_endian, refused_at, Refusal};
use crate::desk::QUIET;

/// "A tone sheet row holds its low, centre and high kHz."
#[derive(Clone, Copy)]
pub struct ToneRow {
    pub low: f32,
    pub centre: f32,
    pub high: f32,
}

/// "A tone reads as a beacon with its offset, the permanent tone with its offset, or nothing."
pub enum Tone {
    Beacon(u8, f32),
    Permanent(f32),
    Nothing,
}

/// "Sheet, 147 bytes: length, version 1, then twelve rows of three f32 bit patterns".
pub const SHEET_LENGTH: usize = 147;

fn row_at(area: &[u8], place: usize) -> ToneRow {
    let number = |p: usize| f32::from_bits(big_endian(&area[p..p + 4]));
    ToneRow { low: number(place), centre: number(place + 4), high: number(place + 8) }
}

/// "A row needs finite numbers, 32 ≤ low ≤ centre ≤ high ≤ 128, high ≤ 2 × low". An f64 holds every f32 and its
/// double exactly.
fn row_is_good_alone(row: &ToneRow) -> bool {
    let (low, centre, high) = (row.low as f64, row.centre as f64, row.high as f64);
    low.is_finite()
        && centre.is_finite()
        && high.is_finite()
        && 32.0 <= low
        && low <= centre
        && centre <= high
        && high <= 128.0
        && high <= 2.0 * low
}

/// "no tone shared with an earlier row (ends included)" (R 5).
fn share_a_tone(a: &ToneRow, b: &ToneRow) -> bool {
    a.low as f64 <= b.high as f64 && b.low as f64 <= a.high as f64
}

/// "Place 0 for length or an area under 147, 2 for version, else the first bad row's first byte; in that order".
pub fn sheet(area: &[u8]) -> Result<Vec<ToneRow>, Refusal> {
    if area.len() < SHEET_LENGTH || big_endian(&area[0..2]) as usize != SHEET_LENGTH {
        return Err(refused_at(12, 0));
    }
    if area[2] != 1 {
        return Err(refused_at(12, 2));
    }
    let mut rows: Vec<ToneRow> = Vec::new();
    for i in 0..12 {
        let place = 3 + 12 * i;
        let row = row_at(area, place);
        if !row_is_good_alone(&row) || rows.iter().any(|earlier| share_a_tone(earlier, &row)) {
            return Err(refused_at(12, place));
        }
        rows.push(row);
    }
    Ok(rows)
}

/// "Ends belong to the row; not-a-number is nothing. The offset is the tone minus the centre, rounded once." The
/// sheet's refusal comes first (R 6). "permanent tone first, then beacons 1..11".
pub fn classify(area: &[u8], tone: f32) -> Result<Tone, Refusal> {
    let rows = sheet(area)?;
    for (i, row) in rows.iter().enumerate() {
        if row.low as f64 <= tone as f64 && tone as f64 <= row.high as f64 {
            let offset = tone - row.centre;
            return Ok(if i == 0 { Tone::Permanent(offset) } else { Tone::Beacon(i as u8, offset) });
        }
    }
    Ok(Tone::Nothing)
}

/// "The ride's beacon code is 0 for permanent"; that "of "nothing" (not-a-number, infinities, outside all rows) is 12"
/// (c1).
pub fn beacon_code(tone: &Tone) -> u8 {
    match tone {
        Tone::Beacon(number, _) => *number,
        Tone::Permanent(_) => 0,
        Tone::Nothing => QUIET,
    }
}
