//! A ride, whole: document 01, "A ride, whole".

use crate::card;
use crate::desk::{Answer, Main, Reminder, Sample, Session, BTS, CAUSE_TOP};
use crate::pairs_rows;
use crate::quiet;
use crate::stand;
use crate::why_rows;
use std::collections::BTreeMap;
use std::io::Write;

pub struct Recording {
    pub train: u8,
    pub samples: Vec<Sample>,
}

/// "recording not exactly as long as stated, length not 6 + 6n with n ≤ 10,000, or version not 1". "Recording: length
/// (4 bytes), version 1, train type, then six bytes a sample" (R 7).
pub fn recording(bytes: &[u8]) -> Result<Recording, u8> {
    if bytes.len() < 6 {
        return Err(14);
    }
    let length = card::big_endian(&bytes[0..4]) as usize;
    if length != bytes.len() || (length - 6) % 6 != 0 || (length - 6) / 6 > 10_000 || bytes[4] != 1 {
        return Err(14);
    }
    Ok(Recording { train: bytes[5], samples: bytes[6..].chunks(6).map(sample_in).collect() })
}

/// "six bytes a sample (pulses 2, beacon, buttons 2, mode)".
pub fn sample_in(six: &[u8]) -> Sample {
    Sample {
        pulses: card::big_endian(&six[0..2]) as u16,
        beacon: six[2],
        buttons: card::big_endian(&six[3..5]) as u16,
        mode: six[5],
    }
}

/// The bytes of a recording.
pub fn recorded(train: u8, samples: &[Sample]) -> Vec<u8> {
    let mut bytes = ((6 + 6 * samples.len()) as u32).to_be_bytes().to_vec();
    bytes.extend([1, train]);
    for sample in samples {
        bytes.extend(sample.pulses.to_be_bytes());
        bytes.push(sample.beacon);
        bytes.extend(sample.buttons.to_be_bytes());
        bytes.push(sample.mode);
    }
    bytes
}

/// The card (highest 3, g6), then "a ride 14, 7": its session and its samples, or the refusal.
pub fn open(card: &[u8], bytes: &[u8]) -> Result<(Session, Vec<Sample>), u8> {
    let (version, settings) = card::version_and_settings(card).map_err(|refusal| refusal.number)?;
    let recording = recording(bytes)?;
    let session = Session::open(version, settings, recording.train).map_err(|refusal| refusal.number)?;
    Ok((session, recording.samples))
}

/// The card (highest 3, g6), then "a ride 14, 7, its samples". Calls back with each accepted sample's session and answer;
/// gives the refusal that ended the ride, if any.
pub fn ride(card: &[u8], bytes: &[u8], mut each: impl FnMut(&Session, Answer)) -> Option<u8> {
    each_sample(card, bytes, |session, _, result| {
        if let Ok(answer) = result {
            each(session, answer);
        }
    })
}

/// The same, called back with the session behind each sample, the sample, and its answer or refusal.
fn each_sample(card: &[u8], bytes: &[u8], mut each: impl FnMut(&Session, Sample, Result<Answer, u8>)) -> Option<u8> {
    let (mut session, samples) = match open(card, bytes) {
        Ok(opened) => opened,
        Err(number) => return Some(number),
    };
    for sample in samples {
        let result = session.sample(sample);
        each(&session, sample, result);
        if let Err(number) = result {
            return Some(number);
        }
    }
    None
}

/// What is printed behind the paper's four columns: nothing, "the reason, 1..7, as a fifth column" (02 f), or the rest of the
/// answer.
#[derive(Clone, Copy, PartialEq)]
pub enum More {
    No,
    Reason,
    Answer,
}

/// "prints the heading, then reads the card (highest 2; from g on 3, g6) from a file and the ride from standard input"; "A refusal
/// prints the line `refused` and its number, and ends it." "The heading is then `n limit lamps cause reason` ...; refusal lines
/// are unchanged." (f9)
pub fn print(card: &[u8], bytes: &[u8], more: More, out: &mut impl Write) -> std::io::Result<()> {
    let mut lines = match more {
        More::No => "n limit lamps cause\n".to_string(),
        More::Reason => "n limit lamps cause reason\n".to_string(),
        More::Answer => "n limit lamps cause icon standing\n".to_string(),
    };
    let mut n = 0;
    let end = ride(card, bytes, |session, answer| {
        n += 1;
        lines += &format!("{} {} {} {}", n, answer.s, answer.lamps, answer.cause);
        lines += &match more {
            More::No => "\n".to_string(),
            More::Reason => format!(" {}\n", session.why().reason),
            More::Answer => format!(" {} {}\n", answer.icon, answer.limit as u8),
        };
    });
    lines += &ending(end);
    out.write_all(lines.as_bytes())
}

/// The line of the refusal that ended a ride, if any.
pub fn ending(end: Option<u8>) -> String {
    end.map_or(String::new(), |number| format!("refused {number}\n"))
}

/// What a ride met, by key. "arose" counts samples in which a cause arose, "stood" samples in which it began to stand;
/// "steps" counts samples with a standing limit of that many steps. The keys of standstill are stand.rs's, those of the
/// quiet pickup quiet.rs's, those of the reason and the brake's age why_rows.rs's, those of pairs pairs_rows.rs's.
pub fn cover(card: &[u8], bytes: &[u8]) -> BTreeMap<String, u64> {
    let mut counts: BTreeMap<String, u64> = BTreeMap::new();
    let mut last_code = 0;
    let mut last_cause = 0;
    let mut of_standstill = stand::Meter::new();
    let mut of_quiet = quiet::Meter::new();
    let mut of_why = why_rows::Meter::new();
    let mut of_pairs = pairs_rows::Meter::new();
    let mut meets = |key: String| *counts.entry(key).or_insert(0) += 1;
    let end = each_sample(card, bytes, |session, sample, result| {
        let mut met = Vec::new();
        of_standstill.meet(session, sample, result, &mut met);
        of_quiet.meet(session, sample, result, &mut met);
        if result.is_ok() {
            of_why.meet(session, sample, &mut met);
            of_pairs.meet(session, sample, &mut met);
        }
        met.into_iter().for_each(&mut meets);
        let Ok(answer) = result else { return };
        meets("samples".into());
        for cause in 1..=CAUSE_TOP {
            if session.arisen.contains(&cause) {
                meets(format!("arose_{cause}"));
            }
        }
        if last_cause == 0 && answer.cause != 0 {
            meets(format!("stood_{}", answer.cause));
        }
        last_cause = answer.cause;
        for bit in 0..=11 {
            if answer.lamps >> bit & 1 == 1 {
                meets(format!("lamp_{bit}"));
            }
        }
        meets(format!("icon_{}", answer.icon));
        meets(format!("mode_{}", session.mode));
        if session.main == Main::Zone {
            meets("zone".into());
        }
        if session.alongside.is_some() {
            meets("alongside".into());
        }
        match session.reminder {
            Reminder::Lit { second: false, age: 0 } => meets("reminder_first".into()),
            Reminder::Lit { second: true, age: 0 } => meets("reminder_second".into()),
            _ => {}
        }
        if let Some(limit) = session.limit {
            meets(format!("steps_{}", limit.steps));
        }
        let code = session.last_code;
        if session.mode == BTS && session.settings.function(3) && code != last_code && [4, 9, 10, 11].contains(&code) {
            meets(format!("bts_reads_{code}"));
        }
        last_code = code;
    });
    if let Some(number) = end {
        meets(format!("refused_{number}"));
    }
    counts
}
