//! Recordings in pieces, a case a line: the notation of tests/compare/README.md, what each is answered with, and what a
//! batch of them meets.

use crate::cards::unhex;
use crate::cases::{bytes_in, hex};
use crate::desk::{train_speed, Sample, CODE_TOP};
use crate::receive::{line, Desk, Receiver, Status};
use crate::ride;
use std::collections::BTreeMap;
use std::io::{self, Write};

#[derive(Clone, PartialEq, Debug)]
pub enum Call {
    Piece(Vec<u8>),
    End,
}

/// "HEX/" hands over a piece, "." announces the end.
pub fn calls(text: &str) -> Vec<Call> {
    let mut calls = Vec::new();
    let mut rest = text;
    while let Some(at) = rest.find(['/', '.']) {
        let digits = &rest[..at];
        if rest[at..].starts_with('/') {
            calls.push(Call::Piece(unhex(digits)));
        } else {
            assert!(digits.is_empty(), "an end stands behind a mark");
            calls.push(Call::End);
        }
        rest = &rest[at + 1..];
    }
    assert!(rest.is_empty(), "a piece has its mark");
    calls
}

/// The calls as a case has them.
pub fn written(calls: &[Call]) -> String {
    calls.iter().map(|call| match call {
        Call::Piece(bytes) => hex(bytes) + "/",
        Call::End => ".".to_string(),
    }).collect()
}

/// The lines that a call shows.
pub fn call(receiver: &mut Receiver, call: &Call) -> String {
    match call {
        Call::Piece(bytes) => receiver.piece(bytes).into_iter().map(line).collect(),
        Call::End => {
            receiver.end();
            String::new()
        }
    }
}

/// What a line in pieces is answered with: of each call the lines that it shows, then the status. A refused card's
/// number is all there is.
pub fn answers(card: &[u8], calls: &[Call]) -> String {
    match Receiver::start(card) {
        Err(number) => format!("refused {number}\n"),
        Ok(mut receiver) => calls.iter().map(|given| {
            let lines = call(&mut receiver, given);
            format!("{lines}{}\n", receiver.status)
        }).collect(),
    }
}

/// A case "CARD CALLS".
pub fn answer_pieces(case: &str) -> String {
    let (card, text) = case.split_once(' ').expect("a card and calls");
    answers(&bytes_in(card), &calls(text))
}

/// A number for a text, so that a long one is compared by a short one: each byte is added to 31 times the number of
/// what stands before it, less whole 65,521s.
fn mark(texts: [&str; 2]) -> u32 {
    texts.iter().flat_map(|text| text.bytes()).fold(0, |mark, byte| (31 * mark + byte as u32) % 65_521)
}

/// A case "STEP CARD RECORDING": the recording in two pieces, cut at 0, at every STEP bytes and at its length, then the
/// end. A line a cut: what each piece shows, in lines, and the status behind it; the status at the end; the mark of all
/// lines.
pub fn answer_cuts(case: &str) -> String {
    let words: Vec<&str> = case.split(' ').collect();
    let [step, card, recording] = words[..] else { panic!("a step, a card and a recording") };
    let (step, recording) = (unhex(step)[0] as usize, unhex(recording));
    let started = match Receiver::start(&bytes_in(card)) {
        Ok(receiver) => receiver,
        Err(number) => return format!("refused {number}\n"),
    };
    let cut = |place: usize| {
        let mut receiver = started.clone();
        let first = call(&mut receiver, &Call::Piece(recording[..place].to_vec()));
        let behind_first = receiver.status;
        let second = call(&mut receiver, &Call::Piece(recording[place..].to_vec()));
        let behind_second = receiver.status;
        receiver.end();
        let (lines, more) = (first.lines().count(), second.lines().count());
        let mark = mark([&first, &second]);
        format!("{place}: {lines} {behind_first}, {more} {behind_second}, {}, mark {mark}\n", receiver.status)
    };
    (0..recording.len()).step_by(step).chain([recording.len()]).map(cut).collect()
}

/// What `receive` prints for a line in pieces of these lengths; the last length goes on to the end of the line.
pub fn print(card: &[u8], bytes: &[u8], lengths: &[usize], out: &mut impl Write) -> io::Result<()> {
    writeln!(out, "n limit lamps cause")?;
    let mut receiver = match Receiver::start(card) {
        Ok(receiver) => receiver,
        Err(number) => return writeln!(out, "refused {number}"),
    };
    let mut rest = bytes;
    let mut turn = 0;
    while !rest.is_empty() {
        let length = lengths[turn.min(lengths.len() - 1)].min(rest.len());
        turn += 1;
        let (piece, behind) = rest.split_at(length);
        out.write_all(call(&mut receiver, &Call::Piece(piece.to_vec())).as_bytes())?;
        rest = behind;
    }
    receiver.end();
    match receiver.status {
        Status::Refused(number) => writeln!(out, "refused {number}"),
        _ => Ok(()),
    }
}

/// What a batch may meet, a row each: both sides of every line of a2 to a4, refusal 11 as 02 b has it, and the calls of
/// a5 to a9; and that pairs are made.
const ROWS: [&str; 71] = [
    "byte 0 is 0", "byte 0 is not 0", "byte 1 is 0", "byte 1 is not 0", "byte 2 is EA", "byte 2 is EB",
    "stated 0", "stated 6", "stated 7", "stated 12", "stated 60006", "stated 60007", "stated 60012",
    "version 1", "version 0", "version 2", "type 0", "the last type that is allowed", "the first that is not",
    "beacon 12", "beacon 13", "buttons from 07", "buttons from 08", "mode 0", "mode 1", "mode 2", "mode 3",
    "m 100,000", "refused 10", "mode changed at standstill", "refused 11 with pulses", "refused 11 without pulses",
    "pulses FFFF, then 9 by the beacon", "pulses FFFF, then the end",
    "all stated bytes in, open", "a byte past the stated length",
    "end, all in", "end, all in, no samples", "end in the head", "end between samples", "end inside a sample",
    "end one byte short", "7, the whole 14", "9, 10 or 11, the whole 14", "lines, then 14, the whole only 14",
    "refused, then a byte", "refused, then an empty piece", "refused, then an end",
    "done, then a byte", "done, then an empty piece", "done, then an end", "open, then an empty piece",
    "cut before byte 0 of the head", "cut before byte 1 of the head", "cut before byte 2 of the head",
    "cut before byte 3 of the head", "cut before byte 4 of the head", "cut before byte 5 of the head",
    "cut before byte 0 of a sample", "cut before byte 1 of a sample", "cut before byte 2 of a sample",
    "cut before byte 3 of a sample", "cut before byte 4 of a sample", "cut before byte 5 of a sample",
    "card refused 1", "card refused 2", "card refused 3", "card refused 4", "card refused 5",
    "a pair made", "a 10 or 11 on an older card, no pair",
];

/// How often a batch meets each row.
pub fn cover(batch: &str) -> Vec<(&'static str, u64)> {
    let mut counts: BTreeMap<String, u64> = BTreeMap::new();
    for case in batch.lines().filter_map(|line| line.strip_prefix("pieces ")) {
        let (card, text) = case.split_once(' ').expect("a card and calls");
        let mut met = Vec::new();
        meet(&bytes_in(card), &calls(text), &mut met);
        for row in met {
            *counts.entry(row).or_insert(0) += 1;
        }
    }
    ROWS.iter().map(|row| (*row, counts.get(*row).copied().unwrap_or(0))).collect()
}

fn meet(card: &[u8], calls: &[Call], met: &mut Vec<String>) {
    let mut receiver = match Receiver::start(card) {
        Ok(receiver) => receiver,
        Err(number) => return met.push(format!("card refused {number}")),
    };
    let mut whole = Vec::new();
    let mut lines = 0;
    for given in calls {
        let before = match receiver.status {
            Status::Open => "open",
            Status::Done => "done",
            Status::Refused(_) => "refused",
        };
        match given {
            Call::Piece(bytes) => {
                met.push(format!("{before}, then {}", if bytes.is_empty() { "an empty piece" } else { "a byte" }));
                for byte in bytes {
                    if receiver.status == Status::Open {
                        meet_byte(&receiver, *byte, met);
                    }
                    lines += receiver.piece(&[*byte]).len();
                }
                whole.extend(bytes);
                if receiver.status == Status::Open {
                    meet_cut(&receiver, met);
                }
            }
            Call::End => {
                met.push(format!("{before}, then an end"));
                if receiver.status == Status::Open {
                    meet_end(&receiver, met);
                }
                receiver.end();
                if let (Status::Refused(number), true) = (receiver.status, before != "done") {
                    meet_whole(card, &whole, number, lines, met);
                }
            }
        }
    }
}

/// A byte on an open line, before it is taken.
fn meet_byte(receiver: &Receiver, byte: u8, met: &mut Vec<String>) {
    let session = match &receiver.desk {
        Desk::Settings(_, settings) => {
            return match receiver.taken {
                0 | 1 => met.push(format!("byte {} is {}", receiver.taken, if byte == 0 { "0" } else { "not 0" })),
                2 => met.push(format!("byte 2 is {byte:02X}")),
                3 => met.push(format!("stated {}", 256 * receiver.held[2] as usize + byte as usize)),
                4 => met.push(format!("version {byte}")),
                _ => {
                    let allowed = |train: u8| (1..=8).contains(&train) && train_speed(train) <= settings.vmax as i64;
                    if byte == 0 {
                        met.push("type 0".into());
                    } else if allowed(byte) && !allowed(byte + 1) {
                        met.push("the last type that is allowed".into());
                    } else if !allowed(byte) && allowed(byte - 1) {
                        met.push("the first that is not".into());
                    }
                }
            };
        }
        Desk::Session(session) => session,
    };
    if receiver.taken == receiver.stated {
        return met.push("a byte past the stated length".into());
    }
    match (receiver.held.len(), byte) {
        (2, 12 | 13) => met.push(format!("beacon {byte}")),
        (3, 7 | 8) => met.push(format!("buttons from {byte:02}")),
        (5, 0..=3) => met.push(format!("mode {byte}")),
        _ => {}
    }
    if receiver.held.len() == 2 && byte > CODE_TOP && receiver.held == [0xff, 0xff] {
        met.push("pulses FFFF, then 9 by the beacon".into());
    }
    if receiver.held.len() == 5 && (byte == 1 || byte == 2) {
        let pulses = u16::from_be_bytes([receiver.held[0], receiver.held[1]]);
        let buttons = u16::from_be_bytes([receiver.held[3], receiver.held[4]]);
        let sample = Sample { pulses, beacon: receiver.held[2], buttons, mode: byte };
        let mut behind = session.clone();
        let answer = behind.sample(sample);
        let sets = behind.paired.contains(&Some(0)) || (behind.version != 3 && behind.limit.is_some() && sample.beacon > 9);
        if answer.is_ok() && sets && sample.beacon != session.last_code {
            met.push(if behind.version == 3 { "a pair made" } else { "a 10 or 11 on an older card, no pair" }.into());
        }
        match answer {
            Ok(_) if pulses as i64 * session.settings.tick as i64 == 100_000 => met.push("m 100,000".into()),
            Ok(_) if byte != session.mode => met.push("mode changed at standstill".into()),
            Ok(_) => {}
            Err(11) => met.push(format!("refused 11 {} pulses", if pulses == 0 { "without" } else { "with" })),
            Err(number) => met.push(format!("refused {number}")),
        }
    }
}

/// The end of a piece on a line that is still open.
fn meet_cut(receiver: &Receiver, met: &mut Vec<String>) {
    if receiver.taken < 6 {
        met.push(format!("cut before byte {} of the head", receiver.taken));
    } else if receiver.taken == receiver.stated {
        met.push("all stated bytes in, open".into());
    } else {
        met.push(format!("cut before byte {} of a sample", receiver.held.len()));
    }
}

/// The end announced on an open line.
fn meet_end(receiver: &Receiver, met: &mut Vec<String>) {
    if receiver.taken < 6 {
        return met.push("end in the head".into());
    }
    met.push(match (receiver.taken == receiver.stated, receiver.held.is_empty()) {
        (true, _) if receiver.stated == 6 => "end, all in, no samples",
        (true, _) => "end, all in",
        (false, true) => "end between samples",
        (false, false) => "end inside a sample",
    }.into());
    if receiver.taken + 1 == receiver.stated {
        met.push("end one byte short".into());
    }
    if receiver.held.starts_with(&[0xff, 0xff]) {
        met.push("pulses FFFF, then the end".into());
    }
}

/// "Faults count as they arrive ... Only recordings bad twice differ." (a5) A refused line beside its whole.
fn meet_whole(card: &[u8], bytes: &[u8], number: u8, lines: usize, met: &mut Vec<String>) {
    if ride::ride(card, bytes, |_, _| {}) != Some(14) {
        return;
    }
    match number {
        14 if lines > 0 => met.push("lines, then 14, the whole only 14".into()),
        14 => {}
        7 => met.push("7, the whole 14".into()),
        _ => met.push("9, 10 or 11, the whole 14".into()),
    }
}
