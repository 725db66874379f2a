//! What a batch of cards or of settings meets of card version 3, 02 g): both sides of each line of g1 to g4.

use crate::card::{self, Refusal, Settings, PAIR_SPEEDS};
use crate::cards::unhex;
use crate::cases::{changed, settings_in};
use std::collections::BTreeMap;

/// The four speeds and what is beside them.
const AT_44_TO_47: [u8; 13] = [0, 29, 30, 31, 39, 40, 41, 49, 50, 51, 69, 70, 71];
const AT_48: [u8; 4] = [0, 1, 50, 51];

/// Of cards to read; `reads` is said where they are read, else the refusal.
fn rows_of_cards() -> Vec<String> {
    let mut rows = Vec::new();
    for version in 0..=4 {
        rows.extend((0..=4).map(|highest| format!("version {version} under highest {highest}, {}", judged(version, highest))));
    }
    rows.extend(rows_of_bytes("card", "reads"));
    rows.extend([
        "card, length 44 in version 3, 4", "card, length 48 in version 3, 4", "card, length 49 in version 3, reads",
        "card, length 50 in version 3, 4", "card, length 49 in version 2, 4", "card, length 49 in version 1, 4",
        "card, 48 bytes of version 3, 1", "card, 49 bytes of version 3, reads", "card, more bytes behind version 3, reads",
        "card, bytes behind version 1 read as 0", "card, bytes behind version 2 read as 0",
        "card, version 3 with 40 to 43 silent, reads", "card, 5 at 39 in version 3", "card, 5 at 40 in version 3",
        "card, 5 at 42 in version 3", "card, 5 at 40 or 42, one of 44 to 48 bad too", "card, 5 at 44 to 47, 48 bad too",
    ].map(String::from));
    rows
}

/// Of settings to write.
fn rows_of_settings() -> Vec<String> {
    let mut rows: Vec<String> = ["0, 2", "1, written", "2, written", "3, written", "4, 2"].iter().map(|row| format!("settings, version {row}")).collect();
    rows.extend(rows_of_bytes("settings", "written"));
    for version in [1, 2] {
        rows.extend((44..=48).map(|place| format!("settings, {place} not 0 beside version {version}, 5")));
    }
    rows.extend([
        "settings, zeros beside version 3, 5 at 44", "settings, functions on version 1, 5 at 39",
        "settings, 5 at 40 or 42, 44 to 48 bad too", "settings, 48 bytes for version 3, 13", "settings, 49 bytes for version 3, written",
        "settings, 50 bytes for version 3, written", "settings, the area ends before byte 44",
    ].map(String::from));
    rows
}

fn judged(version: u8, highest: u8) -> &'static str {
    match (version, highest) {
        (_, 0) | (_, 4..) => "6",
        (0, _) => "2",
        _ if version > highest => "3",
        _ => "goes on",
    }
}

/// Each of the bytes 44 to 48 of version 3 at its ends and just beyond them.
fn rows_of_bytes(what: &str, good: &str) -> Vec<String> {
    let row = |place: usize, value: u8, is_good: bool| {
        format!("{what}, byte {place} is {value}, {}", if is_good { good.to_string() } else { format!("5 at {place}") })
    };
    let of_pairs = (44..48).flat_map(|place| AT_44_TO_47.map(|value| row(place, value, PAIR_SPEEDS.contains(&value))));
    of_pairs.chain(AT_48.map(|value| row(48, value, value == 1 || value == 50))).collect()
}

/// The rows of bytes 44 to 48 that a version 3 case meets by what it is answered with.
fn meet_bytes(what: &str, good: &str, s: &Settings, answer: Result<(), Refusal>, met: &mut Vec<String>) {
    let five = [s.pairs[0], s.pairs[1], s.pairs[2], s.pairs[3], s.distance];
    for (place, value) in (44..).zip(five) {
        match answer {
            Ok(()) => met.push(format!("{what}, byte {place} is {value}, {good}")),
            Err(Refusal { number: 5, place: Some(at) }) if at == place => met.push(format!("{what}, byte {place} is {value}, 5 at {place}")),
            Err(_) => {}
        }
    }
}

/// Whether one of the bytes 44 to 48 is bad on version 3, byte 48 alone where that is asked.
fn bad_behind(s: &Settings, only_48: bool) -> bool {
    let bad_48 = s.distance < 1 || s.distance > 50;
    bad_48 || (!only_48 && s.pairs.iter().any(|speed| !PAIR_SPEEDS.contains(speed)))
}

fn place_of<T>(answer: &Result<T, Refusal>) -> Option<usize> {
    match answer {
        Err(Refusal { number: 5, place }) => *place,
        _ => None,
    }
}

fn meet_card(area: &[u8], highest: u8, met: &mut Vec<String>) {
    if area.len() < 3 {
        return;
    }
    let (version, length) = (area[2], card::big_endian(&area[..2]));
    met.push(format!("version {version} under highest {highest}, {}", judged(version, highest)));
    if judged(version, highest) != "goes on" {
        return;
    }
    let answer = card::read(highest, area);
    let refused = answer.err().map(|refusal| refusal.number);
    match refused {
        Some(4) => return met.push(format!("card, length {length} in version {version}, 4")),
        Some(1) => return met.push(format!("card, {} bytes of version {version}, 1", area.len())),
        _ => {}
    }
    let s = settings_in(area);
    if version != 3 {
        let behind = area.len() >= 49 && area[44..49].iter().all(|byte| *byte != 0);
        if behind && answer.is_ok_and(|s| s.pairs == [0; 4] && s.distance == 0) {
            met.push(format!("card, bytes behind version {version} read as 0"));
        }
        return;
    }
    meet_bytes("card", "reads", &s, answer.map(|_| ()), met);
    if answer.is_ok() {
        met.push("card, length 49 in version 3, reads".into());
        met.push(if area.len() == 49 { "card, 49 bytes of version 3, reads" } else { "card, more bytes behind version 3, reads" }.into());
        if s.functions & 4 == 0 && s.x > 0 && s.y > 0 {
            met.push("card, version 3 with 40 to 43 silent, reads".into());
        }
    }
    match place_of(&answer) {
        Some(place @ (39 | 40 | 42)) => {
            met.push(format!("card, 5 at {place} in version 3"));
            if place >= 40 && bad_behind(&s, false) {
                met.push("card, 5 at 40 or 42, one of 44 to 48 bad too".into());
            }
        }
        Some(44..=47) if bad_behind(&s, true) => met.push("card, 5 at 44 to 47, 48 bad too".into()),
        _ => {}
    }
}

fn meet_settings(area: &[u8], case: &[u8], met: &mut Vec<String>) {
    let (version, room) = (case[0], case[1] as usize);
    let s = settings_in(area);
    let answer = card::write(version, &s, &mut vec![0; room]);
    match answer {
        Ok(()) => met.push(format!("settings, version {version}, written")),
        Err(Refusal { number: 2, .. }) => return met.push(format!("settings, version {version}, 2")),
        Err(_) => {}
    }
    if area.len() < 45 {
        met.push("settings, the area ends before byte 44".into());
    }
    let place = place_of(&answer);
    if version != 3 {
        match place {
            Some(39) if version == 1 => met.push("settings, functions on version 1, 5 at 39".into()),
            Some(place @ 44..=48) => met.push(format!("settings, {place} not 0 beside version {version}, 5")),
            _ => {}
        }
        return;
    }
    meet_bytes("settings", "written", &s, answer, met);
    match answer {
        Ok(()) => met.push(format!("settings, {room} bytes for version 3, written")),
        Err(Refusal { number: 13, .. }) => met.push(format!("settings, {room} bytes for version 3, 13")),
        Err(_) => {}
    }
    if place == Some(44) && s.pairs == [0; 4] && s.distance == 0 {
        met.push("settings, zeros beside version 3, 5 at 44".into());
    }
    if matches!(place, Some(40 | 42)) && bad_behind(&s, false) {
        met.push("settings, 5 at 40 or 42, 44 to 48 bad too".into());
    }
}

/// How often a batch meets each row.
fn cover(batch: &str, rows: Vec<String>, mut meet: impl FnMut(&[u8], &[u8], &mut Vec<String>)) -> Vec<(String, u64)> {
    let mut counts: BTreeMap<String, u64> = BTreeMap::new();
    let mut area = Vec::new();
    for line in batch.lines() {
        match line.split_once(' ') {
            Some(("area", digits)) => area = unhex(digits),
            Some((_, digits)) => {
                let mut met = Vec::new();
                meet(&area, &unhex(digits), &mut met);
                met.into_iter().for_each(|row| *counts.entry(row).or_insert(0) += 1);
            }
            None => {}
        }
    }
    rows.into_iter().map(|row| {
        let count = counts.get(&row).copied().unwrap_or(0);
        (row, count)
    }).collect()
}

pub fn cover_cards(batch: &str) -> Vec<(String, u64)> {
    cover(batch, rows_of_cards(), |area, case, met| meet_card(&changed(area, &case[1..]), case[0], met))
}

pub fn cover_settings(batch: &str) -> Vec<(String, u64)> {
    cover(batch, rows_of_settings(), meet_settings)
}
