//! The model's own checks of the receiver: both sides of each line of a2 to a4, the calls of a5 to a11, and what shows the
//! receiver and the whole ride to be one.

use crate::card;
use crate::cards::{unhex, CARD_A, CARD_P, CARD_R, CARD_R2};
use crate::check::Checks;
use crate::line;
use crate::make::Rng;
use crate::pieces::{answers, calls, print, Call};
use crate::receive::{line, Receiver, Status};
use crate::ride;
use std::collections::BTreeSet;

const RIDE: &str = "000000180106 000000000001 006407000001 006400001001";
const LINES: [&str; 3] = ["1 10000 0 0\n", "2 8000 16 0\n", "3 8000 0 0\n"];

pub fn all(checks: &mut Checks) {
    head(checks);
    types(checks);
    ends(checks);
    samples(checks);
    later_calls(checks);
    bad_twice(checks);
    cards(checks);
    held(checks);
    every_cutting(checks);
    by_seed(checks);
}

/// What the calls show on a card.
fn said(card: &str, text: &str) -> String {
    answers(&unhex(card), &calls(text))
}

/// The byte at which a line is refused, byte by byte, and the number.
fn fault(card: &[u8], bytes: &[u8]) -> Option<(usize, u8)> {
    let mut receiver = Receiver::start(card).unwrap();
    for (place, byte) in bytes.iter().enumerate() {
        receiver.piece(&[*byte]);
        if let Status::Refused(number) = receiver.status {
            return Some((place, number));
        }
    }
    None
}

fn faults(checks: &mut Checks, table: &[(&str, Option<(usize, u8)>)]) {
    for (text, wanted) in table {
        checks.equal(text, fault(&unhex(CARD_A), &unhex(text)), *wanted);
    }
}

/// "14 is certain at byte 0 or 1 not 0; byte 2 above EA; byte 3 when the length is not 6 + 6n, n ≤ 10,000 (greatest
/// 0000EA66; 00000000 is bad); byte 4 not 1" (a2).
fn head(checks: &mut Checks) {
    faults(checks, &[
        ("00", None), ("01", Some((0, 14))), ("FF", Some((0, 14))),
        ("0000", None), ("0001", Some((1, 14))), ("00FF", Some((1, 14))),
        ("0000EA", None), ("0000EB", Some((2, 14))), ("0000FF", Some((2, 14))),
        ("0000EA66", None), ("0000EA67", Some((3, 14))), ("0000EA6C", Some((3, 14))),
        ("00000000", Some((3, 14))), ("00000006", None), ("00000007", Some((3, 14))), ("0000000C", None),
        ("0000000C01", None), ("0000000C00", Some((4, 14))), ("0000000C02", Some((4, 14))),
    ]);
    let lengths: BTreeSet<u16> = (0..=10_000).map(|n| 6 + 6 * n as u16).collect();
    checks.equal("greatest", lengths.last(), Some(&0xea66));
    for stated in 0..=u16::MAX {
        let four = [&[0, 0], &stated.to_be_bytes()[..]].concat();
        let wanted = match four[2] {
            0xeb..=0xff => Some((2, 14)),
            _ if lengths.contains(&stated) => None,
            _ => Some((3, 14)),
        };
        if fault(&unhex(CARD_A), &four) != wanted {
            checks.equal("stated", stated, 0);
        }
    }
    for version in 0..=255 {
        let wanted = if version == 1 { None } else { Some((4, 14)) };
        checks.equal("version", fault(&unhex(CARD_A), &[0, 0, 0, 12, version]), wanted);
    }
}

/// "7 is certain at byte 5." (a3) "train type not 1..8, or faster than vmax".
fn types(checks: &mut Checks) {
    let slow = |vmax: u8| {
        let mut card = unhex(CARD_A);
        card[3] = vmax;
        card
    };
    for (card, last) in [(unhex(CARD_A), 6), (unhex(CARD_R2), 8), (unhex(CARD_P), 6), (slow(80), 1), (slow(89), 1), (slow(90), 2)] {
        for train in 0..=255 {
            let wanted = if (1..=last).contains(&train) { None } else { Some((5, 7)) };
            for stated in [6, 12] {
                checks.equal("type", fault(&card, &[0, 0, 0, stated, 1, train]), wanted);
            }
        }
    }
}

/// "the first byte past the stated length; an announced end short of it" (a2). "With all stated bytes in, the recording
/// stays open until the end is announced; the good end comes then, n = 0 too" (a8).
fn ends(checks: &mut Checks) {
    checks.equal("n = 0", said(CARD_A, "000000060106/."), "open\ndone\n".into());
    checks.equal("n = 0, a byte more", said(CARD_A, "00000006010600/."), "refused 14\nrefused 14\n".into());
    checks.equal("all in", said(CARD_A, &format!("{RIDE}/.")), format!("{}open\ndone\n", LINES.concat()));
    let ride = unhex(RIDE);
    for byte in 0..=255 {
        let longer = [&ride[..], &[byte]].concat();
        checks.equal("past the length", fault(&unhex(CARD_A), &longer), Some((24, 14)));
    }
    for length in 0..=24 {
        let mut receiver = Receiver::start(&unhex(CARD_A)).unwrap();
        let shown = receiver.piece(&ride[..length]);
        checks.equal("lines so far", shown.len(), length.saturating_sub(6) / 6);
        checks.equal("open so far", receiver.status, Status::Open);
        receiver.end();
        checks.equal("end", receiver.status, if length == 24 { Status::Done } else { Status::Refused(14) });
    }
}

/// "9 is certain at a sample's byte 2 (above 11, from c above 12), 3 (above 7) or 5 (mode). 10 and 11 only at 5, since a 9
/// could still go before them: pulses FFFF, then beacon FF is 9; FFFF, then the end is 14." (a4)
fn samples(checks: &mut Checks) {
    faults(checks, &[
        ("0000000C0106 00640C", None), ("0000000C0106 00640D", Some((8, 9))),
        ("0000000C0106 0064 0B07", None), ("0000000C0106 0064 0B08", Some((9, 9))),
        ("0000000C0106 FFFF 0B08", Some((9, 9))), ("0000000C0106 FFFF FF", Some((8, 9))),
        ("0000000C0106 0000 0B07FF 00", Some((11, 9))), ("0000000C0106 0000 0B07FF 01", None),
        ("0000000C0106 0000 0B07FF 02", None), ("0000000C0106 0000 0B07FF 03", Some((11, 9))),
        ("0000000C0106 FFFF 0B07FF", None), ("0000000C0106 FFFF 0B07FF 03", Some((11, 9))),
        ("0000000C0106 FFFF 0B07FF 01", Some((11, 10))), ("0000000C0106 03E8 000000 01", None),
        ("0000000C0106 03E9 000000 01", Some((11, 10))), ("0000000C0106 03E9 000000 02", Some((11, 10))),
        ("0000000C0106 0001 000000 02", Some((11, 11))), ("0000000C0106 0000 000000 02", None),
    ]);
    // "while not at standstill" (02 b): one pulse, then zeros, the tenth of them or the ninth in BTS.
    let nine = "000000000001".repeat(9);
    faults(checks, &[
        (&format!("000000480106 000100000001 {nine} 0000000000 02"), None),
        (&format!("000000420106 000100000001 {} 0000000000 02", &nine[12..]), Some((65, 11))),
        ("000000120106 000100000001 0000 000000 02", Some((17, 11))), ("000000120106 000100000001 0000 000000", None),
    ]);
    checks.equal("FFFF, the end", said(CARD_A, "0000000C0106FFFF/."), "open\nrefused 14\n".into());
    checks.equal("FFFF, FF, the end", said(CARD_A, "0000000C0106FFFFFF/."), "refused 9\nrefused 9\n".into());
    // At each place of a sample, at the line's first and at its second sample, on every byte that there is.
    for before in ["0000000C0106", "000000120106 000000000001"] {
        let before = unhex(before);
        for byte in 0..=255 {
            for (place, good) in [(0, true), (1, true), (2, byte <= 12), (3, byte <= 7), (4, true), (5, byte == 1 || byte == 2)] {
                let line = [&before[..], &[0; 5][..place], &[byte]].concat();
                let wanted = if good { None } else { Some((before.len() + place, 9)) };
                checks.equal("a sample's byte", fault(&unhex(CARD_R), &line), wanted);
            }
        }
    }
}

/// "A call gives the answers of all samples its piece completes, then the refusal if the fault is in it; bytes behind the
/// fault are not looked at." (a6) "Once refused, every later call ... gets the same number and no answers." (a7) "If an
/// end comes with a piece, the piece is first. After a good end an empty piece or a second end changes nothing; a byte is
/// 14." (a9)
fn later_calls(checks: &mut Checks) {
    let bad_third = "000000180106000000000001006407000001 00000DFF/00640000/./000000000001/";
    let wanted = format!("{}{}{}", LINES[0], LINES[1], "refused 9\n".repeat(5));
    checks.equal("a6, a7", said(CARD_A, bad_third), wanted);
    checks.equal("refused 14, then all", said(CARD_A, "01/000000/./."), "refused 14\n".repeat(5));
    checks.equal("refused 7, then all", said(CARD_A, "000000060100/00/.."), "refused 7\n".repeat(4));
    checks.equal("done, then nothing", said(CARD_A, "000000060106/././"), "open\n".to_string() + &"done\n".repeat(4));
    checks.equal("done, a second end", said(CARD_A, "000000060106/.."), "open\ndone\ndone\n".into());
    checks.equal("done, then a byte", said(CARD_A, "000000060106/.00/.01/"), "open\ndone\nrefused 14\nrefused 14\nrefused 14\n".into());
    checks.equal("empty pieces", said(CARD_A, "//0000//00060106//."), "open\n".repeat(6) + "done\n");
    let wanted = format!("{}open\n{}{}open\ndone\n", LINES[0], LINES[1], LINES[2]);
    checks.equal("15 and 9", said(CARD_A, "000000180106000000000001006407/000001006400001001/."), wanted);
}

/// "type 0 in a recording that later stops early is 7, though the whole gives 14. Only recordings bad twice differ." (a5)
fn bad_twice(checks: &mut Checks) {
    let whole = |text: &str| ride::ride(&unhex(CARD_A), &unhex(text), |_, _| {});
    checks.equal("7", said(CARD_A, "0000000C0100/."), "refused 7\nrefused 7\n".into());
    checks.equal("the whole", whole("0000000C0100"), Some(14));
    checks.equal("9", said(CARD_A, "000000120106000000000001 00000D/."), format!("{}refused 9\nrefused 9\n", LINES[0]));
    checks.equal("the whole", whole("000000120106000000000001 00000D"), Some(14));
    checks.equal("14", said(CARD_A, "000000120106000000000001 00000C/."), format!("{}open\nrefused 14\n", LINES[0]));
}

/// "The card is judged when the receiver starts, before any byte" (a11).
fn cards(checks: &mut Checks) {
    let mut bad: Vec<(Vec<u8>, u8)> = vec![(Vec::new(), 1), (unhex("0027"), 1), (unhex(CARD_A)[..38].to_vec(), 1)];
    for (place, value, number) in [(2, 0, 2), (2, 4, 3), (2, 3, 4), (1, 38, 4), (3, 79, 5), (38, 0, 5)] {
        let mut card = unhex(CARD_A);
        card[place] = value;
        bad.push((card, number));
    }
    for (card, number) in bad {
        checks.equal("a refused card", Receiver::start(&card).err(), Some(number));
        checks.equal("its line", answers(&card, &calls("01/.")), format!("refused {number}\n"));
    }
}

/// "Held between calls: at most 5 bytes of a sample or the head, stated length, bytes taken, session." (a10)
fn held(checks: &mut Checks) {
    let ride = unhex(RIDE);
    for length in 0..=ride.len() {
        let mut receiver = Receiver::start(&unhex(CARD_A)).unwrap();
        receiver.piece(&ride[..length]);
        let stated = if length < 4 { 0 } else { 24 };
        checks.equal("held", (receiver.held.len(), receiver.stated, receiver.taken), (length % 6, stated, length));
        checks.equal("held bytes", &receiver.held[..], &ride[length - length % 6..length]);
    }
}

/// What is printed for a line in these pieces, and the receiver behind them.
fn received(card: &[u8], pieces: &[&[u8]]) -> (String, String) {
    let mut receiver = Receiver::start(card).unwrap();
    let mut lines = String::new();
    for piece in pieces {
        lines.extend(receiver.piece(piece).into_iter().map(line));
    }
    (lines, format!("{receiver:?}"))
}

/// Every cutting of a recording of one sample; every cutting of the paper's ride in three, empty pieces among them.
fn every_cutting(checks: &mut Checks) {
    let card = unhex(CARD_A);
    let one = unhex("0000000C0106 006407000001");
    let whole = received(&card, &[&one]);
    checks.equal("one sample", &whole.0[..], "1 8000 16 0\n");
    for cuts in 0..1 << 11 {
        let mut pieces = Vec::new();
        let mut from = 0;
        for place in 1..=12 {
            if place == 12 || cuts >> (place - 1) & 1 == 1 {
                pieces.push(&one[from..place]);
                from = place;
            }
        }
        checks.equal("a cutting", received(&card, &pieces), whole.clone());
    }
    let ride = unhex(RIDE);
    let whole = received(&card, &[&ride]);
    checks.equal("the paper's ride", &whole.0[..], &LINES.concat());
    for first in 0..=24 {
        for second in first..=24 {
            let pieces = [&ride[..first], &ride[first..second], &ride[second..]];
            checks.equal("in three", received(&card, &pieces), whole.clone());
        }
    }
}

/// The bytes of a case before its first end.
fn joined(calls: &[Call]) -> Vec<u8> {
    calls.iter().map_while(|call| match call {
        Call::Piece(bytes) => Some(&bytes[..]),
        Call::End => None,
    }).collect::<Vec<_>>().concat()
}

/// Lines by seed: cut anyhow they show the same; where the recording is no 14 they show what the whole ride shows; and
/// where they are refused, no byte earlier made that certain.
fn by_seed(checks: &mut Checks) {
    let mut rng = Rng::new("check", 1);
    let mut same_as_whole = 0;
    for case in line::batch(1, 2600).lines() {
        let words: Vec<&str> = case.split(' ').collect();
        let (card, bytes) = (unhex(words[1].trim_matches('-')), joined(&calls(words[2])));
        let text = |lengths: &[usize]| {
            let mut out = Vec::new();
            print(&card, &bytes, lengths, &mut out).unwrap();
            String::from_utf8(out).unwrap()
        };
        let at_once = text(&[60_013]);
        let some = [rng.within(0, 9), rng.within(0, 9), rng.within(1, 9)].map(|length| length as usize);
        checks.equal(case, (text(&[1]), text(&some)), (at_once.clone(), at_once.clone()));
        if card::read(card::HIGHEST, &card).is_err() || ride::recording(&bytes).is_ok() {
            same_as_whole += 1;
            let mut whole = Vec::new();
            ride::print(&card, &bytes, ride::More::No, &mut whole).unwrap();
            checks.equal(case, at_once.as_bytes(), &whole);
        }
        if card::read(card::HIGHEST, &card).is_ok() {
            let found = fault(&card, &bytes);
            let wanted = (0..bytes.len()).find_map(|place| Some((place, certain(&card, &bytes[..=place])?)));
            checks.equal(case, found, wanted);
        }
    }
    checks.equal("many are as the whole", same_as_whole > 1000, true);
}

/// The number that every good recording with this beginning is refused by at the sample in which it stops; 14 when there
/// is no such recording. Worked from the whole ride, on beginnings in which nothing was certain before their last byte.
fn certain(card: &[u8], beginning: &[u8]) -> Option<u8> {
    let mut lengths = (0..=10_000u32).map(|n| (6 + 6 * n).to_be_bytes());
    let taken = beginning.len();
    let known = taken.min(4);
    let stated = lengths.find(|four| four[..known] == beginning[..known]).map(|four| card::big_endian(&four) as usize);
    if stated.is_none() || (taken > 4 && beginning[4] != 1) {
        return Some(14);
    }
    if taken < 6 {
        return None;
    }
    if taken > stated.unwrap() {
        return Some(14);
    }
    // Samples that are not begun have no say: the recordings stop behind the one that is.
    let length = taken.next_multiple_of(6);
    let mut numbers = BTreeSet::new();
    for rest in rests(length - taken) {
        let mut recording = [beginning, &rest].concat();
        recording[..4].copy_from_slice(&(length as u32).to_be_bytes());
        numbers.insert(ride::ride(card, &recording, |_, _| {}));
    }
    if numbers.len() == 1 { numbers.pop_first().unwrap() } else { None }
}

/// The last bytes of a sample, that many, each at either end of what it can be.
fn rests(count: usize) -> Vec<Vec<u8>> {
    let all: [&[u8]; 6] = [&[0, 255], &[0, 255], &[0, 255], &[0, 255], &[0, 255], &[0, 1, 2, 3]];
    all[6 - count..].iter().fold(vec![Vec::new()], |rests, bytes| {
        rests.iter().flat_map(|rest: &Vec<u8>| bytes.iter().map(move |byte| [&rest[..], &[*byte]].concat())).collect()
    })
}
