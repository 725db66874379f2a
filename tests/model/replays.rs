//! Replays, a case a line: the notation of tests/compare/README.md, and what each is answered with.

use crate::card;
use crate::cards::unhex;
use crate::cases::{bytes_in, written_bytes};
use crate::desk::Session;
use crate::replay::{five, replay, Handed, Replayed};

/// A case "TYPE STEPS CARD RECORDING CALLS"; a call is its place and its quota.
#[derive(Clone, PartialEq, Debug)]
pub struct Case {
    pub train: u8,
    pub steps: u8,
    pub card: Vec<u8>,
    pub recording: Vec<u8>,
    pub calls: Vec<(u64, u64)>,
}

/// "PLACE:QUOTA", both decimal.
fn call_in(text: &str) -> (u64, u64) {
    let (place, quota) = text.split_once(':').expect("a place and a quota");
    (place.parse().expect("a place"), quota.parse().expect("a quota"))
}

pub fn case_in(text: &str) -> Case {
    let words: Vec<&str> = text.split(' ').collect();
    let [train, steps, card, recording, calls] = words[..] else { panic!("a type, steps, a card, a recording and calls") };
    Case {
        train: unhex(train)[0],
        steps: unhex(steps)[0],
        card: bytes_in(card),
        recording: bytes_in(recording),
        calls: calls.split(',').map(call_in).collect(),
    }
}

/// The case as it stands in a batch, without its first word.
pub fn written(case: &Case) -> String {
    let calls: Vec<String> = case.calls.iter().map(|(place, quota)| format!("{place}:{quota}")).collect();
    let (card, recording) = (written_bytes(&case.card), written_bytes(&case.recording));
    format!("{:02x} {:02x} {card} {recording} {}", case.train, case.steps, calls.join(","))
}

/// The card is read (highest 3) and a session opened on it for this train type, not the recording's.
pub fn opened(card: &[u8], train: u8) -> Result<Session, u8> {
    let (version, settings) = card::version_and_settings(card).map_err(|refusal| refusal.number)?;
    Session::open(version, settings, train).map_err(|refusal| refusal.number)
}

/// The session of a case: its limit's steps are as said, all else is as opened.
pub fn start(case: &Case) -> Result<Handed, u8> {
    let session = opened(&case.card, case.train)?;
    Ok(Handed { session, steps: case.steps as i64 })
}

/// A call's line.
pub fn line(replayed: &Replayed) -> String {
    format!("{} {} {}\n", replayed.ran, five(replayed.last), replayed.end)
}

/// Each call is a replay from the session that the call before it gave.
pub fn answers(case: &Case) -> String {
    let mut start = match start(case) {
        Ok(start) => start,
        Err(number) => return format!("refused {number}\n"),
    };
    let mut lines = String::new();
    for (place, quota) in &case.calls {
        let replayed = replay(&case.recording, *place, *quota, &start);
        lines += &line(&replayed);
        start = replayed.handed;
    }
    lines
}

pub fn answer_replay(text: &str) -> String {
    answers(&case_in(text))
}

/// How many whole samples stand behind the head, whatever the head says.
pub fn whole_samples(recording: &[u8]) -> u64 {
    recording.len().saturating_sub(6) as u64 / 6
}

/// A case "TYPE CARD RECORDING": the recording's samples in two quotas, in every way there is, each time opened anew.
pub fn answer_splits(text: &str) -> String {
    let words: Vec<&str> = text.split(' ').collect();
    let [train, card, recording] = words[..] else { panic!("a type, a card and a recording") };
    let recording = bytes_in(recording);
    let start = match opened(&bytes_in(card), unhex(train)[0]) {
        Ok(session) => Handed::new(session),
        Err(number) => return format!("refused {number}\n"),
    };
    let n = whole_samples(&recording);
    let mut lines = String::new();
    for first_quota in 0..=n {
        let first = replay(&recording, 0, first_quota, &start);
        let second = replay(&recording, first.ran, n - first_quota, &first.handed);
        lines += &line(&first);
        lines += &line(&second);
    }
    lines
}
