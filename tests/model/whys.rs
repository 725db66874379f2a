//! Reasons, a case a line: the notation of tests/compare/README.md, and what each is answered with.

use crate::card::big_endian;
use crate::cards::unhex;
use crate::cases::{bytes_in, written_bytes};
use crate::desk::{Sample, Session};
use crate::replay::five;
use crate::replays::opened;
use crate::ride::sample_in;

/// A case "TYPE CAUSE SINCE CARD SAMPLES".
#[derive(Clone, PartialEq, Debug)]
pub struct Case {
    pub train: u8,
    pub cause: u8,
    pub since: u16,
    pub card: Vec<u8>,
    pub samples: Vec<u8>,
}

pub fn case_in(text: &str) -> Case {
    let words: Vec<&str> = text.split(' ').collect();
    let [train, cause, since, card, samples] = words[..] else { panic!("a type, a cause, since, a card and samples") };
    Case {
        train: unhex(train)[0],
        cause: unhex(cause)[0],
        since: big_endian(&unhex(since)) as u16,
        card: bytes_in(card),
        samples: bytes_in(samples),
    }
}

/// The case as it stands in a batch, without its first word.
pub fn written(case: &Case) -> String {
    let (card, samples) = (written_bytes(&case.card), written_bytes(&case.samples));
    format!("{:02x} {:02x} {:04x} {card} {samples}", case.train, case.cause, case.since)
}

/// The session of a case: its brake stands with this cause, on since that many samples; all else is as opened.
pub fn start(case: &Case) -> Result<Session, u8> {
    let session = opened(&case.card, case.train)?;
    Ok(Session { cause: case.cause, brake_age: case.since as i64, ..session })
}

/// Six bytes a sample; bytes behind the last whole sample are not looked at.
pub fn samples_of(case: &Case) -> Vec<Sample> {
    case.samples.chunks_exact(6).map(sample_in).collect()
}

/// Each sample's line: the answer, the reason, its age, and how many samples ago the brake came on. "Refusals: as for the sample
/// itself" (02 f); the next sample goes to the session as it was.
pub fn answers(case: &Case) -> String {
    let mut session = match start(case) {
        Ok(session) => session,
        Err(number) => return format!("refused {number}\n"),
    };
    samples_of(case).into_iter().map(|sample| line(&mut session, sample)).collect()
}

fn line(session: &mut Session, sample: Sample) -> String {
    match session.sample(sample) {
        Ok(answer) => {
            let why = session.why();
            format!("{} {} {} {}\n", five(Some(answer)), why.reason, why.age, session.brake_age)
        }
        Err(number) => format!("refused {number}\n"),
    }
}

pub fn answer_why(text: &str) -> String {
    answers(&case_in(text))
}
