//! Samples as the readings of document 02 write them.

use crate::card;
use crate::cards::unhex;
use crate::desk::{Answer, Sample, Session};

/// A session opened on this card with train type 6.
pub fn on(card: &str) -> Session {
    let (version, settings) = card::version_and_settings(&unhex(card)).unwrap();
    Session::open(version, settings, 6).unwrap()
}

/// "A sample is pulses/beacon/buttons/mode, trailing zeros and mode 1 left out, n× repeats."
pub fn samples(text: &str) -> Vec<Sample> {
    let mut samples = Vec::new();
    for words in text.split(", ") {
        let (times, fields) = words.split_once('×').unwrap_or(("1", words));
        let fields: Vec<u16> = fields.split('/').map(|field| field.parse().unwrap()).collect();
        let field = |place: usize, left_out: u16| fields.get(place).copied().unwrap_or(left_out);
        let (beacon, mode) = (field(1, 0) as u8, field(3, 1) as u8);
        let sample = Sample { pulses: field(0, 0), beacon, buttons: field(2, 0), mode };
        samples.extend(vec![sample; times.parse().unwrap()]);
    }
    samples
}

/// What each sample is answered with; the session goes on behind a refused one.
pub fn run(session: &mut Session, text: &str) -> Vec<Result<Answer, u8>> {
    samples(text).into_iter().map(|sample| session.sample(sample)).collect()
}
