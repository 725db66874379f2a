//! Laws of document 02 g) on rides by seed: which rides a card's version and its bytes 44 to 48 may tell apart (g30), and the pairs
//! worked out from a ride's codes and travel alone.

use crate::card::{PAIR_SPEEDS, Settings};
use crate::check::Checks;
use crate::desk::{Answer, Sample, Session, BTS};
use crate::make::{pair_settings, Rng};
use crate::ride;
use crate::steer::make_ride;

pub fn all(checks: &mut Checks) {
    let mut met = Met::default();
    let kinds = [("random", 400, 60), ("answers", 800, 60), ("drive", 800, 40), ("long", 2000, 12), ("stand", 100, 100),
        ("quiet", 150, 100), ("why", 400, 60), ("pairs", 250, 300)];
    for (kind, size, seeds) in kinds {
        for seed in 1..=seeds {
            let (card, bytes) = make_ride(kind, seed, size).unwrap();
            let (session, samples) = ride::open(&card, &bytes).unwrap();
            let name = format!("{kind} {seed}");
            by_version(checks, &name, &session, &samples, &mut met);
            by_bytes(checks, &name, &session, &samples, seed, &mut met);
            by_codes(checks, &name, session, &samples, &mut met);
        }
    }
    let counts = [met.old, met.new, met.part_at_first, met.part_at_second, met.alike_at_first, met.pairs, met.lone, met.dropped, met.kept];
    checks.equal(&format!("many of each, {counts:?}"), counts.iter().all(|count| *count > 30), true);
}

/// How often something was seen.
#[derive(Default)]
struct Met {
    old: u32,
    new: u32,
    part_at_first: u32,
    part_at_second: u32,
    alike_at_first: u32,
    pairs: u32,
    lone: u32,
    dropped: u32,
    kept: u32,
}

/// Which 10s and 11s of a ride are read, from its codes and modes alone: a code is read that differs from the sample's before, in BTS
/// with function 3 alone.
struct Reader {
    last: u8,
    function_3: bool,
}

impl Reader {
    fn of(settings: &Settings) -> Reader {
        Reader { last: 0, function_3: settings.functions & 8 != 0 }
    }

    /// Whether this accepted sample reads a 10 or 11.
    fn reads(&mut self, sample: &Sample) -> bool {
        let changed = sample.beacon != self.last;
        self.last = sample.beacon;
        changed && (sample.beacon == 10 || sample.beacon == 11) && (sample.mode != BTS || self.function_3)
    }
}

/// The same session as opened with this version and these settings.
fn anew(session: &Session, version: u8, settings: Settings) -> Session {
    Session::open(version, settings, session.train).unwrap()
}

/// Runs both: the answers must be the same before the sample that reads the n-th 10 or 11; gives whether they differ in that sample
/// or behind it, and none where no such sample comes.
fn alike(checks: &mut Checks, name: &str, mut one: Session, mut other: Session, samples: &[Sample], nth: u32) -> Option<bool> {
    let mut reader = Reader::of(&one.settings);
    let mut read = 0;
    let mut part = false;
    for sample in samples {
        let answers: [Result<Answer, u8>; 2] = [one.sample(*sample), other.sample(*sample)];
        if answers[0].is_ok() {
            read += reader.reads(sample) as u32;
        }
        if read < nth {
            checks.equal(name, answers[0], answers[1]);
            checks.equal(name, answers[0].map(|_| one.why()), answers[1].map(|_| other.why()));
        }
        part |= answers[0] != answers[1];
        if answers.iter().any(Result::is_err) {
            break;
        }
    }
    if read < nth { None } else { Some(part) }
}

/// "version 3 speaks beside older cards at the first 10 or 11 read" (02 g): "since opening" (g30). And "cards of version 1 and 2": all
/// stays, so they have no pair.
fn by_version(checks: &mut Checks, name: &str, session: &Session, samples: &[Sample], met: &mut Met) {
    let mut rng = Rng::new(name, 3);
    let older = Settings { pairs: [0; 4], distance: 0, ..session.settings };
    let mut newer = older;
    pair_settings(&mut rng, &mut newer);
    for version in [1, 2] {
        if version == 1 && older.functions != 0 {
            continue;
        }
        let (one, other) = (anew(session, version, older), anew(session, 3, newer));
        match alike(checks, name, one, other, samples, 1) {
            Some(true) => met.part_at_first += 1,
            Some(false) => met.alike_at_first += 1,
            None => {}
        }
        let mut old = anew(session, version, older);
        for sample in samples {
            if old.sample(*sample).is_err() {
                break;
            }
            checks.equal(name, (old.paired, old.first), ([None; 4], None));
        }
        met.old += 1;
    }
    if older.functions == 0 {
        // Between versions 1 and 2 nothing speaks.
        let parts = alike(checks, name, anew(session, 1, older), anew(session, 2, older), samples, u32::MAX);
        checks.equal(name, parts, None);
    }
}

/// "and bytes 44 to 48 at the second" (02 g), "pair or not" (g30).
fn by_bytes(checks: &mut Checks, name: &str, session: &Session, samples: &[Sample], seed: u64, met: &mut Met) {
    let mut rng = Rng::new(name, seed);
    let (mut one, mut other) = (session.settings, session.settings);
    pair_settings(&mut rng, &mut one);
    pair_settings(&mut rng, &mut other);
    met.new += 1;
    if alike(checks, name, anew(session, 3, one), anew(session, 3, other), samples, 2) == Some(true) {
        met.part_at_second += 1;
    }
}

/// The pairs of a version 3 ride worked out from the readings, the travel and the mode changes alone. In the sample of a pair its
/// speed's age is 0, and in no other; the single limit is that of the first no more, unless it stood before or was set since.
fn by_codes(checks: &mut Checks, name: &str, mut session: Session, samples: &[Sample], met: &mut Met) {
    if session.version != 3 {
        return;
    }
    let (settings, mut reader) = (session.settings, Reader::of(&session.settings));
    let (mut travel, mut mode) = (0, session.mode);
    // The code of the first, where it was read, and whether a single limit stood before it.
    let mut first: Option<(u8, i64, bool)> = None;
    for sample in samples {
        let before = session.clone();
        if session.sample(*sample).is_err() {
            break;
        }
        travel += sample.pulses as i64 * settings.tick as i64;
        if sample.mode != mode {
            mode = sample.mode;
            first = None;
        }
        let set_now: Vec<usize> = (0..4).filter(|which| session.paired[*which] == Some(0)).collect();
        if !reader.reads(sample) {
            checks.equal(name, set_now, Vec::new());
            continue;
        }
        match first {
            Some((code, at, stood)) if travel - at <= 10_000 * settings.distance as i64 => {
                let speed = match (code, sample.beacon) {
                    (10, 10) => settings.pairs[0],
                    (10, _) => settings.pairs[1],
                    (_, 10) => settings.pairs[2],
                    _ => settings.pairs[3],
                };
                checks.equal(name, set_now.iter().map(|which| PAIR_SPEEDS[*which]).collect(), vec![speed]);
                checks.equal(name, session.s <= 100 * speed as i64, true);
                checks.equal(name, session.answer().limit, true);
                met.pairs += 1;
                // A limit that is last set by a first which found none goes; any other is left alone.
                match (before.limit, session.limit) {
                    (Some(limit), None) => {
                        checks.equal(name, (stood, limit.answered) == (false, false) || removes(sample), true);
                        met.dropped += 1;
                    }
                    (_, Some(limit)) => {
                        checks.equal(name, stood || limit.answered, true);
                        met.kept += 1;
                    }
                    (None, None) => {}
                }
                first = None;
            }
            _ => {
                checks.equal(name, set_now, Vec::new());
                checks.equal(name, session.limit.map(|limit| (limit.steps, limit.answered)), Some((0, false)));
                // None stood where the new one begins at age 0.
                first = Some((sample.beacon, travel, session.limit.map(|limit| limit.age) != Some(0)));
                met.lone += 1;
            }
        }
    }
}

/// Whether this sample may take a limit off by its button.
fn removes(sample: &Sample) -> bool {
    sample.buttons & 64 != 0
}
