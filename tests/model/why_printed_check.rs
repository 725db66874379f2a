//! Checks of what is printed of reasons: in words, by `why`, by `ride` with its fifth column, and by the lines of a batch. Train
//! type 6 and tick 100 where nothing else is said.

use crate::card::{self, Row, Settings};
use crate::cards::{unhex, CARD_A, CARD_K, CARD_R2};
use crate::cases::{answer, hex};
use crate::check::Checks;
use crate::desk::Session;
use crate::notation::{on, samples};
use crate::ride::{self, recorded, More};
use crate::why::{print, print_words, words};

pub fn all(checks: &mut Checks) {
    in_words(checks);
    causes_in_words(checks);
    printed(checks);
    printed_words(checks);
    cases(checks);
}

fn settings(card: &str) -> Settings {
    card::read(2, &unhex(card)).unwrap()
}

fn on_these(settings: Settings, train: u8) -> Session {
    Session::open(2, settings, train).unwrap()
}

/// What is said in words behind a ride.
fn said(mut session: Session, ride: &str) -> String {
    let rest = samples(ride);
    let (last, before) = rest.split_last().unwrap();
    for sample in before {
        session.sample(*sample).unwrap();
    }
    let was_braked = session.cause != 0;
    session.sample(*last).unwrap();
    words(&session, was_braked)
}

/// Each name; S whole or not; ages in tenths.
fn in_words(checks: &mut Checks) {
    for (card, train, ride, wanted) in [
        (CARD_A, 6, "0/3", "160 km/h  vmax"), (CARD_A, 5, "0/3", "140 km/h  T of the train type"),
        (CARD_A, 6, "0/0/0/2", "80 km/h  BTS speed"), (CARD_A, 6, "0", "100 km/h  start, 0.1 s old"),
        (CARD_K, 8, "50/2", "180 km/h  conditional clear, 0.0 s old"),
        (CARD_K, 8, "50/2, 50", "179.90 km/h  conditional clear, 0.1 s old"),
        (CARD_K, 6, "50/1, 50/0/1", "119.90 km/h  stop announcement, 0.1 s old"),
        (CARD_K, 6, "50/5, 9×50", "139.10 km/h  preannouncement, 0.9 s old"),
        (CARD_K, 6, "50/6, 10×50", "129 km/h  caution, 1.0 s old"),
        (CARD_A, 6, "50/7, 20×50", "80 km/h  before-stop, 2.0 s old"),
        (CARD_A, 6, "50/7, 21×50", "79.80 km/h  before-stop, 2.1 s old"),
        (CARD_A, 6, "0/0/128, 0/8, 123×0", "40 km/h  stop, 12.3 s old"),
        (CARD_A, 6, "0/0/128, 0/8, 0/3", "40 km/h  stop alongside, 0.0 s old"),
        (CARD_K, 6, "0/7, 0, 0/7", "10 km/h  stop zone, 0.0 s old"),
        (CARD_K, 6, "270/3, 270/4", "155 km/h  protected crossing, 0.0 s old"),
        (CARD_K, 6, "50/9, 50/0/32", "99.99 km/h  unprotected crossing, 0.1 s old"),
        (CARD_K, 6, "50/3, 50/10", "110 km/h  limit, 0.0 s old"),
        (CARD_A, 6, "0/7, 0/0/16, 29999×0", "40 km/h  before-stop, 3000.0 s old"),
        (CARD_A, 6, "0/7, 0/0/16, 30001×0", "40 km/h  before-stop, 3000.0 s old"),
    ] {
        let session = on_these(settings(card), train);
        checks.equal(ride, said(session, ride), wanted.to_string());
    }
    let low = on_these(Settings { bts: 9, ..settings(CARD_A) }, 6);
    checks.equal("one digit", said(low, "0/0/0/2"), "9 km/h  BTS speed".into());
    let row = Row { initial: 1, r#final: 1, delay: 0, drop: 1 };
    let mut slow = settings(CARD_A);
    slow.rows[card::START] = Row { initial: 2, drop: 95, ..row };
    checks.equal("hundredths", said(on_these(slow, 6), "0"), "1.05 km/h  start, 0.1 s old".into());
}

/// Each cause; the brake on and off.
fn causes_in_words(checks: &mut Checks) {
    for (card, ride, wanted) in [
        (CARD_A, "50/7, 30×50", "78 km/h  before-stop, 3.0 s old; braked 0.0 s ago: a main window missed"),
        (CARD_A, "50/9, 30×50", "100 km/h  start, 3.1 s old; braked 0.0 s ago: a side window missed"),
        (CARD_R2, "0/0/128, 100/8, 250×100", "40 km/h  stop, 25.0 s old; braked 0.0 s ago: a reminder missed"),
        (CARD_A, "11×50, 50/8", "40 km/h  stop, 0.0 s old; braked 0.0 s ago: a stop signal passed without override"),
        (CARD_A, "300", "100 km/h  start, 0.1 s old; braked 0.0 s ago: too fast"),
        (CARD_A, "0/12", "100 km/h  start, 0.1 s old; braked 0.0 s ago: the pickup is quiet"),
        (CARD_A, "0/8, 0/0/0/2, 10×0/0/0/2", "80 km/h  BTS speed; braked 1.1 s ago: a stop signal passed without override"),
        (CARD_A, "0/8, 0/0/1024", "40 km/h  stop, 0.1 s old; brake off"), (CARD_A, "0/8, 0/0/1024, 0", "40 km/h  stop, 0.2 s old"),
        (CARD_A, "0/8, 0/3/1024/2", "80 km/h  BTS speed; brake off"),
        (CARD_A, "0/8, 30000×0", "40 km/h  stop, 3000.0 s old; braked 3000.0 s ago: a stop signal passed without override"),
    ] {
        checks.equal(ride, said(on(card), ride), wanted.to_string());
    }
}

/// What a program prints for a ride: document 01's, one with a refusal in it, one without samples, a bad card.
fn printed(checks: &mut Checks) {
    let paper = recorded(6, &samples("0, 100/7, 100/0/16"));
    let refused = recorded(6, &samples("0/8, 0, 0/13, 0"));
    let (none, a) = (recorded(6, &[]), unhex(CARD_A));
    let why_heading = "n limit reason age cause since\n";
    for (card, bytes, wanted) in [
        (&a[..], &paper[..], "1 10000 4 1 0 0\n2 8000 4 0 0 0\n3 8000 4 1 0 0\n"), (&a, &none, ""), (&a, &paper[..9], "refused 14\n"),
        (&a, &refused, "1 4000 4 0 4 0\n2 4000 4 1 4 1\nrefused 9\n"), (&a[..2], &none, "refused 1\n"),
        (&a, &recorded(7, &[]), "refused 7\n"),
    ] {
        let mut got = Vec::new();
        print(card, bytes, &mut got).unwrap();
        checks.equal("why", String::from_utf8(got).unwrap(), format!("{why_heading}{wanted}"));
    }
    let reason_heading = "n limit lamps cause reason\n";
    for (card, bytes, wanted) in [
        (&a[..], &paper[..], "1 10000 0 0 4\n2 8000 16 0 4\n3 8000 0 0 4\n"), (&a, &none, ""), (&a, &paper[..9], "refused 14\n"),
        (&a, &refused, "1 4000 1280 4 4\n2 4000 1280 4 4\nrefused 9\n"), (&a[..2], &none, "refused 1\n"),
    ] {
        let mut got = Vec::new();
        ride::print(card, bytes, More::Reason, &mut got).unwrap();
        checks.equal("ride reason", String::from_utf8(got).unwrap(), format!("{reason_heading}{wanted}"));
    }
}

/// A line where the name or the cause changed, also by the cause alone and under the same number; none where only ages or S do.
fn printed_words(checks: &mut Checks) {
    let a = unhex(CARD_A);
    let stop = "40 km/h  stop, 0.0 s old; braked 0.0 s ago: a stop signal passed without override";
    for (card, ride, wanted) in [
        (&a[..], "0, 100/7, 100/0/16", "1  100 km/h  start, 0.1 s old\n2  80 km/h  before-stop, 0.0 s old\n".to_string()),
        (&a, "0, 0/8, 0, 0/0/1024, 0/3, 0/13", format!("1  100 km/h  start, 0.1 s old\n2  {stop}\n4  40 km/h  stop, 0.2 s old; \
            brake off\n5  40 km/h  stop alongside, 0.0 s old\nrefused 9\n")),
        (&a, "11×50, 50/8, 50", format!("1  100 km/h  start, 0.1 s old\n12  {stop}\n")),
        (&a, "50/7, 50, 40×50/0/16, 50/7", "1  80 km/h  before-stop, 0.0 s old\n".into()), (&a, "0/13", "refused 9\n".into()),
        (&a[..2], "0", "refused 1\n".into()),
        (&unhex(CARD_K), "270/3, 270/4, 100", "1  160 km/h  T of the train type\n2  155 km/h  protected crossing, 0.0 s old\n\
            3  100 km/h  unprotected crossing, 0.0 s old\n".into()),
    ] {
        let mut got = Vec::new();
        print_words(card, &recorded(6, &samples(ride)), &mut got).unwrap();
        checks.equal(ride, String::from_utf8(got).unwrap(), wanted);
    }
    let mut got = Vec::new();
    print_words(&a, &recorded(6, &[]), &mut got).unwrap();
    checks.equal("no samples, no line", got, Vec::new());
}

/// The lines of why_cases: numbers beside their ends, a refused sample between, bytes behind the last whole sample.
fn cases(checks: &mut Checks) {
    let card = hex(&unhex(CARD_A));
    for (words, samples, wanted) in [
        ("06 00 0000", "000000000001", "10000 0 0 0 0 4 1 0\n"), ("06 04 0005", "000000000001", "10000 1024 4 0 0 4 1 6\n"),
        ("06 06 752f", "000000000001000000000001", "10000 1024 6 0 0 4 1 30000\n10000 1024 6 0 0 4 2 30000\n"),
        ("06 06 752E", "0000000000010000000000", "10000 1024 6 0 0 4 1 29999\n"), ("06 07 0000", "00000D000001", "refused 8\n"),
        ("06 06 7531", "000000000001000000000001", "refused 8\nrefused 8\n"),
        ("06 00 7530", "000000000001000008000001", "10000 0 0 0 0 4 1 0\n4000 1280 4 0 0 4 0 0\n"),
        ("06 01 0000", "03e90000000100000D000001000000000002", "refused 10\nrefused 9\n8000 1024 1 0 0 3 0 1\n"),
        ("06 05 0002", "000000040001", "10000 0 0 0 0 4 1 0\n"), ("07 07 FFFF", "000000000001", "refused 7\n"), ("06 04 0000", "-", ""),
        ("06 04 0000", "0000000000", ""),
    ] {
        let line = format!("why {words} {card} {samples}");
        let mut got = Vec::new();
        answer(&line, &mut got).unwrap();
        checks.equal(words, String::from_utf8(got).unwrap(), format!("{line}\n{wanted}"));
    }
    let mut got = Vec::new();
    answer("why 06 00 0000 - -", &mut got).unwrap();
    checks.equal("no card", String::from_utf8(got).unwrap(), "why 06 00 0000 - -\nrefused 1\n".to_string());
}
