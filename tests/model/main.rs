//! A model of document 01, and of what document 02 adds, written from their sentences and readings alone, to compare other programs
//! with. See tests/compare.

mod advance;
mod aim;
mod answer;
mod card;
mod cards;
mod cards_rows;
mod cases;
mod check;
mod controls;
mod damage;
mod desk;
mod kinds;
mod line;
mod make;
mod notation;
mod pairs;
mod pairs_check;
mod pairs_kind;
mod pairs_laws;
mod pairs_rows;
mod pieces;
mod quiet;
mod quiet_check;
mod receive;
mod receive_check;
mod replay;
mod replay_check;
mod replay_damage;
mod replay_laws;
mod replay_make;
mod replay_rows;
mod replay_runs;
mod replays;
mod ride;
mod stand;
mod stand_check;
mod steer;
mod tone;
mod why;
mod why_check;
mod why_kind;
mod why_printed_check;
mod why_rows;
mod whys;
mod whys_make;
mod whys_rows;
mod windows;

use ride::More;
use std::io::{self, Read, Write};

const USAGE: &str = "model run CARD < RECORDING
model ride CARD [reason] < RECORDING
model why CARD [words] < RECORDING
model receive CARD LENGTH[,LENGTH..] < LINE
model replay CARD QUOTA.. < RECORDING
model cover CARD < RECORDING
model cover-cards|cover-settings|cover-tones|cover-pieces|cover-replays|cover-whys < BATCH
model answer < BATCH
model make cards|settings|tones|pieces|replays|whys SEED SIZE > BATCH
model make-ride random|answers|drive|long|stand|quiet|why|pairs|damaged SEED SAMPLES CARDFILE RECFILE
model make-line SEED CARDFILE LINEFILE
model self";

fn main() -> io::Result<()> {
    let words: Vec<String> = std::env::args().skip(1).collect();
    let words: Vec<&str> = words.iter().map(|word| word.as_str()).collect();
    let mut out = io::BufWriter::new(io::stdout().lock());
    match words[..] {
        ["run", file] => ride::print(&std::fs::read(file)?, &input()?, More::Answer, &mut out)?,
        ["ride", file] => ride::print(&std::fs::read(file)?, &input()?, More::No, &mut out)?,
        ["ride", file, "reason"] => ride::print(&std::fs::read(file)?, &input()?, More::Reason, &mut out)?,
        ["why", file] => why::print(&std::fs::read(file)?, &input()?, &mut out)?,
        ["why", file, "words"] => why::print_words(&std::fs::read(file)?, &input()?, &mut out)?,
        ["receive", file, lengths] => {
            let lengths: Vec<usize> = lengths.split(',').map(|length| number(length) as usize).collect();
            if lengths.last() == Some(&0) {
                usage(); // it goes on to the end of the line
            }
            pieces::print(&std::fs::read(file)?, &input()?, &lengths, &mut out)?
        }
        ["replay", file, ref quotas @ ..] if !quotas.is_empty() => {
            let quotas: Vec<u64> = quotas.iter().map(|digits| replay::quota(digits).unwrap_or_else(|| usage())).collect();
            replay::print(&std::fs::read(file)?, &input()?, &quotas, &mut out)?
        }
        ["cover", file] => {
            for (key, count) in ride::cover(&std::fs::read(file)?, &input()?) {
                writeln!(out, "{key} {count}")?;
            }
        }
        [what @ ("cover-pieces" | "cover-tones")] => {
            let cover = if what == "cover-pieces" { pieces::cover } else { cases::cover_tones };
            for (row, count) in cover(&io::read_to_string(io::stdin())?) {
                writeln!(out, "{count} {row}")?;
            }
        }
        [what @ ("cover-cards" | "cover-settings" | "cover-replays" | "cover-whys")] => {
            let cover = match what {
                "cover-cards" => cards_rows::cover_cards,
                "cover-settings" => cards_rows::cover_settings,
                "cover-replays" => replay_rows::cover,
                _ => whys_rows::cover,
            };
            for (row, count) in cover(&io::read_to_string(io::stdin())?) {
                writeln!(out, "{count} {row}")?;
            }
        }
        ["answer"] => cases::answer(&io::read_to_string(io::stdin())?, &mut out)?,
        ["make", kind, seed, size] => match make::batch(kind, number(seed), number(size)) {
            Some(batch) => out.write_all(batch.as_bytes())?,
            None => usage(),
        },
        ["make-ride", kind, seed, samples, card_file, recording_file] => {
            let Some((card, recording)) = steer::make_ride(kind, number(seed), number(samples)) else { usage() };
            std::fs::write(card_file, card)?;
            std::fs::write(recording_file, recording)?;
        }
        ["make-line", seed, card_file, line_file] => {
            let (card, line) = line::make_line(number(seed));
            std::fs::write(card_file, card)?;
            std::fs::write(line_file, line)?;
        }
        ["self"] => {
            let failed = check::all(&mut out)?;
            out.flush()?;
            std::process::exit(if failed == 0 { 0 } else { 1 });
        }
        _ => usage(),
    }
    out.flush()
}

fn usage() -> ! {
    eprintln!("{USAGE}");
    std::process::exit(2);
}

fn number(word: &str) -> u64 {
    word.parse().unwrap_or_else(|_| usage())
}

fn input() -> io::Result<Vec<u8>> {
    let mut bytes = Vec::new();
    io::stdin().lock().read_to_end(&mut bytes)?;
    Ok(bytes)
}
