//! The ride over the serial line: document 02 a), as its readings a1 to a11 have it.

use crate::card::{self, Settings};
use crate::desk::{Answer, Sample, Session, BTS, CODE_TOP, CONV};
use std::fmt;

/// How a line stands: it goes on, its good end was announced, or it is refused.
#[derive(Clone, Copy, PartialEq, Debug)]
pub enum Status {
    Open,
    Done,
    Refused(u8),
}

impl fmt::Display for Status {
    fn fmt(&self, f: &mut fmt::Formatter) -> fmt::Result {
        match self {
            Status::Open => write!(f, "open"),
            Status::Done => write!(f, "done"),
            Status::Refused(number) => write!(f, "refused {number}"),
        }
    }
}

/// The version and the settings until byte 5 has named the train, the session from there on.
#[derive(Clone, Debug)]
pub enum Desk {
    Settings(u8, Settings),
    Session(Session),
}

/// "Held between calls: at most 5 bytes of a sample or the head, stated length, bytes taken, session." (a10)
#[derive(Clone, Debug)]
pub struct Receiver {
    pub desk: Desk,
    /// 0 until its four bytes are in.
    pub stated: usize,
    pub taken: usize,
    pub held: Vec<u8>,
    pub status: Status,
}

/// A sample's number, from 1, and its answer.
pub type Shown = (usize, Answer);

/// A line of the printed ride.
pub fn line((n, answer): Shown) -> String {
    format!("{} {} {} {}\n", n, answer.s, answer.lamps, answer.cause)
}

/// "byte 3 when the length is not 6 + 6n, n ≤ 10,000 (greatest 0000EA66; 00000000 is bad)" (a2).
fn is_length(length: usize) -> bool {
    length >= 6 && length % 6 == 0 && length <= 0xea66
}

impl Receiver {
    /// "The card is judged when the receiver starts, before any byte (5; from g 2, 5 ..)" (a11).
    pub fn start(area: &[u8]) -> Result<Receiver, u8> {
        match card::version_and_settings(area) {
            Ok((version, settings)) => {
                let desk = Desk::Settings(version, settings);
                Ok(Receiver { desk, stated: 0, taken: 0, held: Vec::new(), status: Status::Open })
            }
            Err(refusal) => Err(refusal.number),
        }
    }

    /// "A call gives the answers of all samples its piece completes, then the refusal if the fault is in it; bytes
    /// behind the fault are not looked at." (a6) "Once refused, every later call, empty piece and end included, gets the
    /// same number and no answers." (a7)
    pub fn piece(&mut self, bytes: &[u8]) -> Vec<Shown> {
        let mut shown = Vec::new();
        for byte in bytes {
            if matches!(self.status, Status::Refused(_)) {
                break;
            }
            match self.take(*byte) {
                Ok(answer) => shown.extend(answer),
                Err(number) => self.status = Status::Refused(number),
            }
        }
        shown
    }

    /// "The end is announced by the sender; a recording that stops early is refused then": "an announced end short of
    /// it" is 14 (a2). "With all stated bytes in, the recording stays open until the end is announced; the good end comes
    /// then, n = 0 too" (a8). "After a good end ... a second end changes nothing" (a9).
    pub fn end(&mut self) {
        if self.status == Status::Open {
            let all_in = self.taken >= 6 && self.taken == self.stated;
            self.status = if all_in { Status::Done } else { Status::Refused(14) };
        }
    }

    /// One byte: the answer of the sample that it completes, or the refusal that it makes certain.
    fn take(&mut self, byte: u8) -> Result<Option<Shown>, u8> {
        // "After a good end ... a byte is 14." (a9)
        if self.status == Status::Done {
            return Err(14);
        }
        if self.taken < 6 {
            self.head_byte(byte)?;
            return Ok(None);
        }
        // "the first byte past the stated length" (a2).
        if self.taken == self.stated {
            return Err(14);
        }
        self.sample_byte(byte)
    }

    /// "Bytes count from 0: 0–3 length, 4 version, 5 type" (a1).
    fn head_byte(&mut self, byte: u8) -> Result<(), u8> {
        match self.taken {
            // "byte 0 or 1 not 0; byte 2 above EA" (a2).
            0 | 1 if byte != 0 => return Err(14),
            2 if byte > 0xea => return Err(14),
            3 => {
                let stated = 256 * self.held[2] as usize + byte as usize;
                if !is_length(stated) {
                    return Err(14);
                }
                self.stated = stated;
            }
            // "byte 4 not 1" (a2).
            4 if byte != 1 => return Err(14),
            // "7 is certain at byte 5." (a3)
            5 => {
                if let Desk::Settings(version, settings) = self.desk {
                    self.desk = Desk::Session(Session::open(version, settings, byte).map_err(|refusal| refusal.number)?);
                }
                self.taken += 1;
                self.held.clear();
                return Ok(());
            }
            _ => {}
        }
        self.hold(byte);
        Ok(())
    }

    /// "in a sample 0–1 pulses, 2 beacon, 3–4 buttons, 5 mode" (a1). "9 is certain at a sample's byte 2 (above 11,
    /// from c above 12), 3 (above 7) or 5 (mode). 10 and 11 only at 5" (a4).
    fn sample_byte(&mut self, byte: u8) -> Result<Option<Shown>, u8> {
        match self.held.len() {
            2 if byte > CODE_TOP => return Err(9),
            3 if byte > 7 => return Err(9),
            5 if byte != CONV && byte != BTS => return Err(9),
            5 => {}
            _ => {
                self.hold(byte);
                return Ok(None);
            }
        }
        let Desk::Session(session) = &mut self.desk else { unreachable!("byte 5 has opened it") };
        let sample = Sample {
            pulses: u16::from_be_bytes([self.held[0], self.held[1]]),
            beacon: self.held[2],
            buttons: u16::from_be_bytes([self.held[3], self.held[4]]),
            mode: byte,
        };
        let answer = session.sample(sample)?;
        self.taken += 1;
        self.held.clear();
        Ok(Some(((self.taken - 6) / 6, answer)))
    }

    fn hold(&mut self, byte: u8) {
        self.taken += 1;
        self.held.push(byte);
        assert!(self.held.len() <= 5, "more than an unfinished sample is held");
    }
}
