//! The settings card: document 01, "Refusal numbers" and "The card", with version 3 as document 02 g has it.

/// "A refusal returns its number (and place for 5, 12)".
#[derive(Clone, Copy, PartialEq, Debug)]
pub struct Refusal {
    pub number: u8,
    pub place: Option<usize>,
}

pub fn refused(number: u8) -> Refusal {
    Refusal { number, place: None }
}

pub fn refused_at(number: u8, place: usize) -> Refusal {
    Refusal { number, place: Some(place) }
}

impl std::fmt::Display for Refusal {
    fn fmt(&self, f: &mut std::fmt::Formatter) -> std::fmt::Result {
        match self.place {
            Some(place) => write!(f, "refused {} at {}", self.number, place),
            None => write!(f, "refused {}", self.number),
        }
    }
}

/// "eight rows of four: initial, final, delay, drop".
#[derive(Clone, Copy, PartialEq, Debug, Default)]
pub struct Row {
    pub initial: u8,
    pub r#final: u8,
    pub delay: u8,
    pub drop: u8,
}

impl Row {
    /// "A row at age k gives its initial while k ≤ delay, then the larger of final and initial minus drop hundredths
    /// of km/h for each sample past the delay (house)." In hundredths of km/h.
    pub fn at(self, age: i64) -> i64 {
        let initial = 100 * self.initial as i64;
        if age <= self.delay as i64 {
            return initial;
        }
        let fallen = initial - self.drop as i64 * (age - self.delay as i64);
        fallen.max(100 * self.r#final as i64)
    }
}

/// "Rows 0..7: conditional clear, stop announcement, preannouncement, caution, before-stop, unprotected crossing,
/// limit, start."
pub const CONDITIONAL_CLEAR: usize = 0;
pub const ANNOUNCEMENT: usize = 1;
pub const PREANNOUNCEMENT: usize = 2;
pub const CAUTION: usize = 3;
pub const BEFORE_STOP: usize = 4;
pub const UNPROTECTED: usize = 5;
pub const LIMIT: usize = 6;
pub const START: usize = 7;

#[derive(Clone, Copy, PartialEq, Debug, Default)]
pub struct Settings {
    pub vmax: u8,
    pub tick: u16,
    pub bts: u8,
    pub rows: [Row; 8],
    pub functions: u8,
    pub x: u16,
    pub y: u16,
    /// "bytes 44–47, the speeds for pairs 10-10, 10-11, 11-10, 11-11" (02 g), in km/h; 0 beside versions 1 and 2.
    pub pairs: [u8; 4],
    /// "byte 48, the pair distance 1..50 m" (02 g); 0 beside versions 1 and 2.
    pub distance: u8,
}

impl Settings {
    /// "Functions ...: bit 0 protected crossing, 1 stop zone, 2 reminder, 3 BTS reads beacons 4, 9, 10, 11."
    pub fn function(&self, bit: u8) -> bool {
        self.functions >> bit & 1 == 1
    }
}

/// "The version 1 length, 39, and the version 2 length, 44, belong to the card's kind." "Card version 3 is version 2 with bytes
/// 44–47 ... and byte 48 ...; length 49." (02 g)
pub fn record_length(version: u8) -> usize {
    match version {
        1 => 39,
        2 => 44,
        _ => 49,
    }
}

/// "The ride program's highest is 3 from g on." (g6)
pub const HIGHEST: u8 = 3;

/// "giving 30, 40, 50 or 70 km/h" (02 g).
pub const PAIR_SPEEDS: [u8; 4] = [30, 40, 50, 70];

pub fn big_endian(bytes: &[u8]) -> u32 {
    bytes.iter().fold(0, |n, b| n << 8 | *b as u32)
}

/// "3 vmax 80..200 km/h, 4–5 tick length 10..1000 tenths of a millimetre, 6 BTS speed 1..200, 7–38 eight rows ...
/// In a row initial 1..200, final 1..initial, delay any, drop ≥ 1." "Places are (first) byte positions, lowest first;
/// final above initial is the final's fault." (R 2)
fn first_bad_in_3_to_38(s: &Settings) -> Option<usize> {
    if s.vmax < 80 || s.vmax > 200 {
        return Some(3);
    }
    if s.tick < 10 || s.tick > 1000 {
        return Some(4);
    }
    if s.bts < 1 || s.bts > 200 {
        return Some(6);
    }
    for (i, row) in s.rows.iter().enumerate() {
        if row.initial < 1 || row.initial > 200 {
            return Some(7 + 4 * i);
        }
        if row.r#final < 1 || row.r#final > row.initial {
            return Some(7 + 4 * i + 1);
        }
        if row.drop < 1 {
            return Some(7 + 4 * i + 3);
        }
    }
    None
}

/// "39 functions (0..15), 40–41 reminder X 2..6000 samples, 42–43 reminder Y 1..5000 m." "With bit 2 off ... settings
/// handed in must then have X and Y 0 (else 5 at 40, 42)." (R 3)
fn first_bad_in_39_to_43(s: &Settings) -> Option<usize> {
    if s.functions > 15 {
        return Some(39);
    }
    if s.function(2) {
        if s.x < 2 || s.x > 6000 {
            return Some(40);
        }
        if s.y < 1 || s.y > 5000 {
            return Some(42);
        }
    } else {
        if s.x != 0 {
            return Some(40);
        }
        if s.y != 0 {
            return Some(42);
        }
    }
    None
}

/// "bytes 44–47 ..., each one of those four, and byte 48, the pair distance 1..50 m"; "settings handed in beside version 1 or 2 must
/// have them 0" (02 g). "Settings beside them with 44..48 not 0: 5 at the first; zeros beside version 3: 5 at 44." (g3)
fn first_bad_in_44_to_48(version: u8, s: &Settings) -> Option<usize> {
    let pair_is_good = |speed: u8| if version == 3 { PAIR_SPEEDS.contains(&speed) } else { speed == 0 };
    let distance_is_good = if version == 3 { s.distance >= 1 && s.distance <= 50 } else { s.distance == 0 };
    match s.pairs.iter().position(|speed| !pair_is_good(*speed)) {
        Some(kind) => Some(44 + kind),
        None if !distance_is_good => Some(48),
        None => None,
    }
}

/// "setting out of range, with place of the first", beside a version 1..3. "A version 1 card has functions 0 (writer: else 5 at
/// 39)" (R 4), and the opening "judges version and settings as the writer does" (02 g).
pub fn first_bad(version: u8, s: &Settings) -> Option<usize> {
    let functions_on_1 = if version == 1 && s.functions != 0 { Some(39) } else { None };
    first_bad_in_3_to_38(s).or(functions_on_1).or(first_bad_in_39_to_43(s)).or(first_bad_in_44_to_48(version, s))
}

/// "judges version and settings as the writer does (2, then 5)"; "2 and 6 now allow 3" (02 g).
pub fn judge(version: u8, s: &Settings) -> Result<(), Refusal> {
    if version < 1 || version > 3 {
        return Err(refused(2));
    }
    match first_bad(version, s) {
        Some(place) => Err(refused_at(5, place)),
        None => Ok(()),
    }
}

/// The settings in a record: "With bit 2 off, bytes 40–43 are not looked at and X, Y read as 0"; "A version 1 card
/// has functions 0". Versions 1 and 2 "read bytes 44 to 48 as 0" (02 g): "Nothing behind a version 1 or 2 record is looked at."
/// (g3)
fn settings_in(record: &[u8], version: u8) -> Settings {
    let mut s = Settings { vmax: record[3], tick: big_endian(&record[4..6]) as u16, bts: record[6], ..Settings::default() };
    for i in 0..8 {
        let four = &record[7 + 4 * i..11 + 4 * i];
        s.rows[i] = Row { initial: four[0], r#final: four[1], delay: four[2], drop: four[3] };
    }
    if version >= 2 {
        s.functions = record[39];
        if s.function(2) {
            s.x = big_endian(&record[40..42]) as u16;
            s.y = big_endian(&record[42..44]) as u16;
        }
    }
    if version == 3 {
        s.pairs.copy_from_slice(&record[44..48]);
        s.distance = record[48];
    }
    s
}

/// "card reading 6, 1 (under 3), 2, 3, 4, 1 (record), 5". What lies behind the record is not looked at (R 1). "Reader: highest
/// 1..3, else 6; version 3 under highest 1 or 2, and 4 under 3, is 3." (g2)
pub fn read(highest: u8, area: &[u8]) -> Result<Settings, Refusal> {
    if highest < 1 || highest > 3 {
        return Err(refused(6));
    }
    if area.len() < 3 {
        return Err(refused(1));
    }
    let version = area[2];
    if version == 0 {
        return Err(refused(2));
    }
    if version > highest {
        return Err(refused(3));
    }
    if big_endian(&area[0..2]) as usize != record_length(version) {
        return Err(refused(4));
    }
    if area.len() < record_length(version) {
        return Err(refused(1));
    }
    let settings = settings_in(area, version);
    match first_bad(version, &settings) {
        Some(place) => Err(refused_at(5, place)),
        None => Ok(settings),
    }
}

/// What the programs open a session with: the card's version and its settings.
pub fn version_and_settings(area: &[u8]) -> Result<(u8, Settings), Refusal> {
    read(HIGHEST, area).map(|settings| (area[2], settings))
}

/// The bytes of settings as this version has them. "The version goes beside the settings to the writer, which zeroes silent
/// bytes"; "40–43 stay silent with bit 2 off; 44–48 always speak." (g1)
pub fn record(version: u8, s: &Settings) -> Vec<u8> {
    let mut r = vec![0, record_length(version) as u8, version, s.vmax];
    r.extend(s.tick.to_be_bytes());
    r.push(s.bts);
    for row in s.rows {
        r.extend([row.initial, row.r#final, row.delay, row.drop]);
    }
    if version != 1 {
        r.push(s.functions);
        let (x, y) = if s.function(2) { (s.x, s.y) } else { (0, 0) };
        r.extend(x.to_be_bytes());
        r.extend(y.to_be_bytes());
    }
    if version == 3 {
        r.extend(s.pairs);
        r.push(s.distance);
    }
    r
}

/// "writing 2, 5, 13"; "touches nothing beyond the record"; a refusal "leaves buffers ... unchanged".
pub fn write(version: u8, s: &Settings, buffer: &mut [u8]) -> Result<(), Refusal> {
    judge(version, s)?;
    let record = record(version, s);
    if buffer.len() < record.len() {
        return Err(refused(13));
    }
    buffer[..record.len()].copy_from_slice(&record);
    Ok(())
}
