//! The cards of lessons/cards, as a teacher reads them: hexadecimal digits, and comments behind a #.

pub const CARD_A: &str = include_str!("../../lessons/cards/A.hex");
pub const CARD_C: &str = include_str!("../../lessons/cards/C.hex");
pub const CARD_K: &str = include_str!("../../lessons/cards/K.hex");
pub const CARD_P: &str = include_str!("../../lessons/cards/P.hex");
pub const CARD_R: &str = include_str!("../../lessons/cards/R.hex");
pub const CARD_R2: &str = include_str!("../../lessons/cards/R2.hex");
pub const CARD_RL: &str = include_str!("../../lessons/cards/RL.hex");

/// The bytes of a text of hexadecimal digits.
pub fn unhex(text: &str) -> Vec<u8> {
    let words = text.lines().map(|line| line.split('#').next().unwrap_or(""));
    let digits: Vec<u8> = words.flat_map(str::bytes).filter(|b| !b.is_ascii_whitespace()).collect();
    digits.chunks(2).map(|two| u8::from_str_radix(std::str::from_utf8(two).unwrap(), 16).unwrap()).collect()
}
