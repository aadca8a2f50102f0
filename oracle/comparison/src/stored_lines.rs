//! How a stored case stands in a line: numbers are hexadecimal; signed ones stand by their bits, floats by their
//! multiple of 1/512 or a code.

use reference::plain::Carry;

/// One line: what is given, and what the Rust answers.
#[derive(Default)]
pub struct Line {
    pub given: Vec<u64>,
    pub answer: Vec<u64>,
}

impl Line {
    pub fn text(&self) -> String {
        let hex = |numbers: &[u64]| numbers.iter().map(|number| format!("{number:x}")).collect::<Vec<_>>().join(" ");
        format!("{} > {}", hex(&self.given), hex(&self.answer))
    }

    pub fn covers(bytes: &[i8]) -> impl Iterator<Item = u64> + '_ {
        bytes.iter().map(|&byte| u64::from(byte as u8))
    }
}

/// The code of a float: its multiple of 1/512, or one beyond them.
pub fn float(value: f32) -> u64 {
    let multiple = value * 512.0;
    if value.is_nan() {
        0x8002
    } else if value == f32::INFINITY {
        0x8001
    } else if value.to_bits() == (-0.0f32).to_bits() {
        0x8000
    } else {
        assert!((0.0..32768.0).contains(&multiple) && multiple.fract() == 0.0, "{value} has no code");
        multiple as u64
    }
}

pub fn bytes(bytes: &[u8]) -> Vec<u64> {
    bytes.iter().map(|&byte| byte.into()).collect()
}

/// Carries: ids, then covers.
pub fn queue(carries: &[Carry]) -> Vec<u64> {
    let ids = carries.iter().map(|carry| carry.id.into());
    ids.chain(carries.iter().flat_map(|carry| carry.cover).map(|byte| u64::from(byte as u8))).collect()
}
