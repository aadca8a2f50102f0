//! A segment of any word, and the one field that has no public reader.

use super::PixelSegment;

pub fn of_word<const TW: usize, const TH: usize>(word: u64) -> PixelSegment<TW, TH> {
    PixelSegment(word)
}

pub fn double_area_multiplier<const TW: usize, const TH: usize>(segment: PixelSegment<TW, TH>) -> u8 {
    segment.double_area_multiplier()
}
