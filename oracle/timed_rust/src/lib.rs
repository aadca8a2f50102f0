//! What is timed of the Rust, by C's calls: `oracle/bench` builds this library in several ways, and one process loads
//! them all and takes them in turn. A function for each kind of work makes it from plain numbers; `run` is what is
//! timed, and `answers` gives its results, to be compared before.

use std::slice;

use reference::{plain::Record, Table};

use work::{Opening, Ordering, Packing, Parts, Rows, Search, Work};

mod work;

/// Work that was made, with its last answers.
pub struct Made {
    work: Box<dyn Work>,
    answers: Vec<u64>,
}

/// Lent numbers.
///
/// # Safety
/// There are so many at that place.
unsafe fn lent<'a, T>(numbers: *const T, count: usize) -> &'a [T] {
    slice::from_raw_parts(numbers, count)
}

fn made(work: impl Work + 'static) -> *mut Made {
    Box::into_raw(Box::new(Made { work: Box::new(work), answers: Vec::new() }))
}

/// The parts of one layer, one behind the other in `words`, each painted in one tile.
///
/// # Safety
/// `lens` has `count` lengths, and `words` as many words as they add up to.
#[no_mangle]
pub unsafe extern "C" fn parts(words: *const u64, lens: *const usize, count: usize, cover: i8, rule: u32) -> *mut Made {
    let lens = lent(lens, count);
    made(Parts::new(lent(words, lens.iter().sum()), lens, cover, rule))
}

/// Rows of so many tiles from 0 on, one behind the other in `words`, opened, worked and painted; every layer is painted
/// as a clip. Without a tile they are only opened.
///
/// # Safety
/// `lens` has `rows` lengths, `words` as many words as they add up to, and there are so many records.
#[no_mangle]
pub unsafe extern "C" fn rows(
    words: *const u64,
    lens: *const usize,
    rows: usize,
    records: *const Record,
    count: usize,
    tiles: usize,
) -> *mut Made {
    let lens = lent(lens, rows);
    let rows = Rows::new(lent(words, lens.iter().sum()), lens, Table::new(lent(records, count)), tiles);
    if tiles == 0 {
        made(Opening(rows))
    } else {
        made(rows)
    }
}

/// A search by the key of this number, for each of the values in turn.
///
/// # Safety
/// There are so many words and so many values.
#[no_mangle]
pub unsafe extern "C" fn search(
    key: usize,
    words: *const u64,
    len: usize,
    values: *const i32,
    count: usize,
) -> *mut Made {
    made(Search::new(key, lent(words, len), lent(values, count)))
}

/// Whether words ascend, and with `with_tile_y` whether each has tile y 0.
///
/// # Safety
/// There are so many words.
#[no_mangle]
pub unsafe extern "C" fn ordering(words: *const u64, len: usize, with_tile_y: bool) -> *mut Made {
    made(Ordering::new(lent(words, len), with_tile_y))
}

/// The fields of each word, packed again.
///
/// # Safety
/// There are so many words.
#[no_mangle]
pub unsafe extern "C" fn packing(words: *const u64, len: usize) -> *mut Made {
    made(Packing::new(lent(words, len)))
}

/// # Safety
/// A function above made it, and it was not unmade.
#[no_mangle]
pub unsafe extern "C" fn run(made: *mut Made) {
    (*made).work.run();
}

/// Where the answers stand, until the next call with this work; how many they are goes to `count`.
///
/// # Safety
/// A function above made it, and it was not unmade.
#[no_mangle]
pub unsafe extern "C" fn answers(made: *mut Made, count: *mut usize) -> *const u64 {
    let made = &mut *made;
    made.answers = made.work.answers();
    *count = made.answers.len();
    made.answers.as_ptr()
}

/// # Safety
/// A function above made it, and it was not unmade.
#[no_mangle]
pub unsafe extern "C" fn unmake(made: *mut Made) {
    drop(Box::from_raw(made));
}
