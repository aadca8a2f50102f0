//! The Rust as it is built in several ways: the shared libraries of the crate `timed_rust`, loaded into this process.

use std::{
    ffi::{c_void, CString},
    mem,
    path::Path,
    slice,
};

use reference::plain::Record;

/// Each build that `oracle/bench` makes: its column, its folder, its profile, and whether it asks for AVX2 and FMA.
const BUILDS: [(&str, &str, &str, bool); 4] = [
    ("default", "default", "timing", false),
    ("fat LTO, one unit", "lto", "timing_lto", false),
    ("that and x86-64-v3", "v3", "timing_lto", true),
    ("v3, AVX stand-in", "v3_stand_in", "timing_lto", true),
];

/// What is timed, as plain numbers.
#[derive(Clone, Copy)]
pub enum Task<'a> {
    /// Parts of a layer, one behind the other, each painted in one tile with this cover in every pixel row.
    Parts { words: &'a [u64], lens: &'a [usize], cover: i8, rule: u32 },
    /// A row of so many tiles from 0 on, opened, worked and painted; without a tile its opening.
    Row { words: &'a [u64], records: &'a [Record], tiles: usize },
    /// The same of several rows, one after the other.
    Plate { rows: &'a [Vec<u64>], records: &'a [Record], tiles: usize },
    /// A search for each of the values, by the key of this number: tile y, tile x, layer id, tile x at least the value,
    /// tile y not negative.
    Search { key: usize, words: &'a [u64], values: &'a [i32] },
    /// Whether words ascend, and where asked have tile y 0.
    Ordering { words: &'a [u64], with_tile_y: bool },
    /// The fields of each word, packed again.
    Packing { words: &'a [u64] },
}

type Parts = unsafe extern "C" fn(*const u64, *const usize, usize, i8, u32) -> *mut c_void;
type Rows = unsafe extern "C" fn(*const u64, *const usize, usize, *const Record, usize, usize) -> *mut c_void;
type Search = unsafe extern "C" fn(usize, *const u64, usize, *const i32, usize) -> *mut c_void;
type Ordering = unsafe extern "C" fn(*const u64, usize, bool) -> *mut c_void;
type Packing = unsafe extern "C" fn(*const u64, usize) -> *mut c_void;
type Run = unsafe extern "C" fn(*mut c_void);
type Answers = unsafe extern "C" fn(*mut c_void, *mut usize) -> *const u64;

/// A loaded library. It stays until the process ends.
pub struct Build {
    pub name: &'static str,
    library: *mut c_void,
}

/// Work that a build has made.
pub struct Made {
    run: Run,
    answers: Answers,
    unmake: Run,
    work: *mut c_void,
}

/// The builds that this processor can run.
pub fn load() -> Vec<Build> {
    let has_avx = is_x86_feature_detected!("avx2")
        && is_x86_feature_detected!("fma")
        && is_x86_feature_detected!("bmi2")
        && is_x86_feature_detected!("f16c");
    let fit = BUILDS.iter().filter(|(.., needs_avx)| has_avx || !needs_avx);
    fit.map(|&(name, folder, profile, _)| Build::load(name, folder, profile)).collect()
}

impl Build {
    fn load(name: &'static str, folder: &str, profile: &str) -> Self {
        let builds = Path::new(env!("CARGO_MANIFEST_DIR")).join("../../target/oracle/builds");
        let file = builds.join(folder).join("x86_64-unknown-linux-gnu").join(profile).join("libtimed_rust.so");
        let path = CString::new(file.to_str().unwrap()).unwrap();
        let library = unsafe { libc::dlopen(path.as_ptr(), libc::RTLD_NOW | libc::RTLD_LOCAL) };
        assert!(!library.is_null(), "{}: oracle/bench builds it", file.display());
        Self { name, library }
    }

    fn symbol(&self, name: &str) -> *mut c_void {
        let name = CString::new(name).unwrap();
        let symbol = unsafe { libc::dlsym(self.library, name.as_ptr()) };
        assert!(!symbol.is_null(), "{} has no {name:?}", self.name);
        symbol
    }

    pub fn make(&self, task: Task<'_>) -> Made {
        // The types above are those of the exports in timed_rust/src/lib.rs.
        unsafe {
            let work = match task {
                Task::Parts { words, lens, cover, rule } => {
                    let make: Parts = mem::transmute(self.symbol("parts"));
                    make(words.as_ptr(), lens.as_ptr(), lens.len(), cover, rule)
                }
                Task::Row { words, records, tiles } => {
                    let make: Rows = mem::transmute(self.symbol("rows"));
                    make(words.as_ptr(), &words.len(), 1, records.as_ptr(), records.len(), tiles)
                }
                Task::Plate { rows, records, tiles } => {
                    let make: Rows = mem::transmute(self.symbol("rows"));
                    let (words, lens) = (rows.concat(), rows.iter().map(Vec::len).collect::<Vec<_>>());
                    make(words.as_ptr(), lens.as_ptr(), lens.len(), records.as_ptr(), records.len(), tiles)
                }
                Task::Search { key, words, values } => {
                    let make: Search = mem::transmute(self.symbol("search"));
                    make(key, words.as_ptr(), words.len(), values.as_ptr(), values.len())
                }
                Task::Ordering { words, with_tile_y } => {
                    let make: Ordering = mem::transmute(self.symbol("ordering"));
                    make(words.as_ptr(), words.len(), with_tile_y)
                }
                Task::Packing { words } => {
                    let make: Packing = mem::transmute(self.symbol("packing"));
                    make(words.as_ptr(), words.len())
                }
            };
            let [run, unmake] = ["run", "unmake"].map(|name| mem::transmute::<*mut c_void, Run>(self.symbol(name)));
            Made { run, answers: mem::transmute::<*mut c_void, Answers>(self.symbol("answers")), unmake, work }
        }
    }
}

impl Made {
    pub fn run(&mut self) {
        unsafe { (self.run)(self.work) }
    }

    pub fn answers(&mut self) -> &[u64] {
        let mut count = 0;
        unsafe {
            let numbers = (self.answers)(self.work, &mut count);
            slice::from_raw_parts(numbers, count)
        }
    }
}

impl Drop for Made {
    fn drop(&mut self) {
        unsafe { (self.unmake)(self.work) }
    }
}
