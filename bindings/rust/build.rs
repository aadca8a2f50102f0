//! Finds libffi.a and links it. TILE_ROWS_LIB names the folder that holds it, as `bindings/build` leaves one; without
//! that it is the repository's own, target/staticlib. Nothing is proved here: where the library is missing, older than
//! its sources or another than the crate declares, the build fails at once and says what to run.

use std::{
    collections::{BTreeMap, BTreeSet},
    env, fs,
    path::{Path, PathBuf},
    process::{self, Command},
    time::SystemTime,
};

/// What to run, and how long it takes.
const MAKE: &str =
    "to prove and build it, run `bindings/build` in the repository: with the Rattle kit (`rt`), which takes \
                    long from nothing, a few minutes where little changed";
const COPY: &str = "without the kit: copy the folder that `bindings/build` leaves (target/tile_rows) from a machine that has it, and set \
                    TILE_ROWS_LIB to that folder";

fn main() {
    println!("cargo::rerun-if-changed=build.rs");
    println!("cargo::rerun-if-env-changed=TILE_ROWS_LIB");
    check_target();
    let folder = match env::var_os("TILE_ROWS_LIB") {
        Some(folder) => given(Path::new(&folder)),
        None => own(),
    };
    let file = folder.join("libffi.a");
    println!("cargo::rerun-if-changed={}", file.display());
    // A copy under a name that no other library has, so that `-l` finds this one.
    let out = PathBuf::from(variable("OUT_DIR"));
    if let Err(error) = fs::copy(&file, out.join("libtile_rows_ffi.a")) {
        fail(&[&format!("{}: {error}", file.display())]);
    }
    check_version(&out, &file);
    println!("cargo::rustc-link-search=native={}", out.display());
    println!("cargo::rustc-link-lib=static=tile_rows_ffi");
    // For the build scripts of crates that link C to the same library: DEP_TILE_ROWS_LIB, DEP_TILE_ROWS_INCLUDE.
    println!("cargo::metadata=lib={}", file.display());
    println!("cargo::metadata=include={}", Path::new(&variable("CARGO_MANIFEST_DIR")).join("../c").display());
    // The tests of the C header link the same file.
    println!("cargo::rustc-env=TILE_ROWS_LIB_FOLDER={}", folder.display());
}

fn variable(name: &str) -> String {
    env::var(name).unwrap_or_else(|_| panic!("cargo sets {name}"))
}

/// Ends the build with these lines.
fn fail(lines: &[&str]) -> ! {
    lines.iter().for_each(|line| println!("cargo::error={line}"));
    process::exit(1)
}

fn check_target() {
    if variable("CARGO_CFG_TARGET_ARCH") != "x86_64" || variable("CARGO_CFG_TARGET_OS") != "linux" {
        fail(&[&format!("the library is built for x86-64 Linux, and not for {}", variable("TARGET"))]);
    }
}

/// The folder that TILE_ROWS_LIB names, relative to the folder that cargo was started in.
fn given(named: &Path) -> PathBuf {
    let mut folder = named.to_path_buf();
    if named.is_relative() {
        println!("cargo::rerun-if-env-changed=PWD");
        folder = caller().join(named);
    }
    if !folder.join("libffi.a").is_file() {
        let missing =
            format!("TILE_ROWS_LIB is {}, and there is no {}", named.display(), folder.join("libffi.a").display());
        fail(&[&missing, MAKE, COPY]);
    }
    folder
}

/// Where cargo, which is this program's parent, was started.
fn caller() -> PathBuf {
    #[cfg(unix)]
    if let Ok(folder) = fs::read_link(format!("/proc/{}/cwd", std::os::unix::process::parent_id())) {
        return folder;
    }
    PathBuf::from(env::var_os("PWD").unwrap_or_default())
}

/// The folder of the repository's own library, which must be newer than each source of the crates that it is made of.
fn own() -> PathBuf {
    let here = PathBuf::from(variable("CARGO_MANIFEST_DIR"));
    let repository =
        here.ancestors().nth(2).expect("the crate stands in bindings/rust of the repository").to_path_buf();
    let folder = repository.join("target/staticlib");
    let file = folder.join("libffi.a");
    let Some(made) = changed(&file) else {
        fail(&[&format!("the library is missing: {}", file.display()), MAKE, COPY]);
    };
    println!("cargo::rerun-if-changed={}", repository.join("crates.txt").display());
    for name in rests_on(&repository, "ffi_c") {
        for part in ["src", "specs", "proofs"].map(|part| repository.join("crates").join(&name).join(part)) {
            if !part.is_dir() {
                continue;
            }
            println!("cargo::rerun-if-changed={}", part.display());
            if let Some(newer) = newer_below(&part, made) {
                let old = format!("the library is older than {}: {}", newer.display(), file.display());
                let kept = "if nothing was changed since it was built (a checkout sets times anew), `bindings/build` needs no proof and takes seconds";
                fail(&[&old, MAKE, kept]);
            }
        }
    }
    folder
}

fn changed(file: &Path) -> Option<SystemTime> {
    fs::metadata(file).and_then(|data| data.modified()).ok()
}

/// A crate and those below it, by crates.txt: a line each, `NAME: what it uses`, where `staticlib` may follow the name.
fn rests_on(repository: &Path, name: &str) -> BTreeSet<String> {
    let text = fs::read_to_string(repository.join("crates.txt")).unwrap_or_default();
    let lines = text.lines().filter_map(|line| line.split_once(':'));
    let uses: BTreeMap<&str, Vec<&str>> =
        lines.map(|(name, rest)| (first_word(name), rest.split_whitespace().collect())).collect();
    let (mut found, mut due) = (BTreeSet::new(), vec![name]);
    while let Some(name) = due.pop() {
        if let Some(below) = uses.get(name).filter(|_| found.insert(name.to_string())) {
            due.extend(below);
        }
    }
    found
}

fn first_word(text: &str) -> &str {
    text.split_whitespace().next().unwrap_or_default()
}

/// A file that was changed after that time.
fn newer_below(path: &Path, made: SystemTime) -> Option<PathBuf> {
    if path.is_dir() {
        let entries = fs::read_dir(path).into_iter().flatten().filter_map(Result::ok);
        entries.map(|entry| entry.path()).find_map(|entry| newer_below(&entry, made))
    } else {
        changed(path).filter(|&time| time > made).map(|_| path.to_path_buf())
    }
}

/// Whether the library has the exports that the crate declares: it is linked to a program that asks it for its version.
/// Where another system is built for, the program can't be run, and nothing is checked.
fn check_version(out: &Path, file: &Path) {
    if variable("HOST") != variable("TARGET") {
        return;
    }
    println!("cargo::rerun-if-changed=src/exports.rs");
    let declared = declared_version();
    let (text, program) = (out.join("version.rs"), out.join("version"));
    let source = "extern \"C\" {\n    fn ffi_version() -> u32;\n}\nfn main() {\n    print!(\"{}\", unsafe { ffi_version() })\n}\n";
    fs::write(&text, source).expect("OUT_DIR can be written");
    let mut rustc = Command::new(variable("RUSTC"));
    rustc.args(["--edition", "2021", "-C", "opt-level=0", "-l", "static=tile_rows_ffi", "-L"]).arg(out);
    let linked = rustc.arg("-o").arg(&program).arg(&text).output();
    let linked = linked.unwrap_or_else(|error| fail(&[&format!("rustc can't be run: {error}")]));
    if !linked.status.success() {
        let says = String::from_utf8_lossy(&linked.stderr).into_owned();
        if says.contains("ffi_version") {
            fail(&[
                &format!(
                    "{} is older than version 2: it tells no version; the crate needs version {declared}",
                    file.display()
                ),
                MAKE,
                COPY,
            ]);
        }
        says.lines().for_each(|line| eprintln!("{line}"));
        fail(&[&format!("no program can be linked to {}", file.display())]);
    }
    let told = Command::new(&program).output().map(|output| String::from_utf8_lossy(&output.stdout).into_owned());
    let told = told.unwrap_or_else(|error| fail(&[&format!("{}: {error}", program.display())]));
    if told != declared {
        fail(&[
            &format!("{} has version {told} of the exports, and the crate needs version {declared}", file.display()),
            MAKE,
            COPY,
        ]);
    }
}

/// The version that src/exports.rs stands for.
fn declared_version() -> String {
    let text = fs::read_to_string("src/exports.rs").expect("the crate has its declarations");
    let line = text.lines().find_map(|line| line.strip_prefix("pub const VERSION: u32 = ")?.strip_suffix(';'));
    line.expect("the declarations have a version").to_string()
}
