//! The declarations are those of the library's sources, and the C header compiles and links.

#[path = "../examples/declare/declarations.rs"]
mod declarations;

use std::{fs, path::PathBuf, process::Command};

/// The version, and the digest of the declarations that it stands for.
const DIGEST: (u32, u32) = (2, 0xdff2_010a);

#[test]
fn the_files_are_what_the_sources_make() {
    for (path, text) in declarations::files() {
        let kept = fs::read_to_string(&path).unwrap();
        assert!(kept == text, "{}: run `cargo run --example declare`", path.display());
        assert!(text.matches("ffi_").count() > 30, "the sources have exports");
    }
}

/// FNV-1a over the declarations; comments and the names of numbers left out.
fn digest(header: &str) -> u32 {
    let (mut open, mut listed) = (false, false);
    let mut plain = header.lines().filter(|line| {
        let comment = open || line.starts_with("/*");
        open = comment && !line.ends_with("*/");
        let number = !comment && (listed || line.starts_with("enum {"));
        listed = number && !line.ends_with("};");
        !comment && !number && !line.is_empty()
    });
    let bytes = plain.by_ref().flat_map(str::bytes);
    bytes.fold(0x811c_9dc5, |hash, byte| (hash ^ u32::from(byte)).wrapping_mul(0x0100_0193))
}

#[test]
fn other_declarations_have_another_version() {
    let [_, (_, header)] = declarations::files();
    let known = DIGEST;
    assert_eq!(
        (tile_rows::exports::VERSION, digest(&header)),
        known,
        "a name, a parameter or a result is another: raise the version in crates/ffi (src/version.rt, specs/Version)"
    );
    assert_eq!(tile_rows::exports::version(), tile_rows::exports::VERSION, "the library that is linked is another");
}

/// What a C program of this folder prints; it compiles without a warning.
fn printed(name: &str) -> String {
    let here = PathBuf::from(env!("CARGO_MANIFEST_DIR"));
    let program = PathBuf::from(env!("CARGO_TARGET_TMPDIR")).join(name);
    let library = PathBuf::from(env!("TILE_ROWS_LIB_FOLDER")).join("libffi.a");
    let mut gcc = Command::new("gcc");
    gcc.args(["-std=c99", "-Wall", "-Wextra", "-Werror", "-pedantic", "-I"]).arg(here.join("../c"));
    gcc.arg(here.join("tests").join(name).with_extension("c")).arg(library).arg("-o").arg(&program);
    assert!(gcc.status().expect("gcc is on the path").success(), "the header compiles and links");
    let output = Command::new(program).output().unwrap();
    assert!(output.status.success(), "no call is refused");
    String::from_utf8_lossy(&output.stdout).into_owned()
}

#[test]
fn a_c_program_packs_a_segment_and_opens_a_row() {
    assert_eq!(printed("header"), "word 0020060000534810\nopening 0, carries 0\nplane 1\n");
}

#[test]
fn a_c_program_keeps_a_tile_by_the_rule() {
    assert_eq!(printed("kept_tile"), "solid\nsolid\nnone\nsolid\nnone\nsolid\n");
}

/// The example that bindings/c/README.md shows: a whole row.
#[test]
fn a_c_program_works_a_row() {
    let lines = [
        "tile 0: layer 1, 32 octets, coverage 1 at the left and 1 at the right",
        "tile 1: solid, red 0",
        "tile 2: layer 1, 16 octets, coverage 1 at the left and 0 at the right",
        "tile 3: solid, red 1",
    ];
    assert_eq!(printed("example"), lines.map(|line| format!("{line}\n")).concat());
}

/// What the page on C shows stands in the example.
#[test]
fn the_page_shows_the_example() {
    let here = PathBuf::from(env!("CARGO_MANIFEST_DIR"));
    let page = fs::read_to_string(here.join("../c/README.md")).unwrap();
    let example = fs::read_to_string(here.join("tests/example.c")).unwrap();
    let (_, shown) = page.split_once("```c\n").expect("the page has a block of C");
    let (shown, _) = shown.split_once("```").expect("and its end");
    let plain = |text: &str| text.lines().map(str::trim).collect::<Vec<_>>().join("\n");
    assert!(plain(&example).contains(&plain(shown)), "bindings/c/README.md shows another text than tests/example.c");
}

/// The names of the header's numbers are those of the crate's types.
#[test]
fn the_header_has_the_numbers_of_the_types() {
    let [_, (_, header)] = declarations::files();
    let has = |name: &str, number: u32| {
        let line = format!("TILE_ROWS_{name} = {number}");
        let found = header
            .match_indices(&line)
            .any(|(at, _)| !header[at + line.len()..].starts_with(|c: char| c.is_ascii_digit()));
        assert!(found, "{line}");
    };
    let spelled = |name: String| {
        let parts =
            name.char_indices().map(|(at, c)| if at > 0 && c.is_uppercase() { format!("_{c}") } else { c.to_string() });
        parts.collect::<String>().to_uppercase()
    };
    for refusal in tile_rows::Refusal::ALL {
        has(&format!("REFUSED_{}", spelled(format!("{:?}", refusal.condition()))), refusal.number());
    }
    for mode in tile_rows::BlendMode::ALL {
        has(&spelled(mode.to_string()), mode.code());
    }
    for rule in [tile_rows::FillRule::NonZero, tile_rows::FillRule::EvenOdd] {
        has(&spelled(rule.to_string()), rule.code());
    }
    has("LAST_ROW", tile_rows::RowNumber::LAST.get().into());
}
