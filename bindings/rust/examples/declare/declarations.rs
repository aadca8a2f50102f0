//! The exports of crates/ffi/src, read, and written as Rust and as C.

#[path = "told.rs"]
mod told;

use std::{fmt::Write, fs, path::PathBuf};

/// A function marked `pub extern "C"`: its comment, its name, its parameters and its result, which may be lacking.
struct Export {
    comment: Vec<String>,
    name: String,
    parameters: Vec<(String, Kind)>,
    result: Option<String>,
}

/// How a parameter is passed: a number by itself, a number or an array of fixed length by a pointer, a slice by a
/// pointer and a length.
enum Kind {
    Number(String),
    One { mutable: bool, target: String },
    Array { mutable: bool, item: String, length: String },
    Slice { mutable: bool, item: String },
}

/// The files that are made, with their texts.
pub fn files() -> [(PathBuf, String); 2] {
    let here = PathBuf::from(env!("CARGO_MANIFEST_DIR"));
    let exports = read();
    [(here.join("src/exports.rs"), rust(&exports)), (here.join("../c/tile_rows.h"), header(&exports))]
}

fn text(file: &str) -> String {
    let folder = PathBuf::from(env!("CARGO_MANIFEST_DIR")).join("../../crates/ffi/src");
    fs::read_to_string(folder.join(file)).expect("a source of the crate ffi")
}

/// The number of the exports, the one line of version.rt that is a number.
pub fn version() -> String {
    let text = text("version.rt");
    let number = text.lines().map(str::trim).find(|line| line.parse::<u32>().is_ok());
    number.expect("the version").to_string()
}

/// The exports of every file, in the order of lib.rt.
fn read() -> Vec<Export> {
    let root = text("lib.rt");
    let modules = root.lines().filter_map(|line| line.strip_prefix("pub mod ")?.strip_suffix(';'));
    modules.flat_map(|module| exports_of(&text(&format!("{module}.rt")))).collect()
}

fn exports_of(text: &str) -> Vec<Export> {
    const START: &str = "#[unsafe(no_mangle)]\npub extern \"C\" fn ";
    let starts = text.match_indices(START);
    starts.map(|(at, start)| export(&text[..at], &text[at + start.len()..])).collect()
}

/// The export whose comment ends `before`, and whose name begins `rest`.
fn export(before: &str, rest: &str) -> Export {
    let (name, rest) = rest.split_once('(').expect("a list of parameters");
    let (parameters, rest) = rest.split_once(')').expect("the list's end");
    let parameters = parameters.split(", ").flat_map(|one| one.split(",\n")).map(str::trim);
    let parameter = |one: &str| {
        let (name, kind) = one.trim_end_matches(',').split_once(": ").expect("a parameter and its type");
        (name.to_string(), kind_of(kind))
    };
    let line = rest.lines().next().expect("the rest of its line");
    let result = line.trim().strip_prefix("-> ").map(str::to_string);
    let comment = before.lines().rev().map_while(|line| line.strip_prefix("// "));
    let mut comment: Vec<String> = comment.map(str::to_string).collect();
    comment.reverse();
    let parameters = parameters.filter(|one| !one.is_empty()).map(parameter).collect();
    Export { comment, name: name.to_string(), parameters, result }
}

fn kind_of(kind: &str) -> Kind {
    let (mutable, target) = match (kind.strip_prefix("&mut "), kind.strip_prefix('&')) {
        (Some(target), _) => (true, target),
        (None, Some(target)) => (false, target),
        (None, None) => return Kind::Number(kind.to_string()),
    };
    let Some(inside) = target.strip_prefix('[').and_then(|inside| inside.strip_suffix(']')) else {
        return Kind::One { mutable, target: target.to_string() };
    };
    match inside.split_once("; ") {
        Some((item, length)) => Kind::Array { mutable, item: item.to_string(), length: length.to_string() },
        None => Kind::Slice { mutable, item: inside.to_string() },
    }
}

const MADE: &str = "Made from crates/ffi/src by `cargo run --example declare` in bindings/rust; do not edit.";

const RUST_HEAD: &str = "\
//! The plain operations: each export of the library as a safe function, for callers with memory of their own.
//!
//! Each judges all that it is given, however it was made. A call that can be refused returns the number of the
//! refusal ([`Refusal::judge`](crate::Refusal::judge)), or 0; a refused call leaves what it was lent as it was.
//! The contracts stand in crates/ffi/src. Fill rules, modes and fills are numbers here, as in a layer record.

";

const SAFETY: &str = "\
    // SAFETY: the references are those that the export takes, a slice with its own length; it is proved to keep
    // to them for every value, and nothing of them is held after the call.
";

const C_HEAD: &str = "\
/* The exports of target/staticlib/libffi.a, for x86-64. A slice is a pointer and a length, and the pointer is not NULL
   even where the length is 0; an array of fixed length is a pointer. What a call may write must not overlap anything
   else that it is lent. A call that can be refused returns the number of the refusal, and then leaves what it was lent
   as it was, or 0. A pointer that a flag says is not used is given all the same. A bool that is lent holds 0 or 1.
   docs/MANUAL.md, sections 2 and 4, tells of refusals, states and answers; example.c, which README.md beside this file
   shows, is a whole row.

   To keep tiles from frame to frame: README.md beside this file, 'Keeping tiles from C'. In short, for each tile: list
   (ffi_list_tile); decide without a cached tile, which tells the shown layers; where these, by id and by whether each
   needs a clip, or the bits of the clear colour are not those of the tile's last accepted deciding, drop the count
   (ffi_update_layer_count); decide with the tile's bytes; and settle a solid tile alone. kept_tile.h does that. */

#ifndef TILE_ROWS_H
#define TILE_ROWS_H

#include <stdbool.h>
#include <stddef.h>
#include <stdint.h>

#ifdef __cplusplus
extern \"C\" {
#endif
";

impl Export {
    /// Its name without the library's prefix.
    fn call(&self) -> &str {
        self.name.strip_prefix("ffi_").expect("exports are named ffi_..")
    }

    /// Its result, as Rust writes it.
    fn arrow(&self) -> String {
        self.result.as_ref().map_or(String::new(), |result| format!(" -> {result}"))
    }

    fn c_result(&self) -> &str {
        self.result.as_deref().map_or("void", c_name)
    }

    /// What it does: its comment, or what stands of it here.
    fn told(&self) -> Vec<String> {
        if !self.comment.is_empty() {
            return self.comment.clone();
        }
        told::told(self.call()).unwrap_or_else(|| panic!("{} has no comment in crates/ffi/src", self.name))
    }
}

/// The declarations, and a safe function for each that lends what it is given.
fn rust(exports: &[Export]) -> String {
    let mut text = format!("// {MADE}\n\n{RUST_HEAD}");
    text += "/// The number of the exports that stand here; [`version`] tells the number of those that are linked.\n";
    writeln!(text, "pub const VERSION: u32 = {};\n", version()).unwrap();
    text += "/// The declarations themselves, for the comparison with the Rust.\n#[doc(hidden)]\npub mod raw {\n    extern \"C\" {\n";
    for export in exports {
        let parameters = export.parameters.iter().map(|(name, kind)| declared(name, kind)).collect::<Vec<_>>();
        writeln!(text, "pub fn {}({}){};", export.name, parameters.join(", "), export.arrow()).unwrap();
    }
    text += "}\n}\n";
    for export in exports {
        text += "\n";
        export.told().iter().for_each(|line| writeln!(text, "/// {line}").unwrap());
        if export.parameters.len() > 7 {
            text += "#[allow(clippy::too_many_arguments)]\n";
        }
        let parameters = export.parameters.iter().map(|(name, kind)| lent(name, kind)).collect::<Vec<_>>();
        let passed = export.parameters.iter().map(|(name, kind)| passed(name, kind)).collect::<Vec<_>>();
        if export.result.is_some() {
            text += "#[must_use]\n";
        }
        writeln!(text, "#[inline]\npub fn {}({}){} {{", export.call(), parameters.join(", "), export.arrow()).unwrap();
        text += SAFETY;
        writeln!(text, "    unsafe {{ raw::{}({}) }}\n}}", export.name, passed.join(", ")).unwrap();
    }
    formatted(&text)
}

fn declared(name: &str, kind: &Kind) -> String {
    let pointer = |mutable: bool| if mutable { "*mut" } else { "*const" };
    match kind {
        Kind::Number(number) => format!("{name}: {number}"),
        Kind::One { mutable, target } => format!("{name}: {} {target}", pointer(*mutable)),
        Kind::Array { mutable, item, length } => format!("{name}: {} [{item}; {length}]", pointer(*mutable)),
        Kind::Slice { mutable, item } => format!("{name}: {} {item}, {name}_len: usize", pointer(*mutable)),
    }
}

fn lent(name: &str, kind: &Kind) -> String {
    let reference = |mutable: bool| if mutable { "&mut " } else { "&" };
    match kind {
        Kind::Number(number) => format!("{name}: {number}"),
        Kind::One { mutable, target } => format!("{name}: {}{target}", reference(*mutable)),
        Kind::Array { mutable, item, length } => format!("{name}: {}[{item}; {length}]", reference(*mutable)),
        Kind::Slice { mutable, item } => format!("{name}: {}[{item}]", reference(*mutable)),
    }
}

fn passed(name: &str, kind: &Kind) -> String {
    match kind {
        Kind::Slice { mutable: true, .. } => format!("{name}.as_mut_ptr(), {name}.len()"),
        Kind::Slice { mutable: false, .. } => format!("{name}.as_ptr(), {name}.len()"),
        _ => name.to_string(),
    }
}

/// The text as rustfmt lays it out, by the crate's rustfmt.toml.
fn formatted(text: &str) -> String {
    use std::{
        io::Write,
        process::{Command, Stdio},
    };
    let mut rustfmt = Command::new("rustfmt");
    rustfmt.arg("--config-path").arg(env!("CARGO_MANIFEST_DIR")).stdin(Stdio::piped()).stdout(Stdio::piped());
    let mut child = rustfmt.spawn().expect("rustfmt is on the path");
    child.stdin.take().unwrap().write_all(text.as_bytes()).expect("rustfmt reads");
    let output = child.wait_with_output().expect("rustfmt ends");
    assert!(output.status.success(), "rustfmt refuses the text");
    String::from_utf8(output.stdout).unwrap()
}

fn header(exports: &[Export]) -> String {
    let mut text = format!("/* {MADE} */\n\n{C_HEAD}");
    text +=
        "\n/* The number of the exports that stand here; ffi_version tells the number of those that are linked. */\n";
    writeln!(text, "#define TILE_ROWS_VERSION {}", version()).unwrap();
    write!(text, "\n{}", include_str!("values.h")).unwrap();
    for export in exports {
        let told = export.told().join("\n   ");
        let parameters = export.parameters.iter().map(|(name, kind)| in_c(name, kind)).collect::<Vec<_>>();
        let line = format!("{} {}({});", export.c_result(), export.name, parameters.join(", "));
        let long = || format!("{} {}(\n    {});", export.c_result(), export.name, parameters.join(",\n    "));
        let line = if line.len() > 120 { long() } else { line };
        write!(text, "\n/* {told} */\n{line}\n").unwrap();
    }
    text += "\n#ifdef __cplusplus\n}\n#endif\n\n#endif\n";
    text
}

fn in_c(name: &str, kind: &Kind) -> String {
    let constant = |mutable: bool| if mutable { "" } else { "const " };
    match kind {
        Kind::Number(number) => format!("{} {name}", c_name(number)),
        Kind::One { mutable, target } => format!("{}{} *{name}", constant(*mutable), c_name(target)),
        Kind::Array { mutable, item, length } => format!("{}{} {name}[{length}]", constant(*mutable), c_name(item)),
        Kind::Slice { mutable, item } => format!("{}{} *{name}, size_t {name}_len", constant(*mutable), c_name(item)),
    }
}

fn c_name(number: &str) -> &str {
    match number {
        "bool" => "bool",
        "f32" => "float",
        "i8" => "int8_t",
        "i16" => "int16_t",
        "i32" => "int32_t",
        "u8" => "uint8_t",
        "u16" => "uint16_t",
        "u32" => "uint32_t",
        "u64" => "uint64_t",
        "usize" => "size_t",
        other => panic!("no C name for {other}"),
    }
}
