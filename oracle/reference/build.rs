//! Copies the Rust's files, unchanged, and appends to some of them one line that declares a child module: it reaches
//! what is private there. Asserts that each copy begins with the whole text of its original.
//! For the crate `double_windings`, the second model, one line of two copies is changed: a NonZero cover is full from 16 on (W-205), and a tile
//! with a listed clip that is changed counts as changed (W-208).
//! Where the processor has AVX2 and FMA the Rust takes its lanes from a file that is not at hand: auto.rs is built in its
//! place, or with the feature `avx_stand_in` avx_stand_in.rs, which is written anew.

use std::{
    env, fs,
    path::{Path, PathBuf},
};

/// Each file of the Rust that is built, with the module of reach/ that is appended to it.
const FILES: [(&str, Option<&str>); 16] = [
    ("consts.rs", None),
    ("styling.rs", None),
    ("math/point.rs", None),
    ("utils/simd/mod.rs", None),
    ("utils/simd/auto.rs", Some("auto.rs")),
    ("cpu/channel.rs", None),
    ("cpu/pixel_segment.rs", Some("pixel_segment.rs")),
    ("cpu/buffer/layout/mod.rs", None),
    ("cpu/buffer/layout/slice_cache.rs", None),
    ("cpu/painter/mod.rs", Some("painter.rs")),
    ("cpu/painter/styling.rs", None),
    ("cpu/painter/layer_workbench/mod.rs", Some("layer_workbench.rs")),
    ("cpu/painter/layer_workbench/passes/mod.rs", None),
    ("cpu/painter/layer_workbench/passes/tile_unchanged.rs", None),
    ("cpu/painter/layer_workbench/passes/skip_trivial_clips.rs", None),
    ("cpu/painter/layer_workbench/passes/skip_fully_covered_layers.rs", None),
];

/// The crate whose copies are changed: the file, its line, and what stands there instead.
const CHANGED: &str = "double_windings";
const CHANGES: [(&str, &str, &str); 2] = [
    ("cpu/painter/mod.rs", ".eq(i8x16::splat(consts::PIXEL_WIDTH as i8))\n", ".at_least(consts::PIXEL_WIDTH as i8)\n"),
    (
        "cpu/painter/layer_workbench/passes/skip_fully_covered_layers.rs",
        "let mut visible_layers_are_unchanged = !state.layers_were_removed;\n",
        "let is_changed_clip =
            |&id: &u32| matches!(context.props.get(id).func, Func::Clip(_)) && !context.props.is_unchanged(id);
        let layers_were_removed = state.layers_were_removed || workbench.ids.iter().any(is_changed_clip);
        let mut visible_layers_are_unchanged = !layers_were_removed;\n",
    ),
];

/// The module roots, which are not among the files. `@` stands for the folder of the copies.
const ROOTS: &str = r#"
#[path = "@/consts.rs"]
pub mod consts;
#[path = "@/styling.rs"]
pub mod styling;
pub mod math {
    #[path = "@/math/point.rs"]
    mod point;
    pub use self::point::Point;
    pub use crate::stand_ins::AffineTransform;
}
pub mod utils {
    #[path = "@/utils/simd/mod.rs"]
    pub mod simd;
    pub use crate::stand_ins::CanonBits;
}
pub mod cpu {
    pub mod buffer {
        #[path = "@/cpu/buffer/layout/mod.rs"]
        pub mod layout;
    }
    #[path = "@/cpu/channel.rs"]
    mod channel;
    #[path = "@/cpu/painter/mod.rs"]
    pub mod painter;
    #[path = "@/cpu/pixel_segment.rs"]
    pub mod pixel_segment;
    pub use self::channel::*;
    pub use self::pixel_segment::{search_last_by_key, PixelSegment};
    pub use crate::stand_ins::Rect;
}
"#;

fn main() {
    let here = PathBuf::from(env::var("CARGO_MANIFEST_DIR").unwrap()).join("../reference");
    let source = env::var("FORMA_SRC").map(PathBuf::from).unwrap_or_else(|_| here.join("../../../shared/docs/src"));
    let source = source.join("forma/src");
    let copies = PathBuf::from(env::var("OUT_DIR").unwrap()).join("forma");
    println!("cargo:rerun-if-env-changed=FORMA_SRC");
    println!("cargo:rerun-if-changed={}", here.join("build.rs").display());
    for (name, reach) in FILES {
        let reach = reach.map(|file| here.join("reach").join(file));
        let is_changed = env::var("CARGO_PKG_NAME").unwrap() == CHANGED;
        let change = CHANGES.iter().find(|(file, ..)| is_changed && *file == name);
        copy(&source.join(name), &copies.join(name), reach.as_deref(), change);
    }
    if has_avx() {
        let is_stood_in = env::var_os("CARGO_FEATURE_AVX_STAND_IN").is_some();
        let (lanes, reach) = if is_stood_in {
            (here.join("avx_stand_in.rs"), "reach/avx_stand_in.rs")
        } else {
            (source.join("utils/simd/auto.rs"), "reach/auto.rs")
        };
        copy(&lanes, &copies.join("utils/simd/avx.rs"), Some(&here.join(reach)), None);
    }
    let roots = ROOTS.replace('@', copies.to_str().unwrap());
    fs::write(copies.with_file_name("modules.rs"), roots).unwrap();
}

/// As utils/simd/mod.rs asks it.
fn has_avx() -> bool {
    let features = env::var("CARGO_CFG_TARGET_FEATURE").unwrap_or_default();
    ["avx", "avx2", "fma"].iter().all(|wanted| features.split(',').any(|feature| feature == *wanted))
}

fn copy(from: &Path, to: &Path, reach: Option<&Path>, change: Option<&(&str, &str, &str)>) {
    println!("cargo:rerun-if-changed={}", from.display());
    let original = fs::read(from)
        .unwrap_or_else(|why| panic!("{}: {why} (FORMA_SRC names the folder that holds forma/src)", from.display()));
    let original = change.map_or(original.clone(), |change| changed(original, change));
    let mut text = original.clone();
    if let Some(reach) = reach {
        println!("cargo:rerun-if-changed={}", reach.display());
        text.extend(format!("\n#[path = {reach:?}]\n#[warn(unused, clippy::all)]\npub mod reach;\n").into_bytes());
    }
    fs::create_dir_all(to.parent().unwrap()).unwrap();
    fs::write(to, text).unwrap();
    assert!(
        fs::read(to).unwrap().starts_with(&original),
        "{} is not the original and then the appended line",
        to.display()
    );
}

/// The text with its one line changed.
fn changed(original: Vec<u8>, (file, line, instead): &(&str, &str, &str)) -> Vec<u8> {
    let text = String::from_utf8(original).unwrap();
    assert_eq!(text.matches(line).count(), 1, "{line:?} stands once in {file}");
    text.replace(line, instead).into_bytes()
}
