//! Copies the published Rust into OUT_DIR, unchanged, so that nothing of it stands in the
//! repository, and writes the module lines that `src/lib.rs` includes.

use std::path::{Path, PathBuf};
use std::{env, fs};

const PUBLISHED: [&str; 4] = [
    "ef3m.rs",
    "bet_sizing.rs",
    "util/stats.rs",
    "util/input_error.rs",
];

/// Appended to the copy of ef3m.rs, because a child module reaches its parent's private items.
const REACH: &str = "
pub mod reach {
    pub fn iterate_from(fit: &mut super::M2N, mu_2: f64, p_1: f64) -> usize {
        fit.iterate_from(mu_2, p_1)
    }

    pub fn comb(n: usize, k: usize) -> f64 {
        super::comb(n, k)
    }
}
";

/// openquant's own util/mod.rs is not published; neither is `exact_product`, which only the
/// quantiles call.
const UTIL: &str = "
pub mod input_error;
pub mod stats;

pub use input_error::InputError;

pub mod exact_product {
    pub fn finite_interpolation(_low: f64, _high: f64, _fraction: f64) -> f64 {
        unimplemented!()
    }
}
";

fn main() {
    let source = source();
    let out = PathBuf::from(env::var_os("OUT_DIR").expect("cargo sets OUT_DIR"));
    fs::create_dir_all(out.join("util")).expect("OUT_DIR can be written");
    for name in PUBLISHED {
        let mut text = read(&source.join(name));
        if name == "ef3m.rs" {
            text.push_str(REACH);
        }
        write(&out.join(name), &text);
    }
    write(&out.join("util/mod.rs"), UTIL);
    write(&out.join("published.rs"), &modules(&out));
    // One of the tests compares the copies with what was published.
    println!("cargo:rustc-env=PUBLISHED={}", source.display());
    println!("cargo:rerun-if-env-changed=OPENQUANT_SRC");
    println!("cargo:rerun-if-changed=build.rs");
}

/// The folder that holds ef3m.rs.
fn source() -> PathBuf {
    let root = match env::var_os("OPENQUANT_SRC") {
        Some(path) => PathBuf::from(path),
        None => Path::new(&env::var_os("CARGO_MANIFEST_DIR").expect("cargo sets it"))
            .join("../../shared/docs/src"),
    };
    let source = root.join("crates/openquant/src");
    match source.canonicalize() {
        Ok(path) => path,
        Err(why) => panic!("OPENQUANT_SRC: no Rust at {}: {why}", source.display()),
    }
}

fn read(path: &Path) -> String {
    println!("cargo:rerun-if-changed={}", path.display());
    fs::read_to_string(path).unwrap_or_else(|why| panic!("{}: {why}", path.display()))
}

fn write(path: &Path, text: &str) {
    fs::write(path, text).unwrap_or_else(|why| panic!("{}: {why}", path.display()));
}

/// Modules by path, not included text, so that the inner doc comments compile.
fn modules(out: &Path) -> String {
    let module = |name: &str, file: &str| {
        let path = out.join(file);
        format!("#[allow(warnings, clippy::all)]\n#[path = {path:?}]\npub mod {name};\n")
    };
    [
        module("ef3m", "ef3m.rs"),
        module("bet_sizing", "bet_sizing.rs"),
        module("util", "util/mod.rs"),
    ]
    .concat()
}
