//! Names the original's sources to the compiler. Nothing is copied: the
//! generated file holds `#[path]` modules that point at `src/mmu` (and the two
//! files of `src/core` that it needs) where they stand.
//!
//! The folder that has `src/mmu` is `M68K_SRC`, else `../shared/docs/src` beside
//! the project. `bench/` and `bindings/beside/` use this build script too.

use std::path::{Path, PathBuf};
use std::{env, fs};

/// The stand-in for the original's CPU core, from the project's folder.
const STAND_IN: &str = "differential/stand_in/cpu.rs";

fn main() {
    println!("cargo::rerun-if-env-changed=M68K_SRC");
    // The original's feature, which stays off.
    println!("cargo::rustc-check-cfg=cfg(feature, values(\"serde\"))");
    let package = PathBuf::from(env::var("CARGO_MANIFEST_DIR").expect("set by cargo"));
    let project = package.ancestors().find(|folder| folder.join(STAND_IN).is_file()).expect("a package of the project");
    let sources = env::var_os("M68K_SRC").map_or_else(|| project.join("../shared/docs/src"), PathBuf::from);
    let original = sources.join("src");
    // Without the sources, what includes the generated file can't be built, and all else can.
    let text = if original.join("mmu/mod.rs").is_file() {
        modules(&absolute(&original), &absolute(project))
    } else {
        let why = "set M68K_SRC to the folder that has src/mmu";
        format!("compile_error!({:?});\n", format!("the original's sources are not in {}: {why}", sources.display()))
    };
    let out = PathBuf::from(env::var("OUT_DIR").expect("set by cargo"));
    fs::write(out.join("original.rs"), text).expect("the output folder can be written");
}

fn absolute(path: &Path) -> PathBuf {
    path.canonicalize().expect("an existing folder")
}

/// The module tree that `src/mmu` expects around it, at the crate's root.
fn modules(original: &Path, project: &Path) -> String {
    let module = |file: PathBuf, name: &str| {
        println!("cargo::rerun-if-changed={}", file.display());
        format!("#[path = {file:?}]\npub mod {name};\n")
    };
    for part in ["atc.rs", "translation.rs", "ttr.rs"] {
        println!("cargo::rerun-if-changed={}", original.join("mmu").join(part).display());
    }
    let quiet = "#[allow(dead_code, unused_imports, clippy::all)]\n";
    let mut text = String::new();
    text += quiet;
    text += &module(original.join("mmu/mod.rs"), "mmu");
    text += quiet;
    text += "pub mod core {\n";
    text += &module(original.join("core/memory.rs"), "memory");
    text += &module(original.join("core/types.rs"), "types");
    text += &module(project.join(STAND_IN), "cpu");
    text += "}\n";
    text
}
