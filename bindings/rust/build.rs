//! Links `libhost.a`, `libhost_audit.a` and `libhost_list.a`, which `tools/build` writes. They are looked for
//! in the folder that `PMMU_LIB` names, else in `target/staticlib` of the project; where one isn't there,
//! `tools/build` is run for it.

use std::path::{Path, PathBuf};
use std::process::Command;
use std::{env, fs};

const LIBRARIES: [&str; 3] = ["host", "host_audit", "host_list"];

fn main() {
    println!("cargo::rerun-if-env-changed=PMMU_LIB");
    let folder = match env::var_os("PMMU_LIB") {
        Some(named) => PathBuf::from(named),
        None => in_project(),
    };
    for name in LIBRARIES {
        let library = folder.join(file(name));
        assert!(library.is_file(), "there is no {}: PMMU_LIB names the folder that has it", library.display());
    }
    let folder = fs::canonicalize(folder).expect("a folder that has the libraries");
    println!("cargo::rustc-link-search=native={}", folder.display());
    for name in LIBRARIES {
        println!("cargo::rerun-if-changed={}", folder.join(file(name)).display());
        println!("cargo::rustc-link-lib=static={name}");
    }
}

/// A library's file.
fn file(name: &str) -> String {
    format!("lib{name}.a")
}

/// The project's folder for static libraries, with those in it that can be made.
fn in_project() -> PathBuf {
    let package = PathBuf::from(env::var("CARGO_MANIFEST_DIR").expect("set by cargo"));
    let project = package.join("../..");
    let folder = project.join("target/staticlib");
    for name in LIBRARIES {
        if !folder.join(file(name)).is_file() {
            make(&project, name);
        }
    }
    folder
}

/// Proves and writes a library.
fn make(project: &Path, name: &str) {
    let made = Command::new(project.join("tools/build")).arg(format!("{name}_c")).status();
    match made {
        Ok(status) if status.success() => {}
        Ok(status) => panic!("`tools/build {name}_c` failed ({status})"),
        Err(error) => panic!("{} is not there, and `tools/build` can't be run to make it ({error}): see README.md", file(name)),
    }
}
