//! Links libsporedrift, the proved calls: the archive if it is there, else the shared object. It is looked for
//!
//! 1. where `SPOREDRIFT_LIB` says, a folder or the file itself, and then nowhere else;
//! 2. in target/export of the repository, where tools/export/lib puts it;
//! 3. where pkg-config says that it is installed.

use std::path::{Path, PathBuf};
use std::process::Command;
use std::{env, process};

const WHAT_TO_DO: &str = "in the repository of Sporedrift run tools/export/lib, which makes it; \
    or install it with tools/install PREFIX and set SPOREDRIFT_LIB to PREFIX/lib, or PKG_CONFIG_PATH to PREFIX/lib/pkgconfig";

struct Found {
    folder: PathBuf,
    file: &'static str,
    kind: &'static str,
}

fn look(place: &Path) -> Option<Found> {
    let folder = if place.is_file() {
        place.parent()?
    } else {
        place
    };
    let wanted = place.is_file().then(|| place.file_name()).flatten();
    [("libsporedrift.a", "static"), ("libsporedrift.so", "dylib")]
        .into_iter()
        .find(|(file, _)| folder.join(file).is_file() && wanted.is_none_or(|name| name == *file))
        .map(|(file, kind)| Found {
            folder: folder.to_path_buf(),
            file,
            kind,
        })
}

fn installed() -> Option<Found> {
    let tool = env::var_os("PKG_CONFIG").unwrap_or("pkg-config".into());
    let asked = Command::new(tool)
        .args(["--variable=libdir", "sporedrift"])
        .output()
        .ok()?;
    let folder = String::from_utf8(asked.stdout).ok()?;
    if asked.status.success() {
        look(Path::new(folder.trim()))
    } else {
        None
    }
}

fn fail(why: &str) -> ! {
    println!("cargo::error={why}: {WHAT_TO_DO}");
    // cargo stops at that error; another status would bury it among lines of its own
    process::exit(0);
}

fn main() {
    for name in ["SPOREDRIFT_LIB", "PKG_CONFIG", "PKG_CONFIG_PATH"] {
        println!("cargo::rerun-if-env-changed={name}");
    }
    let here =
        PathBuf::from(env::var_os("CARGO_MANIFEST_DIR").expect("cargo names this crate's folder"));
    let found = match env::var_os("SPOREDRIFT_LIB") {
        Some(place) => look(Path::new(&place)).unwrap_or_else(|| {
            fail(&format!(
                "SPOREDRIFT_LIB is {}, and no libsporedrift.a nor libsporedrift.so is there",
                Path::new(&place).display()
            ))
        }),
        None => look(&here.join("../../target/export"))
            .or_else(installed)
            .unwrap_or_else(|| fail("the library libsporedrift is not found")),
    };
    println!("cargo::rerun-if-changed=build.rs");
    println!(
        "cargo::rerun-if-changed={}",
        found.folder.join(found.file).display()
    );
    println!("cargo::rustc-link-search=native={}", found.folder.display());
    println!("cargo::rustc-link-lib={}=sporedrift", found.kind);
}
