//! Links the library: libagefile.a of the folder that AGEFILE_DIR names, else the one in this crate, where it was packed with it, else the
//! one that `bindings/build` made, or of a release, in whose folders this crate is, else the library that is installed, as pkg-config
//! finds it. If there is none, it says so, and looks again at the next build.

use std::env::var_os;
use std::path::{Path, PathBuf};
use std::process::Command;

/// Where libagefile.a may be.
fn places() -> Vec<PathBuf> {
    if let Some(named) = var_os("AGEFILE_DIR") {
        return vec![Path::new(&named).join("libagefile.a")];
    }
    let here = var_os("CARGO_MANIFEST_DIR").unwrap_or_default();
    let processor = std::env::var("CARGO_CFG_TARGET_ARCH").unwrap_or_default();
    let built = match processor.as_str() {
        "x86_64" => "../../out".to_owned(),
        other => format!("../../out/{other}"),
    };
    let folders = [format!("lib/{processor}"), built, "../../../../lib".to_owned()];
    folders.map(|it| Path::new(&here).join(it).join("libagefile.a")).into()
}

/// The folders where pkg-config says that the library is, if it knows the library. A folder that
/// AGEFILE_DIR names isn't replaced by them.
fn installed() -> Option<Vec<String>> {
    if var_os("AGEFILE_DIR").is_some() {
        return None;
    }
    let asked = Command::new("pkg-config").args(["--libs-only-L", "agefile"]).output().ok()?;
    if !asked.status.success() {
        return None;
    }
    // (it writes a space in a name with a backslash)
    let said = String::from_utf8_lossy(&asked.stdout).replace("\\ ", "\0");
    let folders = said.split_whitespace().filter_map(|it| it.strip_prefix("-L"));
    Some(folders.map(|it| it.replace('\0', " ")).collect())
}

/// Says that there is no library, and lets the next build look again.
fn warn(places: &[PathBuf]) {
    let listed: Vec<String> = places.iter().map(|it| it.display().to_string()).collect();
    println!(
        "cargo:warning=libagefile isn't there ({}): run bindings/build, install the library, \
         or set AGEFILE_DIR to the folder of libagefile.a, by its absolute path",
        listed.join(", ")
    );
    // (cargo runs this again as long as one of them isn't there)
    for place in places {
        println!("cargo:rerun-if-changed={}", place.display());
    }
}

fn main() {
    for name in ["AGEFILE_DIR", "PKG_CONFIG_PATH", "PKG_CONFIG_LIBDIR"] {
        println!("cargo:rerun-if-env-changed={name}");
    }
    let places = places();
    if let Some(found) = places.iter().find(|it| it.exists()) {
        println!("cargo:rerun-if-changed={}", found.display());
        if let Some(folder) = found.parent() {
            println!("cargo:rustc-link-search=native={}", folder.display());
        }
        println!("cargo:rustc-link-lib=static=agefile");
        return;
    }
    match installed() {
        Some(folders) => {
            for folder in folders {
                println!("cargo:rustc-link-search=native={folder}");
            }
        }
        None => warn(&places),
    }
    // (nor by the linker's own folders: without its libagefile.a nothing is linked)
    let kind = if var_os("AGEFILE_DIR").is_some() { "static" } else { "dylib" };
    println!("cargo:rustc-link-lib={kind}=agefile");
}
