//! Finds the C library: in the folder `MEZDRUK_DIR` that `tools/make/build_c` made, or by pkg-config.

use std::env;
use std::path::{Path, PathBuf};
use std::process::{exit, Command};

const HELP: &str = "\
mezdruk: the C library libmezdruk.a is not found. Make it by `tools/make/build_c OUT` in Mezdruk's
repository, and either set MEZDRUK_DIR to the absolute path of OUT, or set PKG_CONFIG_PATH to
OUT/lib/pkgconfig; or install the package libmezdruk-dev.";

fn main() {
    println!("cargo:rerun-if-changed=build.rs");
    for name in ["MEZDRUK_DIR", "PKG_CONFIG", "PKG_CONFIG_PATH", "PKG_CONFIG_LIBDIR"] {
        println!("cargo:rerun-if-env-changed={name}");
    }
    match library_folder() {
        Ok(folder) => {
            println!("cargo:rerun-if-changed={}", archive(&folder).display());
            println!("cargo:rustc-link-search=native={}", folder.display());
            println!("cargo:rustc-link-lib=static=mezdruk");
        }
        Err(reason) => {
            eprintln!("{HELP}\n{reason}");
            exit(1);
        }
    }
}

/// Returns the folder of the static library.
fn library_folder() -> Result<PathBuf, String> {
    let folder = match env::var_os("MEZDRUK_DIR") {
        Some(top) => Path::new(&top).join("lib"),
        None => folder_by_pkg_config()?,
    };
    if archive(&folder).is_file() {
        Ok(folder)
    } else {
        Err(format!("There is no {}.", archive(&folder).display()))
    }
}

fn archive(folder: &Path) -> PathBuf {
    folder.join("libmezdruk.a")
}

/// Returns the folder that pkg-config names.
fn folder_by_pkg_config() -> Result<PathBuf, String> {
    let program = env::var_os("PKG_CONFIG").unwrap_or_else(|| "pkg-config".into());
    let output = Command::new(&program)
        .args(["--variable=libdir", "mezdruk"])
        .output()
        .map_err(|error| format!("{} does not run: {error}", program.to_string_lossy()))?;
    let folder = String::from_utf8_lossy(&output.stdout);
    if output.status.success() && !folder.trim().is_empty() {
        Ok(PathBuf::from(folder.trim()))
    } else {
        Err("MEZDRUK_DIR is not set, and pkg-config knows no package mezdruk.".into())
    }
}
