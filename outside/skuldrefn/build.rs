//! Finds libskuldrefn.a: in the folder that SKULDREFN_LIB names, else where
//! `./skuldrefn library` puts it.

use std::env;
use std::path::{Path, PathBuf};
use std::process::exit;

const DEFAULT: &str = "../../target/staticlib";

fn main() {
    println!("cargo::rerun-if-env-changed=SKULDREFN_LIB");
    println!("cargo::rerun-if-changed=build.rs");
    if env::var("CARGO_CFG_TARGET_ARCH").as_deref() != Ok("x86_64") {
        stop("libskuldrefn.a is code for x86-64 and links into nothing else");
    }
    let folder = folder();
    let library = folder.join("libskuldrefn.a");
    println!("cargo::rerun-if-changed={}", library.display());
    if !library.is_file() {
        stop(&format!(
            "there is no {}; `./skuldrefn library` makes it, and if it is elsewhere \
             give the full path of its folder in SKULDREFN_LIB",
            library.display()
        ));
    }
    println!("cargo::rustc-link-search=native={}", folder.display());
    println!("cargo::rustc-link-lib=static=skuldrefn");
    println!("cargo::rustc-env=SKULDREFN_LIB_FOUND={}", folder.display());
}

/// A relative path counts from this crate.
fn folder() -> PathBuf {
    let named = env::var_os("SKULDREFN_LIB").filter(|path| !path.is_empty());
    let own = env::var_os("CARGO_MANIFEST_DIR").unwrap_or_default();
    let folder = Path::new(&own).join(named.unwrap_or(DEFAULT.into()));
    folder.canonicalize().unwrap_or(folder)
}

fn stop(why: &str) -> ! {
    println!("cargo::error={why}");
    exit(1);
}
