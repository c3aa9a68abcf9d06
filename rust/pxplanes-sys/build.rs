//! Links the library that `tools/package` makes: from PXPLANES_LIB_DIR, or from package/lib of this checkout, or as pkg-config finds it.
use std::env;
use std::path::PathBuf;
use std::process::Command;

fn main() {
    println!("cargo:rerun-if-env-changed=PXPLANES_LIB_DIR");
    // (documents are made without a library, as docs.rs makes them)
    if env::var_os("DOCS_RS").is_some() {
        return;
    }
    let own = PathBuf::from(env::var("CARGO_MANIFEST_DIR").unwrap()).join("../../package/lib");
    let named = env::var_os("PXPLANES_LIB_DIR").map(PathBuf::from);
    let place = named.clone().unwrap_or(own);
    if place.join("libpxplanes.a").is_file() {
        println!("cargo:rustc-link-search=native={}", place.display());
        println!("cargo:rustc-link-lib=static=pxplanes");
        println!("cargo:rerun-if-changed={}", place.join("libpxplanes.a").display());
    } else if named.is_some() || !is_installed() {
        let place = place.display();
        panic!("no libpxplanes.a in {place}: tools/package makes it, and PXPLANES_LIB_DIR names another place");
    }
}

/// Links the shared library of version 1 that pkg-config knows, if there is one.
fn is_installed() -> bool {
    println!("cargo:rerun-if-env-changed=PKG_CONFIG_PATH");
    let found = Command::new("pkg-config").args(["--libs", "pxplanes >= 1.0"]).output();
    let Ok(found) = found else { return false };
    for word in String::from_utf8_lossy(&found.stdout).split_whitespace() {
        if let Some(folder) = word.strip_prefix("-L") {
            println!("cargo:rustc-link-search=native={folder}");
        } else if let Some(name) = word.strip_prefix("-l") {
            println!("cargo:rustc-link-lib={name}");
        }
    }
    found.status.success()
}
