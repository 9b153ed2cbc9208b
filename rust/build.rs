//! Links libddcmp.a: of the folder that DDCMP_LIB_DIR names, else as c/build made it, else as
//! pkg-config finds it.
use std::path::Path;
use std::process::Command;

fn found_by_pkg_config() -> Option<String> {
    let words = ["--variable=libdir", "ddcmp"];
    let found = Command::new("pkg-config").args(words).output().ok()?;
    let folder = String::from_utf8(found.stdout).ok()?.trim().to_string();
    Some(folder).filter(|_| found.status.success())
}

fn main() {
    println!("cargo:rerun-if-env-changed=DDCMP_LIB_DIR");
    println!("cargo:rerun-if-env-changed=PKG_CONFIG_PATH");
    let made = concat!(env!("CARGO_MANIFEST_DIR"), "/../c/out");
    let folder = std::env::var("DDCMP_LIB_DIR")
        .ok()
        .or_else(|| Some(made.to_string()).filter(|it| Path::new(it).join("libddcmp.a").exists()))
        .or_else(found_by_pkg_config)
        .unwrap_or_else(|| {
            eprintln!("no libddcmp.a: c/build makes it, or DDCMP_LIB_DIR names its folder");
            std::process::exit(1)
        });
    println!("cargo:rerun-if-changed={folder}/libddcmp.a");
    println!("cargo:rustc-link-search=native={folder}");
    println!("cargo:rustc-link-lib=static=ddcmp");
}
