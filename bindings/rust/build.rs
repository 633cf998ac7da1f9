//! Finds libkatchidul.a: in the folder that KATCHIDUL_LIBDIR names, or in this checkout, or where pkg-config says.
use std::path::{Path, PathBuf};
use std::process::Command;

fn checkout() -> Option<PathBuf> {
    let folder = Path::new(env!("CARGO_MANIFEST_DIR")).join("../../target/staticlib");
    folder.join("libkatchidul.a").exists().then_some(folder)
}

fn installed() -> Option<PathBuf> {
    let said = Command::new("pkg-config").args(["--variable=libdir", "katchidul"]).output().ok()?;
    let folder = PathBuf::from(String::from_utf8(said.stdout).ok()?.trim());
    folder.join("libkatchidul.a").exists().then_some(folder)
}

fn main() {
    println!("cargo:rerun-if-env-changed=KATCHIDUL_LIBDIR");
    let given = std::env::var_os("KATCHIDUL_LIBDIR").map(PathBuf::from);
    let folder = given.or_else(checkout).or_else(installed);
    let folder = folder.expect("libkatchidul.a is not found; KATCHIDUL_LIBDIR names its folder");
    println!("cargo:rerun-if-changed={}", folder.join("libkatchidul.a").display());
    println!("cargo:rustc-link-search=native={}", folder.display());
    println!("cargo:rustc-link-lib=static=katchidul");
}
