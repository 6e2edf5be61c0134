//! Links `libwizbratel.a` from the folder that `WIZBRATEL_LIB` names, else from an installation's `lib` beside this crate,
//! else from the repository's `target/staticlib`.

use std::path::{Path, PathBuf};

const ARCHIVE: &str = "libwizbratel.a";
const VARIABLE: &str = "WIZBRATEL_LIB";

/// Where the archive is looked for, from this crate's folder.
const PLACES: [&str; 2] = ["../lib", "../../target/staticlib"];

fn main() {
    let here = Path::new(env!("CARGO_MANIFEST_DIR"));
    let places = PLACES.map(|place| here.join(place));
    let named = std::env::var_os(VARIABLE).map(PathBuf::from);
    let folders = named.map_or(places.to_vec(), |folder| vec![folder]);
    println!("cargo:rerun-if-env-changed={VARIABLE}");
    let Some(folder) = folders.iter().find(|folder| folder.join(ARCHIVE).is_file()) else {
        let folders: Vec<_> = folders
            .iter()
            .map(|folder| folder.display().to_string())
            .collect();
        eprintln!("no {ARCHIVE} in {}", folders.join(" or "));
        eprintln!("`tools/archives` writes it to the repository's target/staticlib; or {VARIABLE} names its folder, by a whole path");
        std::process::exit(1);
    };
    println!("cargo:rerun-if-changed={}", folder.join(ARCHIVE).display());
    println!("cargo:rustc-link-search=native={}", folder.display());
    println!("cargo:rustc-link-lib=static=wizbratel");
}
