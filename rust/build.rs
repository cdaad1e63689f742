//! Links the proved libraries: libnespovarda.a and libnespovarda_station.a in NESPOVARDA_ARCHIVE_DIR, else in target/library of the repository.
use std::env;
use std::path::PathBuf;

const DIRECTORY: &str = "NESPOVARDA_ARCHIVE_DIR";
const LIBRARIES: [&str; 2] = ["nespovarda", "nespovarda_station"];

fn main() {
    let package = PathBuf::from(env::var_os("CARGO_MANIFEST_DIR").expect("cargo names the package's directory"));
    let directory = env::var_os(DIRECTORY).map_or_else(|| package.join("../target/library"), PathBuf::from);
    println!("cargo:rerun-if-env-changed={DIRECTORY}");
    println!("cargo:rustc-link-search=native={}", directory.display());
    for library in LIBRARIES {
        println!("cargo:rerun-if-changed={}", directory.join(format!("lib{library}.a")).display());
        println!("cargo:rustc-link-lib=static={library}");
    }
}
