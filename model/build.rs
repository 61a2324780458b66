//! Points the linker at the engine's static libraries when the feature `engine` is on, and says how to build one
//! that is missing.

use std::env;
use std::path::PathBuf;

/// Where the engine's build leaves its static libraries, from this package's folder.
const ENGINE_FOLDER: &str = "../target/staticlib";

/// The libraries: the engine's calls, and the rows of batch cards. Each has its own calls as its only public symbols.
const ENGINE_LIBRARIES: [&str; 2] = ["jurengate", "jurengate_cards"];

/// Names another folder to take the libraries from.
const FOLDER_VARIABLE: &str = "JURENGATE_LIB_DIR";

fn main() {
    println!("cargo:rerun-if-changed=build.rs");
    println!("cargo:rerun-if-env-changed={FOLDER_VARIABLE}");
    if env::var_os("CARGO_FEATURE_ENGINE").is_none() {
        return;
    }
    let folder = engine_folder();
    println!("cargo:rustc-link-search=native={}", folder.display());
    for name in ENGINE_LIBRARIES {
        let library = folder.join(format!("lib{name}.a"));
        println!("cargo:rerun-if-changed={}", library.display());
        if library.is_file() {
            println!("cargo:rustc-link-lib=static={name}");
        } else {
            let how = format!("build it with `./build {name}`, or name its folder in {FOLDER_VARIABLE}");
            println!("cargo::error=the engine's library {} is missing: {how}", library.display());
        }
    }
}

fn engine_folder() -> PathBuf {
    match env::var_os(FOLDER_VARIABLE) {
        Some(folder) => PathBuf::from(folder),
        None => PathBuf::from(env::var_os("CARGO_MANIFEST_DIR").unwrap_or_default()).join(ENGINE_FOLDER),
    }
}
