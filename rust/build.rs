//! Links the engine's static library, which `tools/archive` writes to `target/staticlib` of the repository.
//! `RELATIONS_LIB` names another folder.
use std::env;
use std::path::PathBuf;

fn main() {
    println!("cargo:rerun-if-env-changed=RELATIONS_LIB");
    let folder = match env::var_os("RELATIONS_LIB") {
        Some(folder) => PathBuf::from(folder),
        None => PathBuf::from(env::var_os("CARGO_MANIFEST_DIR").expect("cargo names the crate's folder"))
            .join("..")
            .join("target")
            .join("staticlib"),
    };
    let archive = folder.join("libembed.a");
    if !archive.is_file() {
        panic!("{} is missing: run `tools/archive`, or set RELATIONS_LIB", archive.display());
    }
    if env::var("CARGO_CFG_TARGET_ARCH").as_deref() != Ok("x86_64") {
        panic!("the engine's static library links only into x86-64 programs: build with --target x86_64-unknown-linux-gnu");
    }
    println!("cargo:rerun-if-changed={}", archive.display());
    println!("cargo:rustc-link-search=native={}", folder.display());
    println!("cargo:rustc-link-lib=static=embed");
}
