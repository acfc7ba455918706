//! Points the linker at librefmvs.a: in the folder that REFMVS_LIB names, or in target/lib of the repository.
use std::path::PathBuf;
use std::{env, process};

fn fail(message: String) -> ! {
    eprintln!("refmvs: {message}");
    process::exit(1);
}

fn folder() -> PathBuf {
    match env::var_os("REFMVS_LIB") {
        Some(given) => PathBuf::from(given),
        None => {
            PathBuf::from(env::var_os("CARGO_MANIFEST_DIR").unwrap()).join("../../target/lib")
        }
    }
}

fn main() {
    println!("cargo:rerun-if-changed=build.rs");
    println!("cargo:rerun-if-env-changed=REFMVS_LIB");
    let target = env::var("TARGET").unwrap();
    if !target.starts_with("x86_64-") || !target.contains("-linux-") {
        fail(format!("librefmvs.a is for x86-64 Linux, not for {target}"));
    }
    let folder = folder();
    let archive = folder.join("librefmvs.a");
    println!("cargo:rerun-if-changed={}", archive.display());
    if !archive.is_file() {
        fail(format!(
            "{} is missing. Make it with `bash library.sh` at the repository's root, or set REFMVS_LIB to the \
             folder that has librefmvs.a",
            archive.display()
        ));
    }
    let folder = folder.canonicalize().unwrap();
    println!("cargo:rustc-link-search=native={}", folder.display());
    println!("cargo:rustc-link-lib=static=refmvs");
}
