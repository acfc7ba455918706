//! Points the compiler at the published source and the linker at the library.
use std::path::{Path, PathBuf};
use std::{env, fs, process};

const MODULES: [&str; 5] = ["refmvs", "intops", "env", "levels", "headers"];

// The source is built as it is: what it leaves unused, and its features, are no fault of ours.
const ALLOW: &str = "#[allow(dead_code, unused, unexpected_cfgs, clippy::all)]";

fn fail(message: String) -> ! {
    println!("cargo::error={message}");
    process::exit(1);
}

fn folder(variable: &str, content: &str) -> PathBuf {
    println!("cargo::rerun-if-env-changed={variable}");
    let Some(value) = env::var_os(variable) else {
        fail(format!(
            "{variable} is not set: it names the folder of {content}"
        ));
    };
    let path = PathBuf::from(value);
    if !path.is_absolute() {
        fail(format!(
            "{variable} is not an absolute path: {}",
            path.display()
        ));
    }
    path
}

fn need(file: &Path, hint: &str) {
    println!("cargo::rerun-if-changed={}", file.display());
    if !file.is_file() {
        fail(format!("{} is missing: {hint}", file.display()));
    }
}

fn main() {
    println!("cargo::rerun-if-changed=build.rs");
    let source = folder("REFMVS_RUST_SRC", "the published refmvs.rs");
    let library = folder("REFMVS_LIB", "librefmvs.a and libpasses.a");

    let mut declarations = String::new();
    for module in MODULES {
        let file = source.join(format!("{module}.rs"));
        need(&file, "REFMVS_RUST_SRC names the folder of the five files");
        declarations += &format!("{ALLOW}\n#[path = {file:?}]\nmod {module};\n");
    }
    let out = PathBuf::from(env::var_os("OUT_DIR").unwrap()).join("published.rs");
    fs::write(out, declarations).unwrap();

    // The program `definitions` calls nothing of the library, and is built without it.
    for name in ["refmvs", "passes"] {
        let archive = library.join(format!("lib{name}.a"));
        println!("cargo::rerun-if-changed={}", archive.display());
        for program in ["oracle", "bench"] {
            println!("cargo::rustc-link-arg-bin={program}={}", archive.display());
        }
    }
}
