//! Links the proved library's archives from the folder named by LIBRARY_DIR: `libmnemathor.a`, which only `compare` and
//! `bench` need, and `libnumbers.a`, which only `roots` needs. Without the variable nothing is linked. The header's calls
//! are compiled from include/mnemathor.c for `compare`.

use std::env;
use std::path::Path;
use std::process::Command;

fn main() {
    println!("cargo:rerun-if-changed=build.rs");
    println!("cargo:rerun-if-env-changed=LIBRARY_DIR");
    let has = |feature: &str| env::var_os(format!("CARGO_FEATURE_{feature}")).is_some();
    if has("LINKED") {
        compile_header();
    }
    if has("LINKED") && !has("STUB") {
        link("mnemathor");
    }
    if has("ROOTS") {
        link("numbers");
    }
}

fn link(archive: &str) {
    if let Ok(folder) = env::var("LIBRARY_DIR") {
        println!("cargo:rerun-if-changed={folder}/lib{archive}.a");
        println!("cargo:rustc-link-search=native={folder}");
        println!("cargo:rustc-link-lib=static:-bundle={archive}");
    }
}

/// The header's calls as an archive of their own, before the one that they call.
fn compile_header() {
    let folder = env::var("OUT_DIR").expect("cargo names a folder");
    let include = Path::new(env!("CARGO_MANIFEST_DIR")).join("../include");
    println!("cargo:rerun-if-changed={}", include.display());
    run(Command::new("cc")
        .args(["-std=c99", "-O2", "-fPIC", "-Wall", "-Wextra", "-Wpedantic", "-Werror", "-c", "-o"])
        .arg(format!("{folder}/typed.o"))
        .arg(include.join("mnemathor.c")));
    run(Command::new("ar").arg("rcs").arg(format!("{folder}/libtyped.a")).arg(format!("{folder}/typed.o")));
    println!("cargo:rustc-link-search=native={folder}");
    println!("cargo:rustc-link-lib=static:-bundle=typed");
}

fn run(command: &mut Command) {
    let status = command.status().expect("a C compiler is there");
    assert!(status.success(), "the header is not compiled");
}
