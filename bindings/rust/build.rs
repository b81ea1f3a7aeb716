//! Links liborderset.a, from the folder ORDERSET_LIB if that is set and else from target/lib of the repository.
use std::{env, fs, path::PathBuf, process};

fn main() {
    println!("cargo:rerun-if-changed=build.rs");
    println!("cargo:rerun-if-env-changed=ORDERSET_LIB");
    let target = |name| env::var(format!("CARGO_CFG_TARGET_{name}")).unwrap_or_default();
    if target("ARCH") != "x86_64" || target("OS") != "linux" {
        stop("liborderset is for x86-64 Linux");
    }
    let folder = match env::var_os("ORDERSET_LIB") {
        Some(folder) => PathBuf::from(folder),
        None => PathBuf::from(env!("CARGO_MANIFEST_DIR")).join("../../target/lib"),
    };
    let archive = folder.join("liborderset.a");
    match fs::canonicalize(&archive) {
        Ok(found) => {
            println!("cargo:rerun-if-changed={}", found.display());
            println!("cargo:rustc-link-search=native={}", found.parent().unwrap().display());
            println!("cargo:rustc-link-lib=static=orderset");
        }
        Err(error) => {
            // cargo doc and cargo check link nothing
            println!(
                "cargo:warning={}: {error}. Run `make lib` in the repository, or set ORDERSET_LIB to the folder of \
                 liborderset.a",
                archive.display()
            );
            println!("cargo:rustc-link-lib=static=orderset");
        }
    }
}

fn stop(why: &str) -> ! {
    eprintln!("{why}");
    process::exit(1)
}
