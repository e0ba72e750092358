//! Links `libriddlesage.a`: from the folder that `RIDDLESAGE_LIB_DIR` names, otherwise from the repository that this
//! crate is in. Without either, it compiles `portable/riddlesage_portable.c`, which the crate of a release has, with
//! the compiler that `CC` names (default: `cc`), and `ar`. Without that file, the linker searches its own path.

use std::env;
use std::path::{Path, PathBuf};
use std::process::Command;

/// Runs a command, and ends the build with its name if it fails.
fn run(command: &mut Command) {
    let done = command.status();
    assert!(done.is_ok_and(|status| status.success()), "the build of riddlesage needs this command: {command:?}");
}

/// Compiles the library to an archive in a folder.
fn compile(source: &Path, folder: &Path) {
    let compiler = env::var("CC").unwrap_or_else(|_| "cc".into());
    let (object, archive) = (folder.join("riddlesage.o"), folder.join("libriddlesage.a"));
    run(Command::new(compiler).args(["-std=c11", "-O2", "-fPIC", "-c", "-o"]).arg(&object).arg(source));
    run(Command::new("ar").arg("rcs").arg(archive).arg(object));
}

fn main() {
    println!("cargo:rerun-if-env-changed=RIDDLESAGE_LIB_DIR");
    println!("cargo:rerun-if-env-changed=CC");
    let crate_folder = PathBuf::from(env::var_os("CARGO_MANIFEST_DIR").expect("cargo names the folder"));
    let in_tree = crate_folder.join("../out");
    let source = crate_folder.join("portable/riddlesage_portable.c");
    let named = env::var_os("RIDDLESAGE_LIB_DIR").map(PathBuf::from);
    if let Some(folder) = named.or_else(|| in_tree.join("libriddlesage.a").is_file().then_some(in_tree)) {
        println!("cargo:rustc-link-search=native={}", folder.display());
        println!("cargo:rerun-if-changed={}", folder.join("libriddlesage.a").display());
    } else if source.is_file() {
        let folder = PathBuf::from(env::var_os("OUT_DIR").expect("cargo names the folder for what is built"));
        compile(&source, &folder);
        println!("cargo:rustc-link-search=native={}", folder.display());
        println!("cargo:rerun-if-changed={}", source.display());
    }
    println!("cargo:rustc-link-lib=static=riddlesage");
}
