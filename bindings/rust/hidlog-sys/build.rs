//! Links the crate with the C library's static library: with the one in the folder $HIDLOG_LIBRARY_FOLDER if that is
//! set, otherwise with the prebuilt one for the target. If the target has none, or HIDLOG_PORTABLE is set, compiles the
//! portable library with the C compiler $CC [default: cc, or x86_64-w64-mingw32-gcc to cross-compile for Windows].

use std::env::var;
use std::path::{Path, PathBuf};
use std::process::Command;

fn main() {
    for name in ["HIDLOG_LIBRARY_FOLDER", "HIDLOG_PORTABLE", "CC", "AR"] {
        println!("cargo:rerun-if-env-changed={name}");
    }
    let folder = if var("HIDLOG_PORTABLE").is_err() { find_prebuilt() } else { None };
    let folder = folder.unwrap_or_else(compile_portable);
    println!("cargo:rustc-link-search=native={}", folder.display());
    println!("cargo:rustc-link-lib=static=hidlog");
}

/// Returns $HIDLOG_LIBRARY_FOLDER if that is set, otherwise the folder of the prebuilt static library for the target,
/// if any.
fn find_prebuilt() -> Option<PathBuf> {
    let (system, processor) = (var("CARGO_CFG_TARGET_OS").unwrap(), var("CARGO_CFG_TARGET_ARCH").unwrap());
    if let Ok(folder) = var("HIDLOG_LIBRARY_FOLDER") {
        return Some(PathBuf::from(folder));
    }
    if system != "linux" {
        return None;
    }
    // The prebuilt library is in lib in the published crate, and in release in a clone of the repository.
    let crate_folder = var("CARGO_MANIFEST_DIR").unwrap();
    let release = if processor == "x86_64" { "" } else { &processor };
    let folders = [format!("{crate_folder}/lib/{processor}"), format!("{crate_folder}/../../../release/{release}")];
    folders.iter().map(PathBuf::from).find(|folder| folder.join("libhidlog.a").exists())
}

/// Compiles hidlog.c, the portable C library, to a static library, and returns the folder of the static library.
fn compile_portable() -> PathBuf {
    // The published crate contains hidlog.c in this folder. In a clone of the repository, bindings/c/sources.sh writes
    // it.
    let sources = Path::new(&var("CARGO_MANIFEST_DIR").unwrap()).join("lib/portable");
    let (target, out) = (var("TARGET").unwrap(), PathBuf::from(var("OUT_DIR").unwrap()));
    if !sources.join("hidlog.c").exists() || target.ends_with("msvc") {
        panic!(
            "hidlog-sys has no prebuilt library for {target}, and cannot compile one: write hidlog.c with \
            bindings/c/sources.sh, compile it to a static library, and set HIDLOG_LIBRARY_FOLDER to the library's folder"
        );
    }
    let prefix = if target.ends_with("windows-gnu") && var("HOST") != Ok(target) { "x86_64-w64-mingw32-" } else { "" };
    let compiler = var("CC").unwrap_or(if prefix.is_empty() { "cc".into() } else { format!("{prefix}gcc") });
    let archiver = var("AR").unwrap_or(format!("{prefix}ar"));
    let object = out.join("hidlog.o");
    run(Command::new(compiler)
        .args(["-std=c11", "-O2", "-fPIC", "-c", "-o"])
        .arg(&object)
        .arg(sources.join("hidlog.c")));
    run(Command::new(archiver).arg("crs").arg(out.join("libhidlog.a")).arg(&object));
    out
}

/// The end of an error message: what to do if the compiler or the archiver is missing or fails.
const COMPILERS_HINT: &str = "set CC to a C11 compiler and AR to an archiver";

/// Runs a command. If it fails or can't be started, the build fails.
fn run(command: &mut Command) {
    match command.status() {
        Ok(status) if status.success() => {}
        Ok(status) => panic!("hidlog-sys: {command:?} failed with {status}; {COMPILERS_HINT}"),
        Err(error) => panic!("hidlog-sys: cannot run {command:?}: {error}; {COMPILERS_HINT}"),
    }
}
