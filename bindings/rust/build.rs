//! Links the archive of the target, proved or made of the same module. It is in `lib` of a
//! package, or in `../lib` or `../machines` of the repository. If `GALLIUMTOAD_LIB_DIR` is set, it
//! links `libgalliumtoad.a` of that folder, which contains the functions for memory too.

use std::env;
use std::path::{Path, PathBuf};
use std::process::exit;

/// The targets with an archive, for the linker's error.
const TARGETS: [&str; 6] = [
    "x86_64-linux-gnu",
    "aarch64-linux-gnu",
    "arm-linux-gnu",
    "i686-linux-gnu",
    "thumbv7em-none-eabi",
    "thumbv6m-none-eabi",
];

fn main() {
    println!("cargo:rerun-if-env-changed=GALLIUMTOAD_LIB_DIR");
    println!("cargo:rustc-check-cfg=cfg(heap_in_rust)");
    if let Some(folder) = env::var_os("GALLIUMTOAD_LIB_DIR") {
        if !link(Path::new(&folder), "galliumtoad") {
            eprintln!("GALLIUMTOAD_LIB_DIR is {folder:?}: there is no libgalliumtoad.a in it");
            exit(1);
        }
        return;
    }
    // read at run time: a package's copy of this program may have been compiled in another folder
    let here = PathBuf::from(env::var_os("CARGO_MANIFEST_DIR").unwrap_or_default());
    // a package contains the archives; in the repository they are next to the crate
    let inside = here.join("lib");
    if here.join("Cargo.toml.orig").is_file() && !inside.is_dir() {
        eprintln!("a package by `cargo package` has no archives: make it by bindings/package");
        exit(1);
    }
    let target = target();
    if ![inside, here.join("../lib"), here.join("../machines")]
        .iter()
        .any(|it| link(&it.join(&target), "card_c"))
    {
        return link_nothing();
    }
    if env::var_os("CARGO_FEATURE_OWN_MEMORY").is_none() {
        println!("cargo:rustc-cfg=heap_in_rust");
    }
}

/// The target, as the archives' folders name it. Of 64 bits, for Linux and without a system, the
/// processor alone counts: an archive uses only functions that copy and set memory, which Rust has
/// too. Of 32 bits the archives are for these targets; a Cortex-M3 runs the code of a Cortex-M0. No
/// archive is for big-endian processors.
fn target() -> String {
    let of = |name: &str| env::var(format!("CARGO_CFG_TARGET_{name}")).unwrap_or_default();
    let (os, width, endian) = (of("OS"), of("POINTER_WIDTH"), of("ENDIAN"));
    let named = env::var("TARGET").unwrap_or_default();
    match &*named {
        "thumbv7em-none-eabi" | "thumbv6m-none-eabi" => named,
        "thumbv7m-none-eabi" => "thumbv6m-none-eabi".into(),
        "armv7-unknown-linux-gnueabihf" => "arm-linux-gnu".into(),
        "i686-unknown-linux-gnu" => "i686-linux-gnu".into(),
        _ if matches!(&*os, "linux" | "none") && (&*width, &*endian) == ("64", "little") => {
            format!("{}-linux-gnu", of("ARCH"))
        }
        _ => format!("{}-{os}-{width}-{endian}", of("ARCH")),
    }
}

/// Links the library of this folder, and returns whether it is there.
fn link(folder: &Path, library: &str) -> bool {
    let file = folder.join(format!("lib{library}.a"));
    println!("cargo:rerun-if-changed={}", file.display());
    if file.is_file() {
        println!("cargo:rustc-link-search=native={}", folder.display());
        println!("cargo:rustc-link-lib=static={library}");
    }
    file.is_file()
}

/// Without an archive everything but linking works. The linker's error then has this name.
fn link_nothing() {
    let target = env::var("TARGET").unwrap_or_default();
    println!(
        "cargo:warning=no archive for {target}, so no program can be linked. The archives are for \
         {}. GALLIUMTOAD_LIB_DIR may name a folder with a libgalliumtoad.a",
        TARGETS.join(" and ")
    );
    println!("cargo:rustc-link-lib=galliumtoad-has-no-archive-for-{target}");
}
