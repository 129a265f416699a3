//! Tests what the build script prints for targets, folders and features. For a target without an
//! archive `cargo check` and the documents pass, and the linker's error gives the reason.

use std::ffi::OsStr;
use std::path::{Path, PathBuf};
use std::process::Command;

const CRATE: &str = env!("CARGO_MANIFEST_DIR");

fn room(name: &str) -> PathBuf {
    let room = Path::new(env!("CARGO_TARGET_TMPDIR")).join(name);
    std::fs::create_dir_all(&room).expect("a folder");
    room
}

/// Compiles the build script to a program with this name.
fn script(name: &str) -> PathBuf {
    let program = room(name).join("script");
    let rustc = std::env::var_os("RUSTC").unwrap_or_else(|| "rustc".into());
    let done = Command::new(rustc)
        .args(["--edition", "2021", "-o"])
        .arg(&program)
        .arg(Path::new(CRATE).join("build.rs"))
        .status()
        .expect("rustc runs");
    assert!(done.success());
    program
}

/// Runs the script for 64-bit Linux, with more variables. Returns its success and both outputs.
fn prints(script: &Path, more: &[(&str, &OsStr)]) -> (bool, String, String) {
    let done = Command::new(script)
        .env_remove("GALLIUMTOAD_LIB_DIR")
        .env_remove("CARGO_FEATURE_OWN_MEMORY")
        .env("CARGO_MANIFEST_DIR", CRATE)
        .env("TARGET", "here")
        .env("CARGO_CFG_TARGET_OS", "linux")
        .env("CARGO_CFG_TARGET_POINTER_WIDTH", "64")
        .env("CARGO_CFG_TARGET_ENDIAN", "little")
        .env("CARGO_CFG_TARGET_ARCH", "x86_64")
        .envs(more.iter().copied())
        .output()
        .expect("the script runs");
    let text = |bytes| String::from_utf8(bytes).expect("text");
    (done.status.success(), text(done.stdout), text(done.stderr))
}

/// Runs cargo in a folder. Returns its success and what it says.
fn cargo(folder: &Path, words: &[&str]) -> (bool, String) {
    let done = Command::new(env!("CARGO"))
        .args(words)
        .args(["--offline", "--target-dir"])
        .arg(room("target"))
        .env_remove("GALLIUMTOAD_LIB_DIR")
        .current_dir(folder)
        .output()
        .expect("cargo runs");
    let says = String::from_utf8_lossy(&done.stderr).into_owned();
    (done.status.success(), says)
}

const HEAP: &str = "cargo:rustc-cfg=heap_in_rust\n";
const ARCHIVE: &str = "cargo:rustc-link-lib=static=card_c\n";

/// Without an operating system the processor counts, as on Linux.
#[test]
fn targets_with_an_archive_link_it() {
    let script = script("with");
    for (arch, os) in [
        ("x86_64", "linux"),
        ("aarch64", "linux"),
        ("x86_64", "none"),
        ("aarch64", "none"),
    ] {
        let os = ("CARGO_CFG_TARGET_OS", os.as_ref());
        let with = [os, ("CARGO_CFG_TARGET_ARCH", arch.as_ref())];
        let (passes, says, _) = prints(&script, &with);
        assert!(passes && says.contains(ARCHIVE), "{says}");
        assert!(says.contains(HEAP), "{says}");
        assert!(says.contains(&format!("lib/{arch}-linux-gnu\n")), "{says}");
        let own = ("CARGO_FEATURE_OWN_MEMORY", "1".as_ref());
        let (passes, says, _) = prints(&script, &[with[0], with[1], own]);
        assert!(passes && says.contains(ARCHIVE), "{says}");
        assert!(!says.contains(HEAP), "{says}");
        let narrow = ("CARGO_CFG_TARGET_POINTER_WIDTH", "32".as_ref());
        let (passes, says, _) = prints(&script, &[with[0], with[1], narrow]);
        assert!(passes && !says.contains(ARCHIVE), "{says}");
    }
}

/// Of 32 bits the target's name counts.
#[test]
fn targets_of_32_bits_link_theirs() {
    let script = script("narrow");
    for (target, folder) in [
        ("thumbv7em-none-eabi", "thumbv7em-none-eabi"),
        ("thumbv7m-none-eabi", "thumbv6m-none-eabi"),
        ("thumbv6m-none-eabi", "thumbv6m-none-eabi"),
        ("armv7-unknown-linux-gnueabihf", "arm-linux-gnu"),
        ("i686-unknown-linux-gnu", "i686-linux-gnu"),
    ] {
        let width = ("CARGO_CFG_TARGET_POINTER_WIDTH", "32".as_ref());
        let (passes, says, _) = prints(&script, &[("TARGET", target.as_ref()), width]);
        assert!(passes && says.contains(ARCHIVE), "{says}");
        assert!(says.contains(&format!("/machines/{folder}\n")), "{says}");
    }
}

/// A package without archives is refused, with the reason. Cargo adds `Cargo.toml.orig` to each.
#[test]
fn a_package_has_the_archives() {
    let script = script("packaged");
    let folder = room("packaged").join("crate");
    let _ = std::fs::remove_dir_all(&folder);
    std::fs::create_dir(&folder).expect("a folder");
    let with = [("CARGO_MANIFEST_DIR", folder.as_os_str())];
    let (passes, says, _) = prints(&script, &with);
    assert!(passes && says.contains("galliumtoad-has-no-archive-for-here"));
    std::fs::write(folder.join("Cargo.toml.orig"), "").expect("written");
    let (passes, _, says) = prints(&script, &with);
    assert!(!passes && says.contains("bindings/package"), "{says}");
    let archives = folder.join("lib/x86_64-linux-gnu");
    std::fs::create_dir_all(&archives).expect("a folder");
    std::fs::write(archives.join("libcard_c.a"), "").expect("written");
    let (passes, says, _) = prints(&script, &with);
    assert!(passes && says.contains(ARCHIVE), "{says}");
    // as cargo does it
    let (passes, says) = cargo(Path::new(CRATE), &["package", "--allow-dirty"]);
    assert!(!passes && says.contains("bindings/package"), "{says}");
}

#[test]
fn targets_without_an_archive_link_a_name_that_says_so() {
    let script = script("without");
    for (name, value) in [
        ("CARGO_CFG_TARGET_ARCH", "riscv64"),
        ("CARGO_CFG_TARGET_OS", "windows"),
        ("CARGO_CFG_TARGET_POINTER_WIDTH", "32"),
        ("CARGO_CFG_TARGET_ENDIAN", "big"),
        ("CARGO_MANIFEST_DIR", "/none"),
    ] {
        let more = [(name, value.as_ref()), ("TARGET", "elsewhere".as_ref())];
        let (passes, says, _) = prints(&script, &more);
        assert!(passes, "{name}");
        assert!(!says.contains("static=") && !says.contains(HEAP), "{says}");
        assert!(says.contains("cargo:rustc-link-lib=galliumtoad-has-no-archive-for-elsewhere\n"));
        let warning = says.lines().find(|it| it.starts_with("cargo:warning="));
        let warning = warning.expect("a warning");
        let words = "elsewhere x86_64-linux-gnu aarch64-linux-gnu GALLIUMTOAD_LIB_DIR";
        let is_named = |word| warning.contains(word);
        assert!(words.split(' ').all(is_named), "{warning}");
    }
}

#[test]
fn a_folder_has_to_have_the_library() {
    let script = script("folder");
    let folder = room("folder").join("of a library");
    let with = [("GALLIUMTOAD_LIB_DIR", folder.as_os_str())];
    let _ = std::fs::remove_dir_all(&folder);
    let refused = |found: (bool, String, String)| {
        assert!(!found.0 && !found.1.contains("link"), "{found:?}");
        let words = ["GALLIUMTOAD_LIB_DIR", "of a library", "libgalliumtoad.a"];
        assert!(words.iter().all(|it| found.2.contains(it)), "{found:?}");
    };
    refused(prints(&script, &with));
    std::fs::create_dir(&folder).expect("a folder");
    refused(prints(&script, &with));
    std::fs::write(folder.join("libgalliumtoad.a"), "").expect("written");
    let (passes, says, _) = prints(&script, &with);
    let links = says.contains("cargo:rustc-link-lib=static=galliumtoad\n");
    let is_there = says.contains("of a library\n") && !says.contains(HEAP);
    assert!(passes && links && is_there, "{says}");
}

/// A copy of the crate finds no archives.
#[test]
fn without_an_archive_all_but_linking_passes() {
    let copy = room("other/crate");
    let parts = [
        "Cargo.toml",
        "build.rs",
        "README.md",
        "src",
        "examples",
        "tests",
    ];
    let parts = parts.map(|it| Path::new(CRATE).join(it));
    let done = Command::new("cp").arg("-r").args(parts).arg(&copy).status();
    assert!(done.expect("cp runs").success());
    for words in [&["check"][..], &["doc", "--no-deps"], &["build"]] {
        let (passes, says) = cargo(&copy, words);
        assert!(passes && says.contains("no archive for"), "{says}");
    }
    let (passes, says) = cargo(&copy, &["build", "--example", "session"]);
    let is_named = says.contains("galliumtoad-has-no-archive-for-");
    assert!(!passes && is_named, "{says}");
}
