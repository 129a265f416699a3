//! Tests whole programs: examples, one without `std`, a plugin, and those that the compiler has to
//! refuse.
#![cfg(not(feature = "own-memory"))]

use std::path::{Path, PathBuf};
use std::process::{Command, Output};

/// Has cargo build a package that uses this crate, with these lines of its manifest. Returns its
/// folder of what is built, and cargo's output.
fn built(name: &str, manifest: &str, source: &str, words: &[&str]) -> (PathBuf, Output) {
    let folder = Path::new(env!("CARGO_TARGET_TMPDIR"))
        .join("programs")
        .join(name);
    std::fs::create_dir_all(folder.join("src")).expect("a folder");
    // another version of cargo may have written it
    let _ = std::fs::remove_file(folder.join("Cargo.lock"));
    let manifest = format!(
        "[package]\nname = \"{name}\"\nversion = \"0.1.0\"\nedition = \"2021\"\n\
         {manifest}\n[workspace]\n[dependencies]\n\
         galliumtoad = {{ path = {:?}, default-features = {} }}\n",
        env!("CARGO_MANIFEST_DIR"),
        name != "bare"
    );
    std::fs::write(folder.join("Cargo.toml"), manifest).expect("written");
    std::fs::write(folder.join("src/main.rs"), source).expect("written");
    let target = folder.join("target");
    let done = Command::new(env!("CARGO"))
        .args([words[0], "--offline", "--quiet", "--target-dir"])
        .arg(&target)
        .args(&words[1..])
        // this crate alone may have features that a nightly compiler takes
        .env("RUSTC_BOOTSTRAP", "bare")
        .current_dir(&folder)
        .output()
        .expect("cargo runs");
    (target, done)
}

/// The program of `bare/try`, with the compiler's own `alloc`, and functions of C that this calls.
#[test]
fn a_program_without_std_links_and_runs() {
    let words = ["rustc", "--", "-C", "link-args=-nostartfiles -lc"];
    let manifest = "[profile.dev]\npanic = \"abort\"";
    let (target, done) = built("bare", manifest, include_str!("bare/src/main.rs"), &words);
    assert!(done.status.success(), "{done:?}");
    let status = Command::new(target.join("debug/bare")).status();
    assert_eq!(status.expect("it runs").code(), Some(42));
}

/// What the compiler says of a use of the crate, and the use.
const REFUSED: &str = "
the card may have refused | fn f(mut s: Session) { s.get(0x50).unwrap(); }
the card may have refused | fn f(mut s: Session) { s.put(0x50, &[]).unwrap(); }
a drop resets the terminal | fn f(t: &mut Terminal) { t.begin_guarded(Get(0x50)).unwrap(); }
`_` not covered | fn f(e: Edc) { match e { Edc::Lrc | Edc::Crc => {} } }
`_` not covered | fn f(l: Level) { match l { Level::Tpdu | Level::Apdu => {} } }
`_` not covered | fn f(o: Outcome) { match o { NotCarriedOut | Unknown | InPart => {} } }
`_` not covered | fn f(o: Operation) { match o { Select(_) | Get(_) | Put(..) | Send(_) => {} } }
";

/// Answers and statuses are looked at, and enums may grow.
#[test]
fn the_compiler_refuses_what_the_crate_does_not_allow() {
    for line in REFUSED.trim().lines() {
        let (wanted, source) = line.split_once(" | ").expect("a use");
        let source = format!(
            "#![deny(unused_must_use)]\n#![allow(unused_imports, dead_code)]\n\
             use galliumtoad::{{Operation::*, Outcome::*, *}};\n{source}\nfn main() {{}}"
        );
        let (_, done) = built("refused", "", &source, &["build"]);
        let says = String::from_utf8_lossy(&done.stderr).into_owned();
        assert!(!done.status.success() && says.contains(wanted), "{says}");
        let errors = says.lines().filter(|it| it.starts_with("error")).count();
        assert_eq!(errors, 2, "one, and that it does not compile: {says}");
    }
}

/// The examples, and what each prints by the rules of the card that it has.
const EXAMPLES: &str = "
session
  select: 9000 6F098407A0000000031010
  get: 9000 5F20034A4F45
  put: 9000
  get: 9000 5F2003414E4E
  put of a locked object: 6982
terminal
  Select([A0, 00, 00, 00, 03, 10, 10]): 9000 normal processing
  Put(5F20, 3 bytes): 9000 normal processing
  Get(5F20): 9000 normal processing
  the name is ANN
read_all
  Person { name: \"JOE\", languages: [\"en\", \"fr\"] }
counter
  [10, 01, 90, 00]
  [10, 02, 90, 00]
pin
  [D6]
  [69, 82]
  [20]
  [63, C2]
  [20]
  [90, 00]
  [D6]
  [90, 00]
  [B0, 4A, 4F, 45, 90, 00]
slow
  [10, 02, 90, 00] after NULLs: true
";

#[test]
fn examples_print_what_their_cards_answer() {
    let mut said = String::from("\n");
    for name in EXAMPLES
        .lines()
        .filter(|it| !it.starts_with(' ') && !it.is_empty())
    {
        let done = Command::new(env!("CARGO"))
            .args(["run", "--offline", "--quiet", "--example", name])
            .arg("--target-dir")
            .arg(Path::new(env!("CARGO_TARGET_TMPDIR")).join("examples"))
            .current_dir(env!("CARGO_MANIFEST_DIR"))
            .output()
            .expect("cargo runs");
        assert!(done.status.success(), "{done:?}");
        let lines = String::from_utf8(done.stdout).expect("text");
        let lines = lines.lines().map(|it| format!("  {it}\n"));
        said += &format!("{name}\n{}", lines.collect::<String>());
    }
    assert_eq!(said, EXAMPLES);
}

const PLUGIN: &str = "
#[no_mangle]
pub extern \"C\" fn plugin_starts() -> bool {
    galliumtoad::Terminal::new().is_ok() && galliumtoad::CardBuilder::new().is_ok()
}
";

/// The names that a library exports or imports.
fn dynamic_names(library: &Path) -> Vec<String> {
    let done = Command::new("nm").arg("-D").arg(library).output();
    let done = done.expect("nm runs");
    assert!(done.status.success());
    let lines = String::from_utf8(done.stdout).expect("names");
    let last = |line: &str| line.split_whitespace().last().map(str::to_owned);
    lines.lines().filter_map(last).collect()
}

/// A plugin (a `cdylib`) exports neither its functions for memory nor those of the archive.
#[test]
fn a_plugin_keeps_its_memory_to_itself() {
    let manifest = "autobins = false\n[lib]\npath = \"src/main.rs\"\ncrate-type = [\"cdylib\"]";
    for profile in ["dev", "release"] {
        let words = ["build", "--profile", profile];
        let (target, done) = built("plugin", manifest, PLUGIN, &words);
        assert!(done.status.success());
        let folder = if profile == "dev" { "debug" } else { profile };
        let names = dynamic_names(&target.join(folder).join("libplugin.so"));
        assert!(names.iter().any(|name| name == "plugin_starts"));
        let is_ours = |it: &&String| it.starts_with("rattle_") || it.starts_with("galliumtoad_");
        assert_eq!(names.iter().find(is_ours), None);
    }
}
