//! Finds the library for C of the crate's own version: below the folder `SEDGECHISEL_DIR`, as `./install --prefix DIR`
//! fills it, or where the program pkg-config finds it. Without either it compiles the portable C in the folder `c`.
//! With `DOCS_RS` set, as by docs.rs, it does neither, because the documentation needs no library.

use std::env;
use std::fs;
use std::path::{Path, PathBuf};
use std::process::{exit, Command};

const OWN: &str = env!("CARGO_PKG_VERSION");
const HOW: &str = "\
SEDGECHISEL_DIR must be the absolute path of a folder with this version of the library. In the repository run

    ./install --prefix DIR

which proves, builds and installs it, and set SEDGECHISEL_DIR=DIR. With `--target TRIPLE`, ./install makes the library
of another processor. Without SEDGECHISEL_DIR the crate compiles its portable C.";

fn main() {
    for name in [
        "SEDGECHISEL_DIR",
        "PKG_CONFIG",
        "PKG_CONFIG_PATH",
        "PKG_CONFIG_LIBDIR",
        "CC",
        "AR",
        "CFLAGS",
        "DOCS_RS",
    ] {
        println!("cargo:rerun-if-env-changed={name}");
    }
    if env::var_os("DOCS_RS").is_some() {
        return;
    }
    let folder = named().or_else(asked).unwrap_or_else(compiled);
    println!("cargo:rustc-link-search=native={}", folder.display());
    link(&folder, "sedgechisel");
    if env::var_os("CARGO_FEATURE_NODES").is_some() {
        link(&folder, "sedgechisel_nodes");
    }
}

fn link(folder: &Path, name: &str) {
    let archive = folder.join(format!("lib{name}.a"));
    if !archive.is_file() {
        give_up(&format!("there is no file {}\n{HOW}", archive.display()));
    }
    println!("cargo:rerun-if-changed={}", archive.display());
    println!("cargo:rustc-link-lib=static={name}");
}

/// The folder of the library below `SEDGECHISEL_DIR`. A library of another version is refused, because structs grow
/// between versions.
fn named() -> Option<PathBuf> {
    let prefix = PathBuf::from(env::var_os("SEDGECHISEL_DIR")?);
    let header = prefix.join("include/sedgechisel.h");
    let text = fs::read_to_string(&header).unwrap_or_default();
    let numbers = text.lines().filter_map(|it| it.strip_prefix("#define SEDGE_VERSION_")?.split(' ').nth(1));
    let version = numbers.collect::<Vec<_>>().join(".");
    if version != OWN {
        give_up(&format!("{} is not of version {OWN}, but {version:?}\n{HOW}", header.display()));
    }
    Some(prefix.join("lib"))
}

/// The folder that pkg-config names for this version. It knows the libraries of this machine only.
fn asked() -> Option<PathBuf> {
    if env::var_os("TARGET") != env::var_os("HOST") {
        return None;
    }
    let program = env::var_os("PKG_CONFIG").unwrap_or("pkg-config".into());
    let version = format!("--exact-version={OWN}");
    if !Command::new(&program).args([&version, "sedgechisel"]).status().ok()?.success() {
        return None;
    }
    let ran = Command::new(program).args(["--variable=libdir", "sedgechisel"]).output().ok()?;
    let folder = String::from_utf8(ran.stdout).ok()?;
    let found = ran.status.success() && !folder.trim().is_empty();
    found.then(|| PathBuf::from(folder.trim()))
}

/// Makes both libraries of the portable C, with the programs that `CC` and `AR` name, or `cc` and `ar`. For another
/// processor `CC` must be set.
fn compiled() -> PathBuf {
    let source = Path::new("c");
    let out = PathBuf::from(env::var_os("OUT_DIR").expect("cargo sets OUT_DIR"));
    if env::var_os("TARGET") != env::var_os("HOST") && env::var_os("CC").is_none() {
        give_up("set CC to a compiler of C for the processor that the crate is built for, and AR to its ar");
    }
    // Each may have arguments, as in CC='arm-none-eabi-gcc -mcpu=cortex-m4 -mthumb'.
    let words = |name: &str, otherwise: &str| -> Vec<String> {
        let said = env::var(name).ok().filter(|it| !it.trim().is_empty()).unwrap_or(otherwise.into());
        said.split_whitespace().map(String::from).collect()
    };
    let (cc, ar, more) = (words("CC", "cc"), words("AR", "ar"), words("CFLAGS", ""));
    println!("cargo:rerun-if-changed={}", source.display());
    for name in ["sedgechisel", "sedgechisel_nodes"] {
        let (from, object) = (source.join(format!("{name}.c")), out.join(format!("{name}.o")));
        let flags = ["-std=c99", "-O2", "-fPIC", "-ffunction-sections", "-c"];
        let mut compile = Command::new(&cc[0]);
        run(compile
            .args(&cc[1..])
            .args(flags)
            .args(&more)
            .arg("-I")
            .arg(source)
            .arg(&from)
            .arg("-o")
            .arg(&object));
        let archive = out.join(format!("lib{name}.a"));
        run(Command::new(&ar[0]).args(&ar[1..]).arg("rcs").arg(archive).arg(&object));
    }
    out
}

fn run(command: &mut Command) {
    if !command.status().is_ok_and(|it| it.success()) {
        give_up(&format!("this did not end well: {command:?}"));
    }
}

fn give_up(text: &str) -> ! {
    eprintln!("{text}");
    exit(1)
}
