//! Finds the library: by `ZAKLIMOT_DIR`, which names a folder of `tools/vga-library make` or of a
//! release, or by the file for `pkg-config` that is laid where the library is installed. Where
//! there is none, a C compiler makes it of `portable/zaklimot.c`.

use std::env;
use std::path::{Path, PathBuf};
use std::process::Command;

const HOW: &str = "\
Do one of these:
- Install a C compiler, as Debian's packages gcc and libc6-dev, or name yours in CC. The build then
  compiles zaklimot.c, which is tested and not proved.
- Unpack a release, and set ZAKLIMOT_DIR to its folder.
- Install the library: type `./install.sh` in a release, or `tools/vga-library install` in the
  repository. If its prefix is neither /usr/local nor /usr, set ZAKLIMOT_DIR to the prefix, or
  PKG_CONFIG_PATH to the folder of zaklimot.pc.
- Type `tools/vga-library make kit` in the repository, and set ZAKLIMOT_DIR to the folder kit.
ZAKLIMOT_DIR begins with a slash.";

/// The variables that the build asks for, beside those of the compiler.
const ASKED: [&str; 4] =
    ["ZAKLIMOT_DIR", "ZAKLIMOT_SHARED", "ZAKLIMOT_PORTABLE", "PKG_CONFIG_PATH"];
/// Of which kind a library is, where nothing tells.
const UNKNOWN: &str = "unknown";

/// Where the library and its font lie, of which kind it is, proved, portable or unknown, and
/// whether this build has made it.
struct Found {
    libraries: PathBuf,
    fonts: PathBuf,
    kind: String,
    is_made: bool,
}

/// Ends the build with a reason, as cargo shows it.
fn fail(reason: &str) -> ! {
    eprintln!("{reason}.\n{HOW}");
    std::process::exit(1);
}

/// What the folder has that `ZAKLIMOT_DIR` names.
fn in_folder(folder: &Path) -> Found {
    // Cargo builds each crate in its own folder, so a path from here on would name another one.
    if folder.is_relative() {
        fail(&format!("ZAKLIMOT_DIR is {}, and a path is to begin with a slash", folder.display()));
    }
    let libraries = folder.join("lib");
    if !has_library(&libraries) {
        fail(&format!(
            "ZAKLIMOT_DIR is {}, and there is no lib/libzaklimot.a or .so",
            folder.display()
        ));
    }
    let packages = libraries.join("pkgconfig");
    let text = std::fs::read_to_string(packages.join("zaklimot.pc")).unwrap_or_default();
    let kind = kind_in(&text, &packages);
    Found { libraries, fonts: folder.join("share/zaklimot/zaklimot.fnt"), kind, is_made: false }
}

fn has_library(folder: &Path) -> bool {
    ["libzaklimot.a", "libzaklimot.so"].iter().any(|name| folder.join(name).is_file())
}

/// The value of a variable of a file for `pkg-config`, with the variables before it in its place.
fn variable(text: &str, folder: &Path, name: &str) -> Option<String> {
    let mut known = vec![("pcfiledir".to_string(), folder.display().to_string())];
    for line in text.lines() {
        let (key, value) = match line.split_once('=') {
            Some(parts) => parts,
            None => continue,
        };
        let mut value = value.trim().to_string();
        for (word, meaning) in &known {
            value = value.replace(&format!("${{{word}}}"), meaning);
        }
        known.push((key.trim().to_string(), value));
    }
    known.into_iter().rev().find(|(key, _)| key == name).map(|(_, value)| value)
}

/// Of which kind a library is, as the file for `pkg-config` beside it tells.
fn kind_in(text: &str, folder: &Path) -> String {
    let told = variable(text, folder, "kind").unwrap_or_default();
    let known = ["proved", "portable"].into_iter().find(|kind| *kind == told);
    known.unwrap_or(UNKNOWN).to_string()
}

/// Where files for `pkg-config` lie that a package installs.
fn usual() -> impl Iterator<Item = PathBuf> {
    let machine = env::var("CARGO_CFG_TARGET_ARCH").unwrap_or_else(|_| env::consts::ARCH.into());
    let folders = ["lib".into(), format!("lib/{machine}-linux-gnu"), "share".into()];
    let below = |prefix| folders.clone().map(|name| Path::new(prefix).join(name).join("pkgconfig"));
    [below("/usr/local"), below("/usr")].into_iter().flatten()
}

/// What the first file for `pkg-config` says that is there.
fn in_packages() -> Option<Found> {
    let named = env::var_os("PKG_CONFIG_PATH").unwrap_or_default();
    let folders = env::split_paths(&named).chain(usual());
    for folder in folders.filter(|folder| !folder.as_os_str().is_empty()) {
        let text = match std::fs::read_to_string(folder.join("zaklimot.pc")) {
            Ok(text) => text,
            Err(_) => continue,
        };
        let libraries = PathBuf::from(variable(&text, &folder, "libdir")?);
        let fonts = PathBuf::from(variable(&text, &folder, "fonts")?);
        let found = Found { kind: kind_in(&text, &folder), fonts, libraries, is_made: false };
        return has_library(&found.libraries).then_some(found);
    }
    None
}

/// A variable that cargo sets for each build.
fn of_cargo(name: &str) -> String {
    env::var(name).unwrap_or_else(|_| fail(&format!("cargo doesn't tell {name}")))
}

/// A file that the library is made of, in this crate.
fn part(name: &str) -> PathBuf {
    let path = Path::new(&of_cargo("CARGO_MANIFEST_DIR")).join("portable").join(name);
    if !path.is_file() {
        fail(&format!("there is no library libzaklimot, and no {} to compile", path.display()));
    }
    path
}

/// The value of a variable for the target: `CC_aarch64-unknown-linux-gnu`, the same with `_` for
/// each `-`, or `CC`.
fn for_target(name: &str) -> Option<String> {
    let target = of_cargo("TARGET");
    let by_target = [target.clone(), target.replace('-', "_")].map(|word| format!("{name}_{word}"));
    by_target.into_iter().chain([name.to_string()]).find_map(|name| {
        println!("cargo:rerun-if-env-changed={name}");
        env::var(name).ok().filter(|value| !value.trim().is_empty())
    })
}

/// The words of a variable, or the one path that it is.
fn words(value: &str) -> Vec<String> {
    if Path::new(value).is_file() {
        return vec![value.to_string()];
    }
    value.split_whitespace().map(String::from).collect()
}

/// How the names of the programs begin that make files for a target, as Debian names them.
fn prefix(target: &str) -> String {
    let parts: Vec<&str> = target.split('-').collect();
    let machine = match parts[0] {
        name if name.starts_with("armv7") => "arm",
        name if name.starts_with("riscv64") => "riscv64",
        name => name,
    };
    match &parts[1..] {
        ["pc", "windows", "gnu"] => format!("{machine}-w64-mingw32-"),
        [_, rest @ ..] => format!("{machine}-{}-", rest.join("-")),
        [] => String::new(),
    }
}

/// The C compiler and `ar` for the target: those that are named, or the usual ones.
fn programs() -> (Vec<String>, Vec<String>) {
    let (target, host) = (of_cargo("TARGET"), of_cargo("HOST"));
    let is_own = target == host || target.contains("-apple-") && host.contains("-apple-");
    let before = if is_own { String::new() } else { prefix(&target) };
    let usual = if is_own { "cc".into() } else { format!("{before}gcc") };
    let mut compiler = for_target("CC").map_or_else(|| vec![usual], |value| words(&value));
    if target != host && is_own {
        let machine = if target.starts_with("aarch64") { "arm64" } else { "x86_64" };
        compiler.extend(["-arch".into(), machine.into()]);
    }
    let archiver =
        for_target("AR").map_or_else(|| vec![format!("{before}ar")], |value| words(&value));
    (compiler, archiver)
}

/// Runs a program, and ends the build where it doesn't do its work.
fn run(words: &[String], more: &[&str]) {
    let done = Command::new(&words[0]).args(&words[1..]).args(more).status();
    match done {
        Ok(status) if status.success() => (),
        Ok(status) => fail(&format!("{} ended with {status}, and compiles no library", words[0])),
        Err(error) => fail(&format!(
            "there is no library libzaklimot, and {} can't be run: {error}",
            words[0]
        )),
    }
}

/// The library, compiled of the crate's own C file.
fn compiled() -> Found {
    let (source, header, fonts) = (part("zaklimot.c"), part("zaklimot.h"), part("zaklimot.fnt"));
    for path in [&source, &header] {
        println!("cargo:rerun-if-changed={}", path.display());
    }
    let libraries = PathBuf::from(of_cargo("OUT_DIR"));
    let is_msvc = of_cargo("TARGET").ends_with("-msvc");
    let library = libraries.join(if is_msvc { "zaklimot.lib" } else { "libzaklimot.a" });
    let object = libraries.join("zaklimot.o");
    let (mut compiler, archiver) = programs();
    let include = header.parent().unwrap_or(&libraries).display().to_string();
    compiler.extend(["-std=c99", "-O2", "-I", &include].map(String::from));
    if !of_cargo("TARGET").contains("-windows-") {
        compiler.push("-fPIC".into());
    }
    compiler.extend(for_target("CFLAGS").iter().flat_map(|value| words(value)));
    let places = [&source, &object, &library].map(|path| path.display().to_string());
    run(&compiler, &["-c", &places[0], "-o", &places[1]]);
    // What an archive has already, it keeps.
    let _ = std::fs::remove_file(&library);
    run(&archiver, &["crs", &places[2], &places[1]]);
    Found { libraries, fonts, kind: "portable".into(), is_made: true }
}

/// The library as the environment asks for it.
fn found() -> Found {
    let is_portable = env::var("ZAKLIMOT_PORTABLE").unwrap_or_default();
    if !["", "0", "1"].contains(&is_portable.as_str()) {
        fail(&format!("ZAKLIMOT_PORTABLE is {is_portable}, and it is to be 0 or 1"));
    }
    match env::var_os("ZAKLIMOT_DIR") {
        _ if is_portable == "1" => compiled(),
        Some(folder) if !folder.is_empty() => in_folder(Path::new(&folder)),
        _ => in_packages().unwrap_or_else(|| match is_portable.as_str() {
            "0" => fail("there is no library libzaklimot"),
            _ => compiled(),
        }),
    }
}

fn main() {
    for name in ASKED {
        println!("cargo:rerun-if-env-changed={name}");
    }
    // The pages of docs.rs need no library.
    if env::var_os("DOCS_RS").is_some() {
        return;
    }
    let found = found();
    let has_static = found.libraries.join("libzaklimot.a").is_file();
    let is_static = found.is_made || has_static && env::var_os("ZAKLIMOT_SHARED").is_none();
    let kind = if is_static { "static" } else { "dylib" };
    println!("cargo:rustc-link-search=native={}", found.libraries.display());
    println!("cargo:rustc-link-lib={kind}=zaklimot");
    println!("cargo:rustc-env=ZAKLIMOT_KIND={}", found.kind);
    if !found.is_made {
        println!("cargo:rerun-if-changed={}", found.libraries.display());
    }
    // For the build of crates that name this one: DEP_ZAKLIMOT_FONTS and DEP_ZAKLIMOT_HEADER.
    println!("cargo:fonts={}", found.fonts.display());
    let own = PathBuf::from(of_cargo("CARGO_MANIFEST_DIR"));
    println!("cargo:header={}", own.join("portable").join("zaklimot.h").display());
}
