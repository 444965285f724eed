//! Finds the proved static library for the target, and checks it against this crate before it is linked.
//!
//! 1. `RECKONSTILE_LIB` names the library, or its folder.
//! 2. Else, in the repository, `tools/library` names it: it proves and makes what is missing or stale.
//! 3. Else, in a release, it is beside this crate, in `lib/TARGET`.
//!
//! Beside a library are the header and PROOF, which says what it was proved from. A library is rejected if its bytes are not those that PROOF names, if its
//! header or PROOF is of another revision of the interface than this crate, and in the repository if it was proved from other sources than those of `crates/`.
use std::fs;
use std::path::{Path, PathBuf};
use std::process::{exit, Command};

const NAME: &str = "libreckonstile.a";
/// The crate's face of the library, which has its revision.
const FACE: &str = include_str!("src/ffi.rs");
/// What the library is made of in the repository, and so what makes it stale.
const MADE_OF: [&str; 7] = ["crates", "crates.txt", "boards", "include", "VERSION", "tools/library", "tools/proving.py"];

fn stop(what: &str) -> ! {
    println!("cargo:warning=reckonstile: {what}");
    eprintln!("reckonstile: {what}");
    exit(1)
}

fn read(path: &Path) -> Vec<u8> {
    fs::read(path).unwrap_or_else(|why| stop(&format!("{} cannot be read: {why}", path.display())))
}

fn text(path: &Path) -> String {
    String::from_utf8_lossy(&read(path)).into_owned()
}

// ---- where the library is

/// The library that a path names: itself, or the one in it.
fn library(path: &Path) -> Option<PathBuf> {
    if path.is_file() {
        return Some(path.to_path_buf());
    }
    Some(path.join(NAME)).filter(|file| file.is_file())
}

/// The library for a target, as the repository makes it.
fn made(tool: &Path, target: &str) -> PathBuf {
    match Command::new("python3").arg(tool).args(["--quiet", target]).output() {
        Err(_) => stop("python3, which makes the library, is not on the PATH: install it, or set RECKONSTILE_LIB"),
        Ok(out) if !out.status.success() => stop(&format!(
            "{} (or set RECKONSTILE_LIB to a library for {target})",
            String::from_utf8_lossy(&out.stderr).trim().replace('\n', " / ")
        )),
        Ok(out) => library(Path::new(String::from_utf8_lossy(&out.stdout).trim()))
            .unwrap_or_else(|| stop(&format!("`tools/library {target}` ended well, but there is no {NAME} where it says"))),
    }
}

/// The library for a target among those beside this crate, by their PROOF.
fn beside(folder: &Path, target: &str) -> PathBuf {
    let mut there = Vec::new();
    let entries = fs::read_dir(folder).map(|all| all.flatten().map(|entry| entry.path()).collect::<Vec<_>>());
    for at in entries.unwrap_or_default() {
        let (Some(file), Ok(proof)) = (library(&at), fs::read_to_string(at.join("PROOF"))) else { continue };
        let names = value(&proof, "rust");
        if names.split(' ').any(|name| name == target) {
            return file;
        }
        there.push(format!("{} (Rust: {})", value(&proof, "target"), names.replace(' ', ", ")));
    }
    there.sort();
    stop(&format!(
        "there is no library for {target} in {}; there is {}. Put the folder share/reckonstile/rust/lib/* of that target's release there (docs/BOARDS.md has the \
         targets), or set RECKONSTILE_LIB to a library for {target}",
        folder.display(),
        if there.is_empty() { "none".to_string() } else { there.join("; ") }
    ))
}

// ---- whether it is the right one

/// What PROOF says under a word; empty if it has no such line.
fn value(proof: &str, word: &str) -> String {
    let line = proof.lines().find(|line| line.split(' ').next() == Some(word));
    line.map(|line| line[word.len()..].trim().to_string()).unwrap_or_default()
}

/// The number of eight hexadecimal digits after a mark in a text.
fn revision(text: &str, mark: &str) -> Option<u32> {
    let at = text.find(mark)? + mark.len();
    u32::from_str_radix(text.get(at..at + 8)?, 16).ok()
}

/// Stops unless a library is the one that PROOF names, of this crate's revision, and proved from the sources in `crates`, if they are given.
fn hold(file: &Path, crates: Option<&Path>) {
    let folder = file.parent().unwrap_or(Path::new("."));
    let (proof_at, header_at) = (folder.join("PROOF"), folder.join("reckonstile.h"));
    if !proof_at.is_file() {
        stop(&format!(
            "there is no PROOF beside {}: take the library together with the PROOF that was made with it",
            file.display()
        ));
    }
    let proof = text(&proof_at);
    println!("cargo:rerun-if-changed={}", proof_at.display());
    if value(&proof, "library") != format!("sha256 {}", sha256::hex(&read(file))) {
        stop(&format!(
            "{} is not the library that PROOF beside it names: one of them was changed; make or unpack both again",
            file.display()
        ));
    }
    let Some(ours) = revision(FACE, "\npub const REVISION: u32 = 0x") else {
        stop("src/ffi.rs has no line with REVISION; in the repository `tools/revision --write` writes it")
    };
    let mut theirs = vec![(proof_at, revision(&proof, "\ninterface   0x"))];
    if header_at.is_file() {
        println!("cargo:rerun-if-changed={}", header_at.display());
        theirs.push((header_at.clone(), revision(&text(&header_at), "\n#define RECKONSTILE_REVISION 0x")));
    }
    for (at, number) in theirs {
        if number != Some(ours) {
            stop(&format!(
                "{} is of revision {}, and this crate of {ours:#010X}: crate, header and library have to come from one release",
                at.display(),
                number.map_or("unknown".to_string(), |number| format!("{number:#010X}"))
            ));
        }
    }
    if let Some(root) = crates {
        let (was, now) = (value(&proof, "crates"), sources(root));
        if was.split(' ').nth(1) != Some(&now) {
            stop(&format!(
                "{} is stale: it was proved from other sources (PROOF: {was}) than {}/crates has (sha256 {now}); run `tools/library` with the target's name",
                file.display(),
                root.display()
            ));
        }
    }
}

/// The digest of crates/ and crates.txt, as `tools/library` writes it into PROOF: each file's digest and name, in order.
/// What `rt` keeps in a crate's `out/` is none of them.
fn sources(root: &Path) -> String {
    fn walk(folder: &Path, kept: usize, into: &mut Vec<PathBuf>) {
        for entry in fs::read_dir(folder).into_iter().flatten().flatten() {
            let path = entry.path();
            if path.is_dir() {
                if kept != 1 || path.file_name() != Some("out".as_ref()) {
                    walk(&path, kept.saturating_sub(1), into)
                }
            } else {
                into.push(path)
            }
        }
    }
    let mut paths = vec![root.join("crates.txt")];
    walk(&root.join("crates"), 2, &mut paths);
    let name = |path: &PathBuf| path.strip_prefix(root).unwrap_or(path).to_string_lossy().into_owned();
    let mut named: Vec<(String, PathBuf)> = paths.into_iter().map(|path| (name(&path), path)).collect();
    named.sort();
    sha256::hex(
        named.iter().map(|(name, path)| format!("{}  {name}\n", sha256::hex(&read(path)))).collect::<String>().as_bytes(),
    )
}

fn main() {
    println!("cargo:rerun-if-env-changed=RECKONSTILE_LIB");
    println!("cargo:rerun-if-env-changed=NETTLE_LIB");
    let variable = |name: &str| std::env::var(name).unwrap_or_default();
    let crate_ = PathBuf::from(variable("CARGO_MANIFEST_DIR"));
    let released = crate_.join("lib");
    let repository = crate_
        .ancestors()
        .find(|at| !released.is_dir() && at.join("tools/library").is_file() && at.join("crates.txt").is_file());
    if let Some(root) = repository {
        // Without these cargo would not run this again after a change, and would silently link a stale library.
        MADE_OF.iter().for_each(|name| println!("cargo:rerun-if-changed={}", root.join(name).display()));
    }
    let (found, crates) = match (std::env::var_os("RECKONSTILE_LIB"), repository) {
        (Some(named), _) => {
            let file = library(Path::new(&named)).unwrap_or_else(|| {
                stop(&format!("there is no library at {}, which RECKONSTILE_LIB names", Path::new(&named).display()))
            });
            (file, repository)
        }
        (None, Some(root)) => (made(&root.join("tools/library"), &variable("TARGET")), None), // made from the present sources
        (None, None) => (beside(&released, &variable("TARGET")), None),
    };
    // This file also builds the oracle, with libraries that are not proved.
    if variable("CARGO_PKG_NAME") == "reckonstile" {
        hold(&found, crates);
    }
    let file = found.file_name().and_then(|name| name.to_str()).unwrap_or_default();
    let Some(name) = file.strip_prefix("lib").and_then(|name| name.strip_suffix(".a")) else {
        stop(&format!("{} is not named lib*.a", found.display()))
    };
    println!("cargo:rerun-if-changed={}", found.display());
    println!("cargo:rustc-link-search=native={}", found.parent().unwrap_or(Path::new(".")).display());
    println!("cargo:rustc-link-lib=static={name}");
    if std::env::var_os("CARGO_FEATURE_NETTLE").is_some() {
        if let Some(folder) = std::env::var_os("NETTLE_LIB") {
            println!("cargo:rustc-link-search=native={}", Path::new(&folder).display());
        }
    }
}

/// SHA-256 (FIPS 180-4). Rust's own library has none, and this crate has no dependencies.
mod sha256 {
    use std::sync::OnceLock;

    static CONSTANTS: OnceLock<(Vec<u32>, Vec<u32>)> = OnceLock::new();

    /// The first 32 bits of the fractional parts of a root of the first primes: with the cube root the constants of the rounds, with the square root the start.
    fn fraction(root: fn(f64) -> f64, count: usize) -> Vec<u32> {
        let primes = (2u32..).filter(|n| (2..*n).all(|d| n % d != 0));
        primes.take(count).map(|prime| (root(f64::from(prime)).fract() * 4294967296.0) as u32).collect()
    }

    pub fn hex(data: &[u8]) -> String {
        let (rounds, start) = CONSTANTS.get_or_init(|| (fraction(f64::cbrt, 64), fraction(f64::sqrt, 8)));
        let mut state = start.clone();
        let mut padded = data.to_vec();
        padded.push(0x80);
        while padded.len() % 64 != 56 {
            padded.push(0);
        }
        padded.extend((data.len() as u64 * 8).to_be_bytes());
        for block in padded.chunks_exact(64) {
            let mut w = [0u32; 64];
            for (k, word) in block.chunks_exact(4).enumerate() {
                w[k] = u32::from_be_bytes([word[0], word[1], word[2], word[3]]);
            }
            for k in 16..64 {
                let (a, b) = (w[k - 15], w[k - 2]);
                let (a, b) =
                    (a.rotate_right(7) ^ a.rotate_right(18) ^ (a >> 3), b.rotate_right(17) ^ b.rotate_right(19) ^ (b >> 10));
                w[k] = w[k - 16].wrapping_add(a).wrapping_add(w[k - 7]).wrapping_add(b);
            }
            let mut v = [0u32; 8];
            v.copy_from_slice(&state);
            for k in 0..64 {
                let [a, b, c, d, e, f, g, h] = v;
                let one = e.rotate_right(6) ^ e.rotate_right(11) ^ e.rotate_right(25);
                let first = h.wrapping_add(one).wrapping_add((e & f) ^ (!e & g)).wrapping_add(rounds[k]).wrapping_add(w[k]);
                let two = a.rotate_right(2) ^ a.rotate_right(13) ^ a.rotate_right(22);
                let second = two.wrapping_add((a & b) ^ (a & c) ^ (b & c));
                v = [first.wrapping_add(second), a, b, c, d.wrapping_add(first), e, f, g];
            }
            state.iter_mut().zip(v).for_each(|(sum, part)| *sum = sum.wrapping_add(part));
        }
        state.iter().map(|word| format!("{word:08x}")).collect()
    }
}
