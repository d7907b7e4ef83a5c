// Finds the static library: the archive that PURSETHISTLE_LIB names, else the one that tools/build leaves in the repository.
use std::path::{Path, PathBuf};
use std::{env, fs, process};

fn archive() -> Result<PathBuf, String> {
    println!("cargo:rerun-if-env-changed=PURSETHISTLE_LIB");
    if let Some(named) = env::var_os("PURSETHISTLE_LIB") {
        let named = PathBuf::from(named);
        if named.is_absolute() && named.is_file() {
            return Ok(named);
        }
        return Err(format!("PURSETHISTLE_LIB has to be the whole path of the archive; {} is none", named.display()));
    }
    let root = Path::new(&env::var_os("CARGO_MANIFEST_DIR").unwrap()).join("../..");
    let built = root.join("target/staticlib/libexports.a");
    if built.is_file() {
        return Ok(built);
    }
    // A file that is not there counts as changed, so the next build looks again.
    println!("cargo:rerun-if-changed={}", built.display());
    Err("the static library is missing. Build it with `tools/build library` at the repository's root, which leaves \
         target/staticlib/libexports.a, or name another archive in PURSETHISTLE_LIB"
        .into())
}

fn main() {
    let archive = archive().unwrap_or_else(|reason| {
        eprintln!("pursethistle: {reason}");
        process::exit(1);
    });
    println!("cargo:rerun-if-changed={}", archive.display());
    // A copy under a fixed name, so that the archive named may have any.
    let out = PathBuf::from(env::var_os("OUT_DIR").unwrap());
    if let Err(error) = fs::copy(&archive, out.join("libexports.a")) {
        eprintln!("pursethistle: {} cannot be copied: {error}", archive.display());
        process::exit(1);
    }
    println!("cargo:rustc-link-search=native={}", out.display());
    println!("cargo:rustc-link-lib=static=exports");
}
