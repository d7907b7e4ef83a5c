// Lays out the Rust's files for the compiler. Each of the receiver's four modules becomes two includes: docs/src's file as it
// stands, and a file of src/look that adds functions to read its private fields. receiver/mod.rs is copied, because its `mod` lines
// look beside it, and the copy is compared with the file it came from.
use std::{env, fs, path::Path};

fn main() {
    let here = env::var("CARGO_MANIFEST_DIR").unwrap();
    let source = Path::new(&here).join("../docs/src/protocol/receiver").canonicalize().unwrap();
    let look = Path::new(&here).join("src/look");
    let out = Path::new(&env::var("OUT_DIR").unwrap()).join("receiver");
    fs::create_dir_all(&out).unwrap();
    for name in ["arq", "buffer", "history", "time"] {
        let file = format!("{name}.rs");
        let text = format!("include!({:?});\ninclude!({:?});\n", source.join(&file), look.join(&file));
        fs::write(out.join(&file), text).unwrap();
    }
    fs::copy(source.join("mod.rs"), out.join("mod.rs")).unwrap();
    assert_eq!(fs::read(source.join("mod.rs")).unwrap(), fs::read(out.join("mod.rs")).unwrap());
    println!("cargo:rerun-if-changed=../docs/src");
    println!("cargo:rerun-if-changed=src/look");
}
