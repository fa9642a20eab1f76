// Where libbowujita.a is: BOWUJITA_LIB, or target/staticlib of the repository (`tools/archive`).
use std::path::Path;

fn main() {
    println!("cargo:rerun-if-env-changed=BOWUJITA_LIB");
    let here = std::env::var("CARGO_MANIFEST_DIR").unwrap();
    let dir = std::env::var("BOWUJITA_LIB").unwrap_or_else(|_| format!("{here}/../../target/staticlib"));
    let archive = Path::new(&dir).join("libbowujita.a");
    println!("cargo:rerun-if-changed={}", archive.display());
    println!("cargo:rustc-link-search=native={dir}");
    println!("cargo:rustc-link-lib=static=bowujita");
}
