//! Finds `liblinenhatch.a`, which `tools/staticlib` proves and builds, and has it linked.

use std::env;
use std::path::{Path, PathBuf};
use std::process::exit;

const FILE: &str = "liblinenhatch.a";
const DIR: &str = "LINENHATCH_LIB_DIR";

fn main() {
    println!("cargo:rerun-if-changed=build.rs");
    println!("cargo:rerun-if-env-changed={DIR}");
    if env::var_os("CARGO_FEATURE_WALK").is_none() {
        return;
    }
    let dir = folder();
    let file = dir.join(FILE);
    println!("cargo:rerun-if-changed={}", file.display());
    if !file.is_file() {
        stop(&missing(&file));
    }
    let system = (variable("CARGO_CFG_TARGET_ARCH"), variable("CARGO_CFG_TARGET_OS"));
    if system != ("x86_64".into(), "linux".into()) {
        stop(&format!("{FILE} is built for x86-64 Linux, and this build is for {} {}.", system.0, system.1));
    }
    println!("cargo:rustc-link-search=native={}", dir.display());
    println!("cargo:rustc-link-lib=static=linenhatch");
}

fn folder() -> PathBuf {
    match env::var_os(DIR) {
        Some(dir) => PathBuf::from(dir),
        None => {
            let folder = Path::new(&variable("CARGO_MANIFEST_DIR")).join("../../target/staticlib");
            folder.canonicalize().unwrap_or(folder)
        }
    }
}

fn variable(name: &str) -> String {
    env::var(name).unwrap_or_default()
}

fn missing(file: &Path) -> String {
    format!(
        "The proved library is missing: {}\n\
         Build it with `tools/staticlib` at the root of the repository, or say where it is with {DIR}=FOLDER.\n\
         What needs no library (ids, refusals, the store writer): cargo test --offline --no-default-features",
        file.display()
    )
}

fn stop(message: &str) -> ! {
    eprintln!("{message}");
    exit(1)
}
