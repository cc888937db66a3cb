//! Finds libdock.a: in the folder that SLIPQ_LIB_DIR names, by default the repository's target/staticlib. A target that it is not made for
//! is refused here, since the linker would not say why.
use std::env;
use std::path::{Path, PathBuf};

fn main() {
    println!("cargo::rerun-if-env-changed=SLIPQ_LIB_DIR");
    if !is_for_target() {
        println!(
            "cargo::error=libdock.a, which slipq links, is made for 64-bit Linux on x86-64 alone, and not for {}",
            env::var("TARGET").unwrap_or_default()
        );
        return;
    }
    let named = env::var_os("SLIPQ_LIB_DIR").filter(|folder| !folder.is_empty());
    let folder = named.map_or_else(
        || Path::new(env!("CARGO_MANIFEST_DIR")).join("../../target/staticlib"),
        PathBuf::from,
    );
    let library = folder.join("libdock.a");
    println!("cargo::rerun-if-changed={}", library.display());
    match folder.canonicalize() {
        Ok(folder) if folder.join("libdock.a").is_file() => {
            println!("cargo::rustc-link-search=native={}", folder.display());
            println!("cargo::rustc-link-lib=static=dock");
        }
        _ => println!(
            "cargo::error=there is no {}; make it by `rust/library` at the repository's root, or set SLIPQ_LIB_DIR to its folder",
            library.display()
        ),
    }
}

/// Whether the target is the one that the Rattle toolchain makes libraries for.
fn is_for_target() -> bool {
    let is = |name: &str, value: &str| env::var(name).is_ok_and(|found| found == value);
    is("CARGO_CFG_TARGET_OS", "linux")
        && is("CARGO_CFG_TARGET_ARCH", "x86_64")
        && is("CARGO_CFG_TARGET_POINTER_WIDTH", "64")
}
