//! Links the archive of the library that CISTERNFOX_ARCHIVE names, by an absolute path: `cfg(linked)`. Where the
//! variable is not set, as on a machine that cannot link x86-64 code, the crate is built without.

fn main() {
    println!("cargo::rustc-check-cfg=cfg(linked)");
    println!("cargo::rerun-if-changed=build.rs");
    println!("cargo::rerun-if-env-changed=CISTERNFOX_ARCHIVE");
    if let Ok(archive) = std::env::var("CISTERNFOX_ARCHIVE") {
        println!("cargo::rerun-if-changed={archive}");
        println!("cargo::rustc-link-arg={archive}");
        println!("cargo::rustc-cfg=linked");
    }
}
