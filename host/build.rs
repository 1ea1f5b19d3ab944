//! Finds the proved archive. MONITOR_LIB_DIR is the folder of libmonitor.a; without it, the folder that `tools/build`
//! writes to, or, since that archive is for x86-64 alone, the one that `tools/native target/native` writes to elsewhere. Where that folder has only a libmonitor.so (a stand-in, see stand-in.sh), the shared library is linked. Build scripts
//! of crates that depend on this one are told the folder as DEP_MONITOR_LIB_DIR.

use std::env;
use std::path::PathBuf;

fn main() {
    println!("cargo::rerun-if-env-changed=MONITOR_LIB_DIR");
    let here = PathBuf::from(env::var_os("CARGO_MANIFEST_DIR").expect("cargo sets it"));
    let x86_64 = env::var("CARGO_CFG_TARGET_ARCH").is_ok_and(|arch| arch == "x86_64");
    let made = here.join(if x86_64 { "../target/staticlib" } else { "../target/native" });
    let folder = env::var_os("MONITOR_LIB_DIR").map_or(made, PathBuf::from);
    let (archive, shared) = (folder.join("libmonitor.a"), folder.join("libmonitor.so"));
    println!("cargo::rerun-if-changed={}", archive.display());
    let kind = if archive.exists() {
        "static"
    } else if shared.exists() {
        "dylib"
    } else {
        println!("cargo::error=there is no libmonitor.a in {}", folder.display());
        let make = if x86_64 { "tools/build" } else { "tools/build && tools/native target/native" };
        println!("cargo::error=run `{make}` in the repository's root, or say in MONITOR_LIB_DIR where it is");
        return;
    };
    println!("cargo::rustc-link-search=native={}", folder.display());
    println!("cargo::rustc-link-lib={kind}=monitor");
    println!("cargo::rustc-env=MONITOR_LIB_DIR={}", folder.display());
    println!("cargo::metadata=LIB_DIR={}", folder.display());
}
