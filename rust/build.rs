//! Tests the target, and finds libpgrxsc.a: in the folder that PGRXSC_LIB names, else where the
//! repository puts it.

use std::env;
use std::process::exit;

fn main() {
    println!("cargo:rerun-if-changed=build.rs");
    println!("cargo:rerun-if-env-changed=PGRXSC_LIB");

    let target = ["ARCH", "OS", "POINTER_WIDTH"]
        .map(|name| env::var(format!("CARGO_CFG_TARGET_{name}")).unwrap_or_default());
    if target != ["x86_64", "linux", "64"] {
        let [arch, os, width] = target;
        eprintln!(
            "The crate pgrxsc can be built for x86-64 Linux only, since libpgrxsc.a is for it."
        );
        eprintln!("The target is {arch} {os} with pointers of {width} bits.");
        exit(1);
    }

    // Cargo runs this program in the folder of Cargo.toml, so a relative path counts from there.
    let folder = env::var_os("PGRXSC_LIB").unwrap_or_else(|| "../crates/pgrxsc/out".into());
    let folder = env::current_dir()
        .expect("the folder of Cargo.toml is there")
        .join(folder);
    let archive = folder.join("libpgrxsc.a");
    if !archive.is_file() {
        println!(
            "cargo:warning=There is no libpgrxsc.a in {}. `cargo check` and `cargo doc` work \
             without it. To link, run `rt lib` in the repository's folder crates/pgrxsc, which puts it \
             in crates/pgrxsc/out, or name its folder in the environment variable PGRXSC_LIB.",
            folder.display()
        );
    }

    println!("cargo:rerun-if-changed={}", archive.display());
    println!("cargo:rustc-link-search=native={}", folder.display());
    println!("cargo:rustc-link-lib=static=pgrxsc");
}
