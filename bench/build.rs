//! Compiles baseline.c by gcc at -O3 and links it.

use std::process::Command;

fn main() {
    let out = std::env::var("OUT_DIR").expect("cargo sets OUT_DIR");
    let run = |program: &str, arguments: &[&str]| {
        let status = Command::new(program).args(arguments).status();
        assert!(status.is_ok_and(|status| status.success()), "{program} {arguments:?} failed");
    };
    let (object, archive) = (format!("{out}/baseline.o"), format!("{out}/libbaseline.a"));
    run("gcc", &["-std=c11", "-O3", "-fPIC", "-Wall", "-Wextra", "-c", "baseline.c", "-o", &object]);
    run("ar", &["rcs", &archive, &object]);
    println!("cargo:rustc-link-search=native={out}");
    println!("cargo:rustc-link-lib=static=baseline");
    println!("cargo:rerun-if-changed=baseline.c");
}
