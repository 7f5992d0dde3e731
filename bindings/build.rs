//! Links the library that OKUBINRAFO_LIB names, libokubinrafo.a or libokubinrafo.so; without it the static library that
//! `tools/static-lib okubinrafo` writes.

use std::path::PathBuf;

fn main() {
    println!("cargo:rerun-if-env-changed=OKUBINRAFO_LIB");
    let written = concat!(env!("CARGO_MANIFEST_DIR"), "/../target/staticlib/libokubinrafo.a");
    let named = std::env::var_os("OKUBINRAFO_LIB").filter(|name| !name.is_empty());
    let library = named.map_or(PathBuf::from(written), PathBuf::from);
    let kind = match library.file_name().and_then(|name| name.to_str()) {
        Some("libokubinrafo.a") if library.is_file() => "static",
        Some("libokubinrafo.so") if library.is_file() => "dylib",
        _ => {
            eprintln!("{} is no libokubinrafo.a or libokubinrafo.so.", library.display());
            eprintln!("In the repository `tools/static-lib okubinrafo` (x86-64) builds target/staticlib/libokubinrafo.a,");
            eprintln!("`tools/native-lib okubinrafo libokubinrafo.so` a shared one; OKUBINRAFO_LIB names either.");
            std::process::exit(1);
        }
    };
    let folder = library.parent().expect("a file stands in a folder").display();
    println!("cargo:rerun-if-changed={}", library.display());
    println!("cargo:rustc-link-search=native={folder}");
    println!("cargo:rustc-link-lib={kind}=okubinrafo");
    if kind == "dylib" {
        println!("cargo:rustc-link-arg=-Wl,-rpath,{folder}");
    }
}
