//! Links libsolumivaf.a, which hosts/build writes below the repository's target/. SOLUMIVAF_LIB names another folder. A test links
//! libbench_structs.a from there. Where the archive is missing a warning says so: checks and documentation need none, and what links fails.

use std::env;
use std::path::PathBuf;

fn main() {
    println!("cargo:rerun-if-env-changed=SOLUMIVAF_LIB");
    let folder = match env::var_os("SOLUMIVAF_LIB") {
        Some(folder) => PathBuf::from(folder),
        None => PathBuf::from(env::var_os("CARGO_MANIFEST_DIR").unwrap()).join("../../target/staticlib"),
    };
    for name in ["libsolumivaf.a", "libbench_structs.a"] {
        println!("cargo:rerun-if-changed={}", folder.join(name).display());
    }
    if !folder.join("libsolumivaf.a").is_file() {
        println!(
            "cargo:warning=libsolumivaf.a is not in {}: run hosts/build, which writes it, or set SOLUMIVAF_LIB to its folder",
            folder.display()
        );
    }
    println!("cargo:rustc-link-search=native={}", folder.display());
    println!("cargo:rustc-link-lib=static=solumivaf");
}
