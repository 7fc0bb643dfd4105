// Links the archive that `tools/archive` writes. SDHC_ARCHIVE names the folder that holds libslot.a, by its whole path, if it is
// not the repository's own target/staticlib.
use std::env;
use std::path::{Path, PathBuf};

fn main() {
    println!("cargo:rerun-if-env-changed=SDHC_ARCHIVE");
    let folder = match env::var_os("SDHC_ARCHIVE") {
        Some(named) => PathBuf::from(named),
        None => {
            Path::new(&env::var_os("CARGO_MANIFEST_DIR").expect("cargo names the package's folder"))
                .join("../../target/staticlib")
        }
    };
    let archive = folder.join("libslot.a");
    println!("cargo:rerun-if-changed={}", archive.display());
    if !archive.is_file() {
        println!(
            "cargo:warning={} is not there: run `tools/archive` first",
            archive.display()
        );
    }
    println!("cargo:rustc-link-search=native={}", folder.display());
    println!("cargo:rustc-link-lib=static=slot");
}
