//! Links the static library in the folder that REGISTRY_FOLDER names: one that `tools/library` has made, or an archive. A
//! relative folder is looked for from where cargo was started, then from this crate. Without it, the crate takes the
//! archive in which it lies.

use std::env;
use std::path::PathBuf;
use std::process;

const LIBRARY: &str = "lib/libregistry.a";

/// The folders that may have the library, in the order in which they are asked.
fn candidates() -> Vec<PathBuf> {
    let own = PathBuf::from(env::var_os("CARGO_MANIFEST_DIR").expect("cargo says where the crate is"));
    let named = match env::var_os("REGISTRY_FOLDER") {
        Some(named) => named,
        None => return vec![own.join("../..")],
    };
    // (cargo runs this in the folder of the crate, and leaves PWD as the shell has set it)
    let from = [env::var_os("PWD").map(PathBuf::from), Some(own)];
    from.into_iter().flatten().map(|folder| folder.join(&named)).collect()
}

fn main() {
    println!("cargo:rerun-if-env-changed=REGISTRY_FOLDER");
    println!("cargo:rerun-if-env-changed=PWD");
    let folders = candidates();
    let found = folders.iter().find_map(|folder| folder.join(LIBRARY).canonicalize().ok());
    let library = found.unwrap_or_else(|| {
        eprintln!(
            "REGISTRY_FOLDER must name a folder that tools/library made, or an archive; these have no {LIBRARY}:"
        );
        folders.iter().for_each(|folder| eprintln!("  {}", folder.display()));
        process::exit(1);
    });
    println!("cargo:rerun-if-changed={}", library.display());
    println!("cargo:rustc-link-search=native={}", library.with_file_name("").display());
    println!("cargo:rustc-link-lib=static=registry");
}
