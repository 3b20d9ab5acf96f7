//! Finds the proved library, which `rt` builds and cargo does not.
use std::{
    env,
    path::{absolute, Path, PathBuf},
};

fn main() {
    println!("cargo::rerun-if-changed=build.rs");
    println!("cargo::rerun-if-env-changed=VEGASHOL_LIBRARY");
    let named = env::var_os("VEGASHOL_LIBRARY").filter(|folder| !folder.is_empty()).map(PathBuf::from);
    let folder = match &named {
        // Others than this program look into it, from other folders.
        Some(folder) => absolute(folder).expect("a folder has a name"),
        None => Path::new(&env::var_os("CARGO_MANIFEST_DIR").expect("cargo sets it"))
            .join("../../crates/console/out"),
    };
    let library = folder.join("libconsole.a");
    println!("cargo::rerun-if-changed={}", library.display());
    if !library.is_file() {
        match named {
            Some(_) => println!(
                "cargo::error=VEGASHOL_LIBRARY names no folder with the proved library: there is no {}",
                library.display()
            ),
            None => println!("cargo::error=the proved library is not built: run `rt lib` in the folder crates/console of the repository, then this again"),
        }
        return;
    }
    println!("cargo::rustc-env=VEGASHOL_FOLDER={}", folder.display());
    println!("cargo::rustc-link-search=native={}", folder.display());
    println!("cargo::rustc-link-lib=static:-bundle=console");
}
