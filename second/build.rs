//! Links the static archive of the first program where it is built, and says so by the cfg `archive`.
//! `THREEWAYS_ARCHIVE` names another file than the one that `rt lib --cpu=x86-64` makes in `crates/threeways_c`.

use std::path::{Path, PathBuf};

const BUILT: &str = "../crates/threeways_c/out/libthreeways_c.a";

fn main() {
    println!("cargo::rustc-check-cfg=cfg(archive)");
    println!("cargo::rerun-if-changed=build.rs");
    println!("cargo::rerun-if-env-changed=THREEWAYS_ARCHIVE");
    let named = std::env::var_os("THREEWAYS_ARCHIVE").map(PathBuf::from);
    let archive = named.as_deref().unwrap_or(Path::new(BUILT));
    println!("cargo::rerun-if-changed={}", archive.display());
    match archive.canonicalize() {
        Ok(archive) => link(&archive),
        Err(error) if named.is_some() => println!("cargo::warning=THREEWAYS_ARCHIVE {}: {error}", archive.display()),
        Err(_) => {}
    }
}

fn link(archive: &Path) {
    let (Some(folder), Some(name)) = (archive.parent(), archive.file_name()) else {
        return;
    };
    println!("cargo::rustc-link-search=native={}", folder.display());
    println!("cargo::rustc-link-lib=static:+verbatim={}", name.to_string_lossy());
    println!("cargo::rustc-cfg=archive");
}
