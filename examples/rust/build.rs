//! Says where the static library of a release is, beside this crate; in the repository, where the libraries are that
//! `rt lib` builds, and the kit's part that calls the C library's allocator.
use std::env;
use std::path::{Path, PathBuf};
use std::process::exit;

/// The folder of the static libraries, if they aren't where `rt lib` leaves them.
const LIBRARIES: &str = "NIVOLAKKU_LIBRARIES";
/// The folder of the Rattle kit, if no `rt` of it is in the `PATH`.
const KIT: &str = "RATTLE_KIT";

fn main() {
    println!("cargo::rerun-if-env-changed={LIBRARIES}");
    println!("cargo::rerun-if-env-changed={KIT}");
    let release = Path::new(env!("CARGO_MANIFEST_DIR")).join("../lib");
    if release.join("libnivolakku.a").is_file() {
        return link(&release, "nivolakku", "a release has it");
    }
    for name in ["picking_c", "script_c"] {
        let advice =
            format!("run rt lib in crates/{name}, or name the libraries' folder in {LIBRARIES}");
        link(&libraries(name), name, &advice);
    }
    link(
        &kit().join("c"),
        "libc_c",
        &format!("name the folder of the Rattle kit in {KIT}"),
    );
}

/// The folder of a static library of the repository's.
fn libraries(name: &str) -> PathBuf {
    match env::var_os(LIBRARIES) {
        Some(folder) => PathBuf::from(folder),
        None => Path::new(env!("CARGO_MANIFEST_DIR")).join(format!("../../crates/{name}/out")),
    }
}

/// The folder of the kit; an empty path if it isn't known.
fn kit() -> PathBuf {
    env::var_os(KIT)
        .map(PathBuf::from)
        .or_else(kit_in_path)
        .unwrap_or_default()
}

/// The folder above the first `rt` in the `PATH`.
fn kit_in_path() -> Option<PathBuf> {
    let path = env::var_os("PATH")?;
    let program = env::split_paths(&path)
        .map(|folder| folder.join("rt"))
        .find(|file| file.is_file())?;
    Some(
        program
            .canonicalize()
            .ok()?
            .parent()?
            .parent()?
            .to_path_buf(),
    )
}

/// Links a static library of this folder. If it isn't there, the build ends, and says what to do.
fn link(folder: &Path, name: &str, advice: &str) {
    let file = folder.join(format!("lib{name}.a"));
    if !file.is_file() {
        println!("cargo::error={} isn't there: {advice}", file.display());
        exit(1);
    }
    println!("cargo::rerun-if-changed={}", file.display());
    println!("cargo::rustc-link-search=native={}", folder.display());
    println!("cargo::rustc-link-lib=static={name}");
}
