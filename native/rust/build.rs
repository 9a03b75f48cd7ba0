//! Links the archive that renders: the file that `CODESPAN_ARCHIVE` names, or the first that is
//! there of the one that `rt lib` makes in this repository, the repository's own, and the package's.

use std::env;
use std::path::{Path, PathBuf};

/// The folder in which `rt lib` makes an archive, from the folder of this crate.
const EXPORTS: &str = "../../crates/codespan_c";

/// The archives, from the folder of this crate, where `CODESPAN_ARCHIVE` is not set.
const ARCHIVES: [&str; 3] = [
    "../../crates/codespan_c/out/libcodespan_c.a",
    "../prebuilt/x86_64-linux/libcodespan_c.a",
    "prebuilt/x86_64-linux/libcodespan_c.a",
];

fn main() {
    println!("cargo:rerun-if-env-changed=CODESPAN_ARCHIVE");
    match check_target().and_then(|()| link(&archive()?)) {
        Ok(lines) => print!("{lines}"),
        Err(problem) => {
            eprintln!("codespan-reporting-proved: {problem}");
            std::process::exit(1);
        }
    }
}

/// Fails where the archive does not run on the target.
fn check_target() -> Result<(), String> {
    let [machine, system] = ["CARGO_CFG_TARGET_ARCH", "CARGO_CFG_TARGET_OS"]
        .map(|name| env::var(name).unwrap_or_default());
    if machine == "x86_64" && system == "linux" {
        return Ok(());
    }
    Err(format!(
        "the archive is for Linux on x86_64 alone, and the target is {system} on {machine}"
    ))
}

/// Returns the path of the archive, as it is named.
fn archive() -> Result<PathBuf, String> {
    let Some(named) = env::var_os("CODESPAN_ARCHIVE") else {
        return archive_beside();
    };
    let path = PathBuf::from(named);
    if path.is_relative() {
        return Err(format!("CODESPAN_ARCHIVE is {path:?}: no absolute path"));
    }
    Ok(path)
}

/// Returns the path of the first archive that is there. Once another one is made, cargo runs this
/// program again.
fn archive_beside() -> Result<PathBuf, String> {
    let here = Path::new(env!("CARGO_MANIFEST_DIR"));
    if here.join(EXPORTS).is_dir() {
        println!("cargo:rerun-if-changed={EXPORTS}");
    }
    (ARCHIVES.map(|path| here.join(path)).into_iter())
        .find(|path| path.is_file())
        .ok_or_else(|| {
            "no archive: make it by `rt lib` in crates/codespan_c, \
             or set CODESPAN_ARCHIVE to the absolute path of one"
                .to_owned()
        })
}

/// Returns the lines by which cargo links an archive `libNAME.a`, and watches it, also where a
/// symbolic link is changed.
fn link(named: &Path) -> Result<String, String> {
    let archive = (named.canonicalize())
        .map_err(|error| format!("no archive {}: {error}", named.display()))?;
    let folder = archive.parent().and_then(Path::to_str);
    let name = (archive.file_name().and_then(|name| name.to_str()))
        .and_then(|name| name.strip_prefix("lib")?.strip_suffix(".a"));
    let (Some(folder), Some(name)) = (folder, name) else {
        return Err(format!("{} is no path of a file lib*.a", archive.display()));
    };
    Ok(format!(
        "cargo:rerun-if-changed={}\n\
         cargo:rerun-if-changed={}\n\
         cargo:rustc-link-search=native={folder}\n\
         cargo:rustc-link-lib=static={name}\n",
        named.display(),
        archive.display()
    ))
}
