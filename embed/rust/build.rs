//! Tells cargo where the proved archive is: `$THOLUNGDEK_LIB`, or the one in the repository's target.

use std::env;
use std::path::{Path, PathBuf};
use std::process::ExitCode;

const BUILT: &str = "../../target/staticlib/libexports.a";

fn archive() -> Result<PathBuf, String> {
    let named = env::var_os("THOLUNGDEK_LIB").map(PathBuf::from);
    let path = named.unwrap_or_else(|| Path::new(env!("CARGO_MANIFEST_DIR")).join(BUILT));
    path.canonicalize().map_err(|why| {
        let path = path.display();
        format!("{path}: {why}; run `tools/build archive`, or name an archive in THOLUNGDEK_LIB")
    })
}

fn main() -> ExitCode {
    println!("cargo:rerun-if-env-changed=THOLUNGDEK_LIB");
    let archive = match archive() {
        Ok(archive) => archive,
        Err(why) => {
            eprintln!("{why}");
            return ExitCode::FAILURE;
        }
    };
    let (Some(folder), Some(file)) = (archive.parent(), archive.file_name()) else {
        eprintln!("{}: no file", archive.display());
        return ExitCode::FAILURE;
    };
    println!("cargo:rerun-if-changed={}", archive.display());
    println!("cargo:rustc-link-search=native={}", folder.display());
    println!(
        "cargo:rustc-link-lib=static:+verbatim={}",
        file.to_string_lossy()
    );
    ExitCode::SUCCESS
}
