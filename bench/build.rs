//! Links the static library of the proved services, which `tools/staticlib` builds at the root of the project.

use std::path::{Path, PathBuf};
use std::process::Command;

const LIBRARY: &str = "target/staticlib/libnode.a";
/// Where each function of the library is to begin: at a multiple of so many bytes, a cache line.
const LINE: usize = 64;

fn main() {
    let manifest = std::env::var("CARGO_MANIFEST_DIR").expect("cargo gives the manifest's folder");
    let root = Path::new(&manifest)
        .parent()
        .expect("bench/ stands in the project");
    let library = root.join(LIBRARY);
    println!("cargo:rerun-if-changed={}", library.display());
    if !library.is_file() {
        eprintln!("{LIBRARY} is missing: run tools/staticlib first");
        std::process::exit(1);
    }
    let out = std::env::var("OUT_DIR").expect("cargo gives a folder for what is built");
    let folder = aligned(&library, Path::new(&out)).unwrap_or_else(|| {
        println!("cargo:warning=no objcopy: the library's functions are not aligned, and its times move with the linker");
        library.parent().expect("a folder").to_path_buf()
    });
    println!("cargo:rustc-link-search=native={}", folder.display());
    println!("cargo:rustc-link-lib=static=node");
    println!("cargo:rustc-env=RUSTC_VERSION={}", compiler());
}

/// The folder of a copy of the library whose functions begin at cache lines, where there is an objcopy to make it.
fn aligned(library: &Path, out: &Path) -> Option<PathBuf> {
    let copy = out.join(library.file_name()?);
    let said = Command::new("objcopy")
        .arg(format!("--set-section-alignment=.text.*={LINE}"))
        .args([library, &copy])
        .status();
    said.ok()?.success().then(|| out.to_path_buf())
}

/// The compiler's own name for itself, which the tables show.
fn compiler() -> String {
    let program = std::env::var("RUSTC").unwrap_or("rustc".to_string());
    let said = Command::new(program).arg("--version").output();
    let version = said.map(|output| String::from_utf8_lossy(&output.stdout).into_owned());
    version.unwrap_or_default().trim().to_string()
}
