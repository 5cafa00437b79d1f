//! Links the engine, `libhikebox.a`: from the folder that `HIKEBOX_LIB_DIR` names, or else the one of the target in
//! `lib/`. And tells the crate whether this compiler has `IntoFuture` (1.64 and later) and async closures (1.85 and
//! later), and whether the pages of the repository are there, whose programs are tested.

use std::env;
use std::path::{Path, PathBuf};
use std::process::{exit, Command};

/// The targets that `lib/` has an engine for, by processor, system and environment, each with its folder there. (Any
/// environment of Linux will do.)
const TARGETS: [(&str, &str, &str, &str); 5] = [
    ("x86_64", "linux", "", "x86_64"),
    ("aarch64", "linux", "", "aarch64"),
    ("x86_64", "macos", "", "x86_64-apple-darwin"),
    ("aarch64", "macos", "", "aarch64-apple-darwin"),
    ("x86_64", "windows", "gnu", "x86_64-pc-windows-gnu"),
];

fn main() {
    println!("cargo:rerun-if-env-changed=HIKEBOX_LIB_DIR");
    let named = env::var_os("HIKEBOX_LIB_DIR").map(PathBuf::from);
    // (a relative folder is one in the crate's, as the message says then)
    let folder = env::current_dir().unwrap_or_default().join(named.unwrap_or_else(folder_of_target));
    let library = folder.join("libhikebox.a");
    if !library.is_file() {
        refuse(&format!("the engine is missing: no {}", library.display()));
    }
    println!("cargo:rerun-if-changed={}", library.display());
    println!("cargo:rustc-link-search=native={}", folder.display());
    println!("cargo:rustc-link-lib=static=hikebox");

    let minor = compiler_minor().unwrap_or(0);
    if minor >= 80 {
        println!("cargo:rustc-check-cfg=cfg(hikebox_async_closures, hikebox_into_future, hikebox_pages)");
    }
    if minor >= 64 {
        println!("cargo:rustc-cfg=hikebox_into_future");
    }
    if minor >= 85 {
        println!("cargo:rustc-cfg=hikebox_async_closures");
    }
    if Path::new("src/../../docs/RUST.md").is_file() {
        println!("cargo:rustc-cfg=hikebox_pages");
    }
}

/// The folder of the engine for the target that is compiled for.
fn folder_of_target() -> PathBuf {
    let of_target = |name: &str| env::var(format!("CARGO_CFG_TARGET_{name}")).unwrap_or_default();
    let (processor, system, environment) = (of_target("ARCH"), of_target("OS"), of_target("ENV"));
    let is_ours = of_target("POINTER_WIDTH") == "64" && of_target("ENDIAN") == "little";
    let found = TARGETS.iter().find(|target| {
        is_ours && target.0 == processor && target.1 == system && (target.2.is_empty() || target.2 == environment)
    });
    let folder = found.map(|target| target.3).unwrap_or_else(|| {
        refuse(&format!(
            "expected 64-bit Linux or macOS on x86_64 or aarch64, or x86_64-pc-windows-gnu, got {}; for another target \
             set HIKEBOX_LIB_DIR to a folder with a libhikebox.a of your own",
            env::var("TARGET").unwrap_or_default()
        ))
    });
    PathBuf::from(env::var_os("CARGO_MANIFEST_DIR").unwrap_or_default()).join("lib").join(folder)
}

/// Ends the build with one sentence.
fn refuse(sentence: &str) -> ! {
    eprintln!("hikebox: {sentence}");
    exit(1)
}

/// 85 of `rustc 1.85.0 (..)`.
fn compiler_minor() -> Option<u32> {
    let said = Command::new(env::var_os("RUSTC")?).arg("--version").output().ok()?;
    let said = String::from_utf8(said.stdout).ok()?;
    said.split_whitespace().nth(1)?.split('.').nth(1)?.parse().ok()
}
