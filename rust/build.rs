//! Finds the desk's archive: `libface.a` in the folder that RULEDESK_LIB names, or where `tools/archive` writes it.
use std::env;
use std::path::PathBuf;

fn main() {
    println!("cargo:rerun-if-env-changed=RULEDESK_LIB");
    let folder = match env::var_os("RULEDESK_LIB") {
        Some(folder) => PathBuf::from(folder),
        None => PathBuf::from(
            env::var_os("CARGO_MANIFEST_DIR").expect("cargo names the manifest's folder"),
        )
        .join("../target/staticlib"),
    };
    println!(
        "cargo:rerun-if-changed={}",
        folder.join("libface.a").display()
    );
    println!("cargo:rustc-link-search=native={}", folder.display());
    println!("cargo:rustc-link-lib=static=face");
}
