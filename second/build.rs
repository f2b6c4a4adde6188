//! Links libkeyseal.a from the folder that KEYSEAL_LIB names, for the programs that stand both builds beside each other.

use std::env;

fn main() {
    println!("cargo:rerun-if-changed=build.rs");
    println!("cargo:rerun-if-env-changed=KEYSEAL_LIB");
    let features = env::var("CARGO_CFG_TARGET_FEATURE").unwrap_or_default();
    println!("cargo:rustc-env=SECOND_TARGET_FEATURES={features}");
    if env::var_os("CARGO_FEATURE_KIT").is_none() {
        return;
    }
    match env::var("KEYSEAL_LIB") {
        Ok(folder) => {
            println!("cargo:rerun-if-changed={folder}/libkeyseal.a");
            println!("cargo:rustc-link-search=native={folder}");
            println!("cargo:rustc-link-lib=static=keyseal");
        }
        Err(_) => println!("cargo:warning=KEYSEAL_LIB is not set: the programs can be checked, but not linked"),
    }
}
