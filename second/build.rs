//! Links the compiled services, `libsettle_c.a`, where SETTLE_LIB_DIR names the folder that has it, and then sets the cfg
//! `settle_lib`. Without it everything but the comparison with them is built. `rt lib` in `crates/settle_c_c` writes the library, as
//! `out/libsettle_c_c.a`.

fn main() {
    println!("cargo:rustc-check-cfg=cfg(settle_lib)");
    println!("cargo:rerun-if-env-changed=SETTLE_LIB_DIR");
    let Ok(folder) = std::env::var("SETTLE_LIB_DIR") else {
        return;
    };
    println!("cargo:rerun-if-changed={folder}/libsettle_c.a");
    println!("cargo:rustc-link-search=native={folder}");
    println!("cargo:rustc-cfg=settle_lib");
}
