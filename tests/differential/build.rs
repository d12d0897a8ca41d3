//! Links the library that is tested, from the directory named by BOARD_LIB.

fn main() {
    println!("cargo:rerun-if-env-changed=BOARD_LIB");
    let Ok(directory) = std::env::var("BOARD_LIB") else {
        println!("cargo:error=BOARD_LIB has to name the directory of libboard.a");
        return;
    };
    println!("cargo:rerun-if-changed={directory}/libboard.a");
    println!("cargo:rustc-link-search=native={directory}");
    println!("cargo:rustc-link-lib=static=board");
}
