//! Links the proved library, and the kit's C code that it stands on. `bench/run` names the folders of both.

fn main() {
    for (folder, library) in [("EXPORTS_DIR", "exports"), ("RATTLE_C_DIR", "libc_c"), ("RATTLE_C_DIR", "os_c")] {
        println!("cargo:rerun-if-env-changed={folder}");
        let path = std::env::var(folder).unwrap_or_else(|_| panic!("{folder} is not set: start bench/run"));
        println!("cargo:rustc-link-search=native={path}");
        println!("cargo:rustc-link-lib=static={library}");
        println!("cargo:rerun-if-changed={path}/lib{library}.a");
    }
}
