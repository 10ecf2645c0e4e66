// Finds libbellgantlet.a where host/library puts it, or in the folder that BELLGANTLET_LIB names.
fn main() {
    let here = std::env::var("CARGO_MANIFEST_DIR").unwrap();
    let folder = std::env::var("BELLGANTLET_LIB").unwrap_or_else(|_| format!("{here}/../../target/staticlib"));
    let file = format!("{folder}/libbellgantlet.a");
    println!("cargo:rerun-if-env-changed=BELLGANTLET_LIB");
    println!("cargo:rerun-if-changed={file}");
    if !std::path::Path::new(&file).exists() {
        println!("cargo:warning=no {file}: run host/library, or name its folder in BELLGANTLET_LIB");
    }
    println!("cargo:rustc-env=BELLGANTLET_FILE={file}");
    println!("cargo:rustc-link-search=native={folder}");
    println!("cargo:rustc-link-lib=static=bellgantlet");
}
