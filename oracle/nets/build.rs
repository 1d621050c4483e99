//! Links the port: PORT_OBJECT names its object file. oracle/net makes it.

fn main() {
    println!("cargo:rerun-if-env-changed=PORT_OBJECT");
    let object = std::env::var("PORT_OBJECT").expect("run oracle/net: it builds the port and names its object file");
    println!("cargo:rerun-if-changed={object}");
    println!("cargo:rustc-link-arg-bins={object}");
}
