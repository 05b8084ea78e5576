//! Before the crate is built: the static library is found, and the tables of words become Rust.

mod library;
mod words;

fn main() {
    println!("cargo:rerun-if-changed=build");
    library::link();
    words::write();
}

fn variable(name: &str) -> String {
    std::env::var(name).unwrap_or_else(|_| stop(&format!("cargo did not set {name}")))
}

fn stop(why: &str) -> ! {
    eprintln!("sporekettle: {why}");
    std::process::exit(1)
}
