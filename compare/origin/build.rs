//! Points the modules below at the original sources: DEEPMIND_SRC, by default ../shared/docs/src from the repository's root.

use std::path::{Path, PathBuf};
use std::{env, fs, process};

fn main() {
    println!("cargo:rerun-if-env-changed=DEEPMIND_SRC");
    let here = PathBuf::from(env::var_os("CARGO_MANIFEST_DIR").unwrap_or_default());
    let root = env::var_os("DEEPMIND_SRC").map_or_else(|| here.join("../../../shared/docs/src"), PathBuf::from);
    let sources = root.join("deepmind-midi/src");
    let Ok(sources) = sources.canonicalize() else {
        eprintln!("the original sources are not at {}: set DEEPMIND_SRC", sources.display());
        process::exit(1);
    };
    let module = |name: &str, file: &str| {
        let path = sources.join(file);
        println!("cargo:rerun-if-changed={}", path.display());
        format!("#[path = {:?}]\npub mod {name};\n", path.display().to_string())
    };
    let text = format!(
        "{}{}pub mod sysex {{\n{}{}{}{}pub use command::Command;\npub use message::{{Frame, Interface, Message}};\n}}\n",
        module("ids", "ids.rs"),
        module("wire", "wire/mod.rs"),
        module("command", "sysex/command.rs"),
        module("inquiry", "sysex/inquiry.rs"),
        module("message", "sysex/message.rs"),
        module("packed", "sysex/packed.rs"),
    );
    let out = Path::new(&env::var_os("OUT_DIR").unwrap_or_default()).join("original.rs");
    if let Err(error) = fs::write(&out, text) {
        eprintln!("{}: {error}", out.display());
        process::exit(1);
    }
}
