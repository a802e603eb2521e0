//! Lays out the given Rust as modules of this crate: the files that the folder SPAR_SRC has under their own paths, unchanged, and
//! something in the place of those that they name and that are not needed. All goes to cargo's own folder.
use std::path::Path;
use std::{env, fs};

const MODULES: [&str; 7] = ["event", "grammar", "lexer", "marker", "parser", "syntax_kind", "token_set"];

const GIVEN: [&str; 9] = [
    "event.rs",
    "grammar/mod.rs",
    "grammar/modes.rs",
    "grammar/properties.rs",
    "lexer.rs",
    "marker.rs",
    "parser.rs",
    "syntax_kind.rs",
    "token_set.rs",
];

/// Siblings of the grammar's files that no property section needs; a last one, packages.rs, hands `property_section` out.
const EMPTY: [&str; 6] = ["annexes", "categories", "components", "connections", "features", "flows"];

/// Copies a file, which is read again when it changes.
fn copy(from: &Path, to: &Path) {
    println!("cargo:rerun-if-changed={}", from.display());
    let text = fs::read(from).unwrap_or_else(|e| panic!("{}: {e}", from.display()));
    write(to, &text);
}

fn write(to: &Path, text: &[u8]) {
    fs::write(to, text).unwrap_or_else(|e| panic!("{}: {e}", to.display()));
}

fn main() {
    println!("cargo:rerun-if-env-changed=SPAR_SRC");
    let sources = env::var("SPAR_SRC").expect("SPAR_SRC names the folder of the Rust's sources");
    let from = Path::new(&sources).join("crates/spar-parser/src");
    let to = Path::new(&env::var("OUT_DIR").expect("cargo sets it")).join("given");
    fs::create_dir_all(to.join("grammar")).expect("a folder");
    for file in GIVEN {
        copy(&from.join(file), &to.join(file));
    }
    for module in EMPTY {
        write(&to.join(format!("grammar/{module}.rs")), b"");
    }
    copy(Path::new("packages.rs"), &to.join("grammar/packages.rs"));
    let modules: String = MODULES.map(|module| format!("pub mod {module};\n")).concat();
    write(&to.join("modules.rs"), modules.as_bytes());
}
