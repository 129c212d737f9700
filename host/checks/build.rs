//! Writes the Rust fences of README and GUIDE as tests, for `tests/readme.rs`.

use std::path::Path;
use std::{env, fs};

#[allow(dead_code)]
#[path = "tests/fences/mod.rs"]
mod fences;

use fences::Fence;

const PAGES: [(&str, &str); 2] = [
    ("readme", "../../README.md"),
    ("guide", "../../docs/GUIDE.md"),
];

/// A fence is a program if it has a `main`, else what stands in a function whose
/// errors are any.
fn test_of(page: &str, fence: &Fence) -> String {
    let (line, text) = (fence.line, &fence.text);
    let name = format!("{page}_line_{line}");
    if text.contains("fn main()") {
        return format!(
            "mod {name} {{\n{text}\n#[test]\n\
             fn runs() -> impl std::process::Termination {{\nmain()\n}}\n}}\n"
        );
    }
    format!(
        "#[test]\nfn {name}() -> Result<(), Box<dyn std::error::Error>> {{\n{text}\nOk(())\n}}\n"
    )
}

/// The tests of a page's fences.
fn tests_of((name, path): (&str, &str)) -> Vec<String> {
    println!("cargo:rerun-if-changed={path}");
    let page = fs::read_to_string(path).expect(path);
    let (fences, _) = fences::parsed(&page);
    let rust = fences.iter().filter(|fence| fence.kind == "rust");
    rust.map(|fence| test_of(name, fence)).collect()
}

fn main() {
    println!("cargo:rerun-if-changed=build.rs");
    println!("cargo:rerun-if-changed=tests/fences/mod.rs");
    let tests: Vec<String> = PAGES.into_iter().flat_map(tests_of).collect();
    let count = tests.len();
    let text = format!("const RUST_FENCES: usize = {count};\n{}", tests.join("\n"));
    let folder = env::var_os("OUT_DIR").expect("a folder to write to");
    fs::write(Path::new(&folder).join("snippets.rs"), text).expect("room for it");
}
