//! The pages' examples in Rust: each block is compiled and run in a host of its own.

use std::env;
use std::fs;
use std::path::{Path, PathBuf};
use std::process::Command;

/// The pages, each with the text behind which its blocks are for this crate.
const PAGES: [(&str, &str); 3] = [
    ("README.md", "## In a host"),
    ("docs/embedding.md", "## In C, Rust and Python"),
    ("bindings/rust/README.md", "# telgovan for Rust"),
];

/// The names that the blocks count on. The program asks helper 64, and then 65, which `helpers`
/// lacks.
const AHEAD: &str = r#"
    let source = "ldxb r0, [r1+12]\nexit";
    let code = telgovan::assemble("ldxb r0, [r1+40]\nexit")?;
    let (mut packet, mut memory) = ([0; 64], [0; 8]);
    let mut later: Vec<(HostedTask, Question)> = Vec::new();
    let prog = &telgovan::assemble("mov64 r0, r2\nexit")?[..];
    let mem = &mut packet.clone();
    let mut helpers = Helpers::new();
    helpers.register(64, 1, |key, _, _, _, _| 10 * key)?;
    let mut known = Helpers::new();
    known.register(64, 1, |_, _, _, _, _| 0)?;
    known.register(65, 1, |_, _, _, _, _| 0)?;
    let asks = telgovan::assemble("mov64 r1, 7\ncall 64\nmov64 r1, r0\ncall 65\nexit")?;
    let program = Program::verify_with(0, &asks, &known)?;
    let look_up = |question: Question| question.arguments[0] + 1;
    let run = |program: Program| println!("{}", program.cost());
"#;

/// The blocks in Rust of a page behind a text.
fn blocks(page: &Path, behind: &str) -> Vec<String> {
    let text = fs::read_to_string(page).expect("a page");
    let (_, text) = text.split_once(behind).expect("the page has the text");
    let parts = text.split("```rust\n").skip(1);
    parts
        .map(|part| part.split("```").next().unwrap_or("").to_string())
        .collect()
}

/// A host whose functions are the blocks.
fn host(blocks: &[String]) -> String {
    let mut text = String::from("#![allow(unused)]\nuse telgovan::*;\n");
    text += "type Done = Result<(), Box<dyn std::error::Error>>;\n";
    let mut calls = String::new();
    for (number, block) in blocks.iter().enumerate() {
        text += &format!("fn block_{number}() -> Done {{\n{AHEAD}\n{block}\nOk(())\n}}\n");
        calls += &format!("block_{number}()?;\n");
    }
    text + &format!("fn main() -> Done {{\n{calls}Ok(())\n}}\n")
}

/// Writes a host that names this crate, and runs it.
fn run(room: &Path, text: &str) -> (bool, String) {
    let here = env!("CARGO_MANIFEST_DIR");
    let manifest = format!(
        "[package]\nname = \"host\"\nversion = \"0.1.0\"\nedition = \"2021\"\n\n\
         [dependencies]\ntelgovan = {{ path = \"{here}\" }}\n\n[workspace]\n"
    );
    fs::create_dir_all(room.join("src")).expect("a folder");
    fs::write(room.join("Cargo.toml"), manifest).expect("a manifest");
    fs::write(room.join("src/main.rs"), text).expect("a source");
    let told = Command::new(env!("CARGO"))
        .args(["run", "--offline", "--quiet", "--manifest-path"])
        .arg(room.join("Cargo.toml"))
        .env("CARGO_TARGET_DIR", room.join("target"))
        .output()
        .expect("cargo runs");
    let words = [told.stdout, told.stderr].concat();
    (
        told.status.success(),
        String::from_utf8_lossy(&words).into_owned(),
    )
}

#[test]
fn each_block_runs() {
    let top = PathBuf::from(env!("CARGO_MANIFEST_DIR")).join("../..");
    let all: Vec<String> = PAGES
        .iter()
        .flat_map(|(page, behind)| blocks(&top.join(page), behind))
        .collect();
    assert!(all.len() >= 6, "{}", all.len());
    let room = env::temp_dir().join(format!("telgovan-pages-{}", std::process::id()));
    let (is_well, told) = run(&room, &host(&all));
    fs::remove_dir_all(&room).expect("it goes");
    assert!(is_well, "{told}");
    assert!(told.contains("33 at 0\n"), "{told}"); // no need of 40 is enough for that code
}
