//! The crate's words where there is no library, and the examples of its types.

use std::env;
use std::fs;
use std::path::Path;
use std::process::Command;

/// The names that the crate gives to its users.
const TYPES: [&str; 18] = [
    "Desk",
    "EbpfVmNoData",
    "EbpfVmRaw",
    "Error",
    "Event",
    "Executed",
    "HandedJob",
    "Helper",
    "Helpers",
    "HostedTask",
    "Job",
    "Piece",
    "Program",
    "Question",
    "Report",
    "Sent",
    "Stepped",
    "Task",
];

#[test]
fn without_a_library_it_says_what_to_do() {
    let room = env::temp_dir().join(format!("telgovan-no-library-{}", std::process::id()));
    fs::create_dir_all(&room).expect("a folder");
    let told = Command::new(env!("CARGO"))
        .args(["check", "--offline", "--manifest-path"])
        .arg(Path::new(env!("CARGO_MANIFEST_DIR")).join("Cargo.toml"))
        .env("CARGO_TARGET_DIR", room.join("target"))
        .env("TELGOVAN_LIB", &room)
        .output()
        .expect("cargo runs");
    fs::remove_dir_all(&room).expect("it goes");
    let text = String::from_utf8_lossy(&told.stderr);
    assert!(!told.status.success(), "{text}");
    for word in [
        "libtelgovan.a",
        "TELGOVAN_LIB",
        "./try kept library",
        "bindings/build",
    ] {
        assert!(text.contains(word), "{text}");
    }
}

/// The lines of comment above the item that this line declares.
fn comment_above(lines: &[&str], place: usize) -> String {
    let above = lines[..place].iter().rev();
    let own = above.take_while(|it| it.starts_with("///") || it.starts_with("#["));
    own.copied().collect::<Vec<_>>().join("\n")
}

#[test]
fn each_public_type_has_an_example() {
    let sources = Path::new(env!("CARGO_MANIFEST_DIR")).join("src");
    let mut shown = Vec::new();
    for entry in fs::read_dir(sources).expect("the sources") {
        let text = fs::read_to_string(entry.expect("a file").path()).expect("a text");
        let lines: Vec<&str> = text.lines().collect();
        for (place, line) in lines.iter().enumerate() {
            let declared = ["struct ", "enum ", "type "].iter().find_map(|kind| {
                let name = line.strip_prefix("pub ")?.strip_prefix(kind)?;
                name.split(|it: char| !it.is_alphanumeric()).next()
            });
            if let Some(name) = declared {
                if comment_above(&lines, place).contains("/// ```\n") {
                    shown.push(name.to_string());
                }
            }
        }
    }
    for name in TYPES.iter().chain(&["World"]) {
        assert!(shown.iter().any(|it| it == name), "{name} has no example");
    }
}
