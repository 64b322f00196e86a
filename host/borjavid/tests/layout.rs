//! A library with another layout is found out before anything is lent to it, and the sentence says so. Here it is one whose
//! other functions end the program at once.

use borjavid::{check_layout, WrongLayout, LAYOUT};
use std::path::{Path, PathBuf};
use std::process::{Command, Output};

const OTHER: &str = r#"
#include <stdlib.h>
unsigned borjavid_layout(void) { return 3; }
void borjavid_step(void) { abort(); }
void borjavid_find_id(void) { abort(); }
void borjavid_find_name(void) { abort(); }
void borjavid_set_row(void) { abort(); }
"#;

/// Runs a program in the folder, and it must do its work.
fn run(folder: &Path, program: &str, words: &[&str]) {
    let mut command = Command::new(program);
    let output = command.current_dir(folder).args(words).output();
    let output = output.unwrap_or_else(|fault| panic!("{program}: {fault}"));
    assert!(output.status.success(), "{command:?}: {output:?}");
}

/// A folder that has the other library, and the wrapper on it. rustc alone is quicker than a second cargo.
fn other_library() -> PathBuf {
    let folder = Path::new(env!("CARGO_TARGET_TMPDIR")).join("layout");
    std::fs::create_dir_all(&folder).expect("a folder");
    std::fs::write(folder.join("other.c"), OTHER).expect("a file");
    run(&folder, "cc", &["-c", "other.c"]);
    run(&folder, "ar", &["rcs", "libexported.a", "other.o"]);
    let source = concat!(env!("CARGO_MANIFEST_DIR"), "/src/lib.rs");
    let wrapper = [
        "--edition=2021",
        "--crate-type=rlib",
        "--crate-name=borjavid",
    ];
    let library = ["-L", ".", "-l", "static=exported"];
    run(
        &folder,
        "rustc",
        &[&wrapper[..], &library, &[source]].concat(),
    );
    folder
}

/// An example of this package on the library in the folder.
fn example(name: &str, folder: &Path) -> Output {
    let source = format!("{}/examples/{name}.rs", env!("CARGO_MANIFEST_DIR"));
    let words = [
        "--edition=2021",
        "--extern",
        "borjavid=libborjavid.rlib",
        &source,
    ];
    run(folder, "rustc", &words);
    Command::new(folder.join(name)).output().expect("it starts")
}

#[test]
fn the_linked_library_has_this_layout() {
    assert_eq!((check_layout(), LAYOUT), (Ok(()), 2));
}

/// What a `#define` of the header says.
fn defined(name: &str) -> String {
    let header = include_str!("../include/borjavid.h");
    let start = format!("#define {name} ");
    let said = header.lines().find_map(|line| line.strip_prefix(&start));
    said.expect(name).trim_matches('"').to_string()
}

#[test]
fn the_header_says_the_same() {
    assert_eq!(defined("BORJAVID_LAYOUT"), LAYOUT.to_string());
    assert_eq!(defined("BORJAVID_VERSION"), env!("CARGO_PKG_VERSION"));
}

#[test]
fn a_library_with_another_layout_is_refused() {
    let folder = other_library();
    let sentence = WrongLayout { found: 3 }.to_string();
    assert!(
        sentence.contains("has memory layout 3, this package layout 2"),
        "{sentence}"
    );
    // by the memory that is made, and by who asks
    for (name, status) in [("alarm", 101), ("lent", 1)] {
        let output = example(name, &folder);
        let said = String::from_utf8_lossy(&output.stderr);
        assert!(said.contains(&sentence), "{name}: {said}");
        assert_eq!(output.status.code(), Some(status), "{name}: {said}");
        assert!(output.stdout.is_empty(), "{name}");
    }
}
