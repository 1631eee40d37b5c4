//! A million calls leave memory as it was. It runs without the harness, which has threads.

use mezdruk::{Document, Options};

const TEXT: &str = r#"{"a": [1, -0, 1e400, {"b": null}], "b": "\n", "": true}"#;

/// Makes calls of each kind: those that succeed, and those that fail.
fn calls(count: usize) {
    let options = Options::new();
    for i in 0..count / 12 {
        if i % 1_000 == 0 {
            assert!(mezdruk::lines(TEXT, r#"[[["b"], "text"]]"#, "[]").is_ok());
            assert!(mezdruk::lines(TEXT, "[]", "[]").is_err());
        }
        assert!(mezdruk::diff(TEXT, r#"{"a": [1]}"#).is_ok());
        assert!(mezdruk::merge_diff(TEXT, r#"{"c": null}"#).is_err());
        assert!(mezdruk::check(TEXT).is_ok());
        assert!(mezdruk::check(&TEXT[1..]).is_err());
        assert!(mezdruk::edit(TEXT, r#"[["set", ["a", 0], {"x": [1.50]}]]"#).is_ok());
        assert!(mezdruk::edit(TEXT, r#"[["set", ["c", 0], 1]]"#).is_err());
        assert!(mezdruk::patch(TEXT, r#"[{"op": "remove", "path": "/a"}]"#).is_ok());
        assert!(mezdruk::merge_patch(TEXT, r#"{"a": {"z": [1.50]}}"#).is_ok());
        assert!(mezdruk::get(TEXT, "/a/3").is_ok());
        assert!(mezdruk::get(TEXT, "/c").is_err());
        assert!(options.parse(&TEXT[1..]).is_err());
        assert_eq!(texts(&Document::parse(TEXT).unwrap()), 15);
    }
}

/// Returns how many bytes the names, the strings and the literals of the document have.
fn texts(document: &Document) -> usize {
    let root = document.root();
    let names: usize = root.members().map(|(name, value)| name.len() + value.len()).sum();
    let literals = root.get("a").unwrap().elements().filter_map(|it| it.literal());
    let string = root.get("b").and_then(|it| it.as_str()).unwrap();
    names + literals.map(|it| it.len()).sum::<usize>() + string.len()
}

#[cfg(all(target_os = "linux", target_env = "gnu"))]
fn bytes_in_use() -> usize {
    #[repr(C)]
    struct Counts {
        before: [usize; 7],
        in_use: usize,
        after: [usize; 2],
    }
    extern "C" {
        fn mallinfo2() -> Counts;
    }
    // SAFETY: glibc 2.33 and later have this call, which returns ten numbers.
    unsafe { mallinfo2().in_use }
}

#[cfg(not(all(target_os = "linux", target_env = "gnu")))]
fn bytes_in_use() -> usize {
    0
}

fn main() {
    calls(1_000);
    let before = bytes_in_use();
    calls(1_000_000);
    let after = bytes_in_use();
    println!("{before} bytes in use before a million calls, {after} after");
    assert_eq!(before, after);
}
