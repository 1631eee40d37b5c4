//! Texts checked, edited, patched and laid out.

use mezdruk::{ErrorCode, Indent, Options};

#[test]
fn a_text_of_each_kind_is_valid() {
    for text in ["null", "true", "-0", "1e400", "\"\"", "[]", "{}", " [1 , {\"a\":\n2}]\t"] {
        assert!(mezdruk::check(text).is_ok(), "{text}");
        assert!(mezdruk::check(text.as_bytes()).is_ok(), "{text}");
        assert!(mezdruk::check(String::from(text)).is_ok(), "{text}");
    }
}

/// The examples of RFC 6902, appendix A: the document, the patch and the result.
const PATCHES: &[(&str, &str, &str)] = &[
    (
        r#"{"foo":"bar"}"#,
        r#"[{"op":"add","path":"/baz","value":"qux"}]"#,
        r#"{"foo":"bar","baz":"qux"}"#,
    ),
    (
        r#"{"foo":["bar","baz"]}"#,
        r#"[{"op":"add","path":"/foo/1","value":"qux"}]"#,
        r#"{"foo":["bar","qux","baz"]}"#,
    ),
    (
        r#"{"baz":"qux","foo":"bar"}"#,
        r#"[{"op":"replace","path":"/baz","value":"boo"}]"#,
        r#"{"baz":"boo","foo":"bar"}"#,
    ),
    (
        r#"{"foo":{"bar":"baz","waldo":"fred"},"qux":{"corge":"grault"}}"#,
        r#"[{"op":"move","from":"/foo/waldo","path":"/qux/thud"}]"#,
        r#"{"foo":{"bar":"baz"},"qux":{"corge":"grault","thud":"fred"}}"#,
    ),
    (r#"{"/":9,"~1":10}"#, r#"[{"op":"test","path":"/~01","value":10}]"#, r#"{"/":9,"~1":10}"#),
    (
        r#"{"foo":["bar"]}"#,
        r#"[{"op":"add","path":"/foo/-","value":["abc","def"]}]"#,
        r#"{"foo":["bar",["abc","def"]]}"#,
    ),
];

#[test]
fn patches_of_the_rfc_apply() {
    for (text, patch, result) in PATCHES {
        assert_eq!(&mezdruk::patch(text, patch).unwrap(), result);
    }
}

/// The examples of RFC 7396, appendix A.
const MERGES: &[(&str, &str, &str)] = &[
    (r#"{"a":"b"}"#, r#"{"a":"c"}"#, r#"{"a":"c"}"#),
    (r#"{"a":"b"}"#, r#"{"b":"c"}"#, r#"{"a":"b","b":"c"}"#),
    (r#"{"a":"b","b":"c"}"#, r#"{"a":null}"#, r#"{"b":"c"}"#),
    (r#"{"a":{"b":"c"}}"#, r#"{"a":{"b":"d","c":null}}"#, r#"{"a":{"b":"d"}}"#),
    (r#"["a","b"]"#, r#"["c","d"]"#, r#"["c","d"]"#),
    (r#"{"a":"foo"}"#, "null", "null"),
    (r#"{"e":null}"#, r#"{"a":1}"#, r#"{"e":null,"a":1}"#),
    (r#"{}"#, r#"{"a":{"bb":{"ccc":null}}}"#, r#"{"a":{"bb":{}}}"#),
];

#[test]
fn merge_patches_of_the_rfc_apply() {
    for (text, patch, result) in MERGES {
        assert_eq!(&mezdruk::merge_patch(text, patch).unwrap(), result);
    }
}

#[test]
fn a_patch_between_texts_leads_from_one_to_the_other() {
    for (text, _, target) in PATCHES.iter().chain(MERGES) {
        let patch = mezdruk::diff(text, target).unwrap();
        assert_eq!(mezdruk::diff(mezdruk::patch(text, patch).unwrap(), target).unwrap(), "[]");
    }
    for (text, _, target) in MERGES {
        if let Ok(patch) = mezdruk::merge_diff(text, target) {
            let made = mezdruk::merge_patch(text, patch).unwrap();
            assert_eq!(mezdruk::diff(made, target).unwrap(), "[]");
        }
    }
    let laid_out = Options::new().indent(Indent::Spaces(1)).sort_keys(true);
    assert_eq!(
        laid_out.merge_diff("{}", r#"{"b":1,"a":2}"#).unwrap(),
        "{\n \"a\": 2,\n \"b\": 1\n}"
    );
    assert_eq!(laid_out.diff("1", "1").unwrap(), "[]");
}

#[test]
fn each_line_has_a_row_or_an_error() {
    let text = "{\"a\": 1}\n\n[\n{\"a\": \"x\"}";
    let lines = mezdruk::lines(text, r#"[[["a"],"int"],[["a"],"text"]]"#, "[]").unwrap();
    assert_eq!(lines.rows, "1\t-\n-\t\"x\"\n");
    assert_eq!(lines.errors, "3: EofWhileParsing at offset 1, line 1 column 2\n");
    let lines = mezdruk::lines("[1]\n{\"b\": 2}\n", r#"[[["b"],"json"]]"#, r#"["b"]"#).unwrap();
    assert_eq!((lines.rows.as_str(), lines.errors.as_str()), ("2\n", ""));
    let none = mezdruk::lines("", r#"[[[],"json"]]"#, "[]").unwrap();
    assert_eq!((none.rows.as_str(), none.errors.as_str()), ("", ""));
}

#[test]
fn edits_apply_in_turn() {
    let edits = r#"[["set", ["a"], 2], ["push", ["b"], {}], ["insert", [], "c", null]]"#;
    let text = r#"{"a": 1, "b": [true, 1.50]}"#;
    assert_eq!(mezdruk::edit(text, edits).unwrap(), r#"{"a":2,"b":[true,1.50,{}],"c":null}"#);
}

/// An indent, and the layout of `{"b": [], "a": [1.50]}`.
const LAYOUTS: &[(Indent, &str)] = &[
    (Indent::Compact, r#"{"b":[],"a":[1.50]}"#),
    (Indent::Spaces(0), "{\n\"b\": [],\n\"a\": [\n1.50\n]\n}"),
    (Indent::Spaces(1), "{\n \"b\": [],\n \"a\": [\n  1.50\n ]\n}"),
    (Indent::Tabs, "{\n\t\"b\": [],\n\t\"a\": [\n\t\t1.50\n\t]\n}"),
];

#[test]
fn a_result_has_the_layout_that_was_asked_for() {
    let text = r#"{"b": [], "a": [1.50]}"#;
    for &(indent, layout) in LAYOUTS {
        assert_eq!(Options::new().indent(indent).edit(text, "[]").unwrap(), layout);
        assert_eq!(Options::new().indent(indent).get(text, "").unwrap(), layout);
    }
    let eight = Options::new().indent(Indent::Spaces(8));
    assert_eq!(eight.edit("[1]", "[]").unwrap(), "[\n        1\n]");
    let sorted = Options::new().sort_keys(true);
    assert_eq!(sorted.edit(text, "[]").unwrap(), r#"{"a":[1.50],"b":[]}"#);
}

#[test]
fn levels_and_names_are_as_the_options_ask() {
    let (deep, deeper) = ("[".repeat(254) + &"]".repeat(254), "[".repeat(255) + &"]".repeat(255));
    assert!(mezdruk::check(&deep).is_ok());
    let error = mezdruk::check(&deeper).unwrap_err();
    assert_eq!((error.code(), error.offset()), (ErrorCode::RecursionLimitExceeded, Some(254)));
    assert!(Options::new().depth(255).check(&deeper).is_ok());
    assert!(Options::new().depth(0).check("1").is_ok());
    assert!(Options::new().depth(0).check("[]").is_err());
    let twice = r#"{"a": 1, "\u0061": 2}"#;
    assert!(mezdruk::check(twice).is_ok());
    let error = Options::new().unique_keys(true).parse(twice).unwrap_err();
    assert_eq!(error.code(), ErrorCode::DuplicateKey);
}

#[test]
fn options_are_values() {
    let options = Options::new().depth(3).unique_keys(true);
    assert_eq!(options, Options::default().unique_keys(true).depth(3));
    assert_ne!(options, Options::new());
}
