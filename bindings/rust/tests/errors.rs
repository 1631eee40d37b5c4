//! Errors: their codes, their positions and their messages.

use mezdruk::ErrorCode::*;
use mezdruk::{Document, Error, ErrorCode, ErrorKind, Indent, Options};

/// A text that is not valid, the code, the offset, the line and the column.
const TEXTS: &[(&[u8], ErrorCode, usize, usize, usize)] = &[
    (b"", EofWhileParsing, 0, 1, 1),
    (b"[1", EofWhileParsing, 2, 1, 3),
    (b"[nulx]", InvalidLiteral, 4, 1, 5),
    (b"[01]", InvalidNumber, 2, 1, 3),
    (b"[1.]", InvalidNumber, 3, 1, 4),
    (b"{\"a\" 1}", ExpectedColon, 5, 1, 6),
    (b"[1,\r\n2 3]", ExpectedArrayCommaOrEnd, 7, 2, 3),
    (b"{\"a\":1 2}", ExpectedObjectCommaOrEnd, 7, 1, 8),
    (b"{a:1}", ExpectObjectKeyOrEnd, 1, 1, 2),
    (b"{\"a\":1,}", TrailingComma, 7, 1, 8),
    (b"{\"\xc3\xa9\": x}", InvalidJsonValue, 7, 1, 8),
    (b"\"a\tb\"", ControlCharacter, 2, 1, 3),
    (b"\"\\x\"", InvalidEscape, 2, 1, 3),
    (b"1\n2", TrailingCharacters, 2, 2, 1),
    (b"[\"a\xff\"]", InvalidUTF8, 3, 1, 4),
];

#[test]
fn a_text_that_is_not_valid_has_a_position() {
    for &(text, code, offset, line, column) in TEXTS {
        let shown = String::from_utf8_lossy(text);
        let parsed = Document::parse(text).map(drop);
        for result in [mezdruk::check(text), parsed, mezdruk::get(text, "").map(drop)] {
            let error = result.expect_err(&shown);
            assert_eq!((error.kind(), error.code()), (ErrorKind::Text, code), "{shown}");
            assert_eq!(error.offset(), Some(offset), "{shown}");
            assert_eq!((error.line(), error.column()), (Some(line), Some(column)), "{shown}");
            assert_eq!(error.item(), None, "{shown}");
        }
    }
}

/// A text that is not valid, the line that is shown, and the number of columns before the caret.
fn excerpts() -> Vec<(Vec<u8>, String, usize)> {
    let long = format!("[{}01{}]", "1,".repeat(100), ",1".repeat(100));
    let (start, end) = ("1,".repeat(100), ",1".repeat(100));
    vec![
        (b"[01]".to_vec(), "[01]".into(), 2),
        (b"[1,\r\n2 3] \n4".to_vec(), "2 3] ".into(), 2),
        (b"\"a\tb\"".to_vec(), "\"a b\"".into(), 2),
        ("{\"é\": x}".into(), "{\"é\": x}".into(), 6),
        (b"[\"a\xff\"]".to_vec(), "[\"a\u{fffd}\"]".into(), 3),
        (b"[1\n".to_vec(), "".into(), 0),
        (long.into(), format!("{}01{}", &start[start.len() - 37..], &end[..37]), 38),
        (format!("\"{}\t\"", "é".repeat(100)).into(), format!("{} \"", "é".repeat(37)), 37),
    ]
}

#[test]
fn the_caret_is_under_the_position() {
    for (text, line, before) in excerpts() {
        let error = mezdruk::check(&text).unwrap_err();
        let wanted = format!("{error}\n{line}\n{}^", " ".repeat(before));
        assert_eq!(format!("{error:#}"), wanted);
    }
}

#[test]
fn an_argument_that_cannot_be_read_is_shown() {
    let text = "[1, 2]";
    for error in [
        mezdruk::edit(text, "[\n01]").unwrap_err(),
        mezdruk::patch(text, "[\n01]").unwrap_err(),
        mezdruk::merge_patch(text, "[\n01]").unwrap_err(),
        mezdruk::diff(text, "[\n01]").unwrap_err(),
        mezdruk::merge_diff(text, "[\n01]").unwrap_err(),
    ] {
        assert_eq!((error.kind(), error.code()), (ErrorKind::Argument, InvalidNumber));
        assert_eq!((error.line(), error.column()), (Some(2), Some(2)));
        assert!(format!("{error:#}").ends_with("\n01]\n ^"), "{error:#}");
    }
}

#[test]
fn columns_that_are_none_are_an_argument_that_is_not_valid() {
    for (columns, has) in [("[]", "[]"), (r#"[[[], "texts"]]"#, "[]"), (r#"[[[], "int"]]"#, "[-1]")]
    {
        let error = mezdruk::lines("1", columns, has).unwrap_err();
        assert_eq!((error.kind(), error.code()), (ErrorKind::Argument, BadOptions));
    }
    let error = mezdruk::lines("1", b"\xff", "[]").unwrap_err();
    assert_eq!((error.kind(), error.code()), (ErrorKind::Argument, InvalidUTF8));
}

#[test]
fn a_target_that_no_merge_patch_makes_does_not_apply() {
    let error = mezdruk::merge_diff("{}", r#"{"a": null}"#).unwrap_err();
    assert_eq!((error.kind(), error.code()), (ErrorKind::Apply, NoMergePatch));
    assert_eq!((error.offset(), error.item()), (None, None));
    assert_eq!(error.to_string(), "no merge patch leads to the target (NoMergePatch)");
}

#[test]
fn what_does_not_apply_has_an_item() {
    let text = r#"{"a": [1]}"#;
    let rows = [
        (mezdruk::edit(text, r#"[["push", ["a"], 1], ["remove", [], "b"]]"#), NotFound, Some(1)),
        (mezdruk::edit(text, r#"[["push", [], 1]]"#), TypeUnmatched, Some(0)),
        (
            mezdruk::patch(text, r#"[{"op": "test", "path": "/a/0", "value": 2}]"#),
            TestFailed,
            Some(0),
        ),
        (mezdruk::patch(text, r#"[{"op": "remove", "path": "/b"}]"#), NotFound, Some(0)),
        (mezdruk::patch(text, "{}"), BadPatch, None),
        (mezdruk::get(text, "/b"), NotFound, None),
        (mezdruk::get(text, "b"), BadPointer, None),
    ];
    for (result, code, item) in rows {
        let error = result.unwrap_err();
        assert_eq!((error.kind(), error.code(), error.item()), (ErrorKind::Apply, code, item));
        assert_eq!((error.offset(), error.line(), error.column()), (None, None, None));
    }
}

#[test]
fn a_message_has_what_is_known() {
    let error = mezdruk::edit("[1]", r#"[["remove", [], 1]]"#).unwrap_err();
    assert_eq!(format!("{error:#}"), "a key or an index is not there (NotFound) in item 0");
    let error: Box<dyn std::error::Error + Send + Sync> = error.into();
    assert_eq!(error.to_string(), "a key or an index is not there (NotFound) in item 0");
    let error = mezdruk::get("[1]", "0").unwrap_err();
    assert_eq!(error.to_string(), "the text is not a JSON Pointer (BadPointer)");
}

#[test]
fn options_that_are_not_valid_are_refused() {
    for options in [
        Options::new().depth(1_025),
        Options::new().depth(u32::MAX),
        Options::new().indent(Indent::Spaces(9)),
        Options::new().indent(Indent::Spaces(255)),
    ] {
        let error = options.edit("[]", "[]").unwrap_err();
        assert_eq!((error.kind(), error.code()), (ErrorKind::Argument, BadOptions));
    }
}

#[test]
fn errors_and_options_go_to_other_threads() {
    fn goes<T: Send + Sync + 'static>() {}
    goes::<Error>();
    goes::<Options>();
    let error = std::thread::spawn(|| mezdruk::check("[").unwrap_err()).join().unwrap();
    assert_eq!(error.code(), EofWhileParsing);
}
