//! Documents and their nodes.

use mezdruk::{Document, Kind, Node};

fn parse(text: &str) -> Document {
    text.parse().unwrap()
}

#[test]
fn a_node_has_the_kind_of_its_value() {
    let document = parse(r#"[null, true, 1, "a", {}, []]"#);
    let kinds: Vec<Kind> = document.root().elements().map(Node::kind).collect();
    let wanted = [Kind::Null, Kind::Boolean, Kind::Number, Kind::String, Kind::Object, Kind::Array];
    assert_eq!(kinds, wanted);
    assert!(document.root().get(0).unwrap().is_null());
    for (index, node) in document.root().elements().enumerate() {
        assert_eq!(node.as_bool(), if index == 1 { Some(true) } else { None });
        assert_eq!(node.as_u64(), if index == 2 { Some(1) } else { None });
        assert_eq!(node.as_str(), if index == 3 { Some("a") } else { None });
        assert_eq!(node.as_f64().is_some(), index == 2);
        assert_eq!(node.literal().is_some(), index == 2);
        assert!(node.is_empty() && node.elements().next().is_none());
        assert!(node.members().next().is_none() && node.get("a").is_none());
    }
}

/// A literal of a number, and what it is as an `i64`, a `u64` and an `f64`.
type Number = (&'static str, Option<i64>, Option<u64>, Option<f64>);

const NUMBERS: &[Number] = &[
    ("0", Some(0), Some(0), Some(0.0)),
    ("-1", Some(-1), None, Some(-1.0)),
    ("9223372036854775807", Some(i64::MAX), Some(u64::MAX / 2), Some(9223372036854775808.0)),
    ("9223372036854775808", None, Some(1 << 63), Some(9223372036854775808.0)),
    ("-9223372036854775808", Some(i64::MIN), None, Some(-9223372036854775808.0)),
    ("-9223372036854775809", None, None, Some(-9223372036854775808.0)),
    ("18446744073709551615", None, Some(u64::MAX), Some(18446744073709551616.0)),
    ("18446744073709551616", None, None, Some(18446744073709551616.0)),
    ("9007199254740993", Some(9007199254740993), Some(9007199254740993), Some(9007199254740992.0)),
    ("-0", None, None, Some(-0.0)),
    ("1.0", None, None, Some(1.0)),
    ("1.50", None, None, Some(1.5)),
    ("1E+2", None, None, Some(100.0)),
    ("4.9e-324", None, None, Some(5e-324)),
    ("2.4e-324", None, None, Some(0.0)),
    ("1.7976931348623157e308", None, None, Some(f64::MAX)),
    ("1.7976931348623159e308", None, None, None),
    ("1e400", None, None, None),
    ("-1e400", None, None, None),
];

#[test]
fn a_number_keeps_its_literal() {
    for &(literal, signed, unsigned, double) in NUMBERS {
        let document = parse(literal);
        let number = document.root();
        assert_eq!(number.literal().unwrap(), literal);
        assert_eq!(number.to_string(), literal);
        assert_eq!(number.as_i64(), signed, "{literal}");
        assert_eq!(number.as_u64(), unsigned, "{literal}");
        assert_eq!(number.as_f64().map(f64::to_bits), double.map(f64::to_bits), "{literal}");
    }
}

#[test]
fn a_string_is_without_its_escapes() {
    let document = parse(r#"["", "\"\\\/\b\f\n\r\t", "\u00e9é\ud83d\ude04", "a\u0000b"]"#);
    let strings: Vec<&str> = document.root().elements().filter_map(Node::as_str).collect();
    assert_eq!(strings, ["", "\"\\/\u{8}\u{c}\n\r\t", "éé😄", "a\0b"]);
}

#[test]
fn what_is_lent_stays_while_the_document_is_read() {
    let long = "x".repeat(10_000);
    let document = parse(&format!(r#"{{"name": "Ada", "long": "{long}", "number": 1e2}}"#));
    let kept = document.root().members().next().unwrap();
    let name = kept.1.as_str().unwrap();
    let literal = document.root().get("number").unwrap().literal().unwrap();
    for _ in 0..100 {
        assert_eq!(document.root().get("long").unwrap().as_str(), Some(&*long));
        assert_eq!(document.to_string().len(), 10_037);
    }
    let moved = Box::new(document.root());
    assert_eq!((kept.0, name, &*literal, moved.len()), ("name", "Ada", "1e2", 3));
}

#[test]
fn elements_and_members_are_in_their_order() {
    let document = parse(r#"[[1, [2, {"a": [3]}], 4], {"b": {"c": [5]}, "a": 6, "b": 7}, [], 8]"#);
    let root = document.root();
    let texts: Vec<String> = root.elements().map(|node| node.to_string()).collect();
    let wanted = [r#"[1,[2,{"a":[3]}],4]"#, r#"{"b":{"c":[5]},"a":6,"b":7}"#, "[]", "8"];
    assert_eq!(texts, wanted);
    let members = root.get(1).unwrap().members();
    assert_eq!((members.len(), members.size_hint()), (3, (3, Some(3))));
    let shown: Vec<String> = members.map(|(name, value)| format!("{name}={value}")).collect();
    assert_eq!(shown, [r#"b={"c":[5]}"#, "a=6", "b=7"]);
    let mut elements = root.elements();
    assert_eq!(elements.len(), 4);
    assert_eq!(elements.by_ref().skip(1).count(), 3);
    assert!(elements.next().is_none() && elements.next().is_none());
}

#[test]
fn a_walk_reads_what_the_text_has() {
    fn rebuilt(node: Node<'_>) -> String {
        match node.kind() {
            Kind::Array => {
                let parts: Vec<String> = node.elements().map(rebuilt).collect();
                format!("[{}]", parts.join(","))
            }
            Kind::Object => {
                let parts: Vec<String> = node
                    .members()
                    .map(|(name, value)| format!("\"{name}\":{}", rebuilt(value)))
                    .collect();
                format!("{{{}}}", parts.join(","))
            }
            Kind::String => format!("\"{}\"", node.as_str().unwrap()),
            Kind::Number => node.literal().unwrap().into_owned(),
            Kind::Boolean => node.as_bool().unwrap().to_string(),
            Kind::Null => "null".into(),
        }
    }
    let deep = "[{\"a\":".repeat(120) + "1" + &"}]".repeat(120);
    for text in ["null", "[[],{},[[]]]", r#"{"a":{"b":[1,-2,1e9,"x",false]},"":null}"#, &deep] {
        assert_eq!(rebuilt(parse(text).root()), text);
    }
}

/// The pointers of RFC 6901, section 5, and what they reference in its document.
const POINTERS: &[(&str, Option<&str>)] = &[
    ("/foo", Some(r#"["bar","baz"]"#)),
    ("/foo/0", Some(r#""bar""#)),
    ("/", Some("0")),
    ("/a~1b", Some("1")),
    ("/c%d", Some("2")),
    ("/e^f", Some("3")),
    ("/g|h", Some("4")),
    ("/i\\j", Some("5")),
    ("/k\"l", Some("6")),
    ("/ ", Some("7")),
    ("/m~0n", Some("8")),
    ("/foo/2", None),
    ("/foo/-", None),
    ("/foo/00", None),
    ("/foo/+1", None),
    ("/foo/", None),
    ("/foo/bar", None),
    ("/foo/99999999999999999999", None),
    ("/m~n", None),
    ("/m~2n", None),
    ("/m~", None),
    ("/a/b", None),
    ("/ /a", None),
    ("foo", None),
];

const POINTED: &str = r#"{"foo":["bar","baz"],"":0,"a/b":1,"c%d":2,"e^f":3,"g|h":4,"i\\j":5,
    "k\"l":6," ":7,"m~n":8}"#;

#[test]
fn a_pointer_references_a_node() {
    let document = parse(POINTED);
    let root = document.root();
    assert_eq!(root.pointer("").unwrap().to_string(), root.to_string());
    for (pointer, wanted) in POINTERS {
        let found = root.pointer(pointer).map(|node| node.to_string());
        assert_eq!(found.as_deref(), *wanted, "{pointer}");
        assert_eq!(mezdruk::get(POINTED, pointer).ok().as_deref(), *wanted, "{pointer}");
    }
    let foo = root.get("foo").unwrap();
    assert_eq!(foo.pointer("/1").and_then(|node| node.as_str()), Some("baz"));
}

#[test]
fn what_is_indexed_is_found() {
    let document = parse(r#"{"a": [1, 2], "b": "c", "a": 3, "": {"0": true}}"#);
    let root = document.root();
    assert_eq!(root.get("a").unwrap().get(1).unwrap().as_u64(), Some(2));
    assert_eq!(root.get(String::from("b")).unwrap().as_str(), Some("c"));
    assert_eq!(root.get("").unwrap().get("0").unwrap().as_bool(), Some(true));
    assert!(root.get(0).is_none() && root.get("d").is_none());
    assert!(root.get("a").unwrap().get(2).is_none());
    assert!(root.get("a").unwrap().get(usize::MAX).is_none());
}

#[test]
fn what_is_shown_is_the_text() {
    let document = parse(r#"{"a": [1.50, "\u0001"]}"#);
    assert_eq!(document.to_string(), r#"{"a":[1.50,"\u0001"]}"#);
    assert_eq!(format!("{document:#}"), "{\n  \"a\": [\n    1.50,\n    \"\\u0001\"\n  ]\n}");
    assert_eq!(format!("{:?}", document.root()), r#"Node({"a":[1.50,"\u0001"]})"#);
    assert_eq!(format!("{document:?}"), r#"Document({"a":[1.50,"\u0001"]})"#);
    assert_eq!(format!("{:?}", document.root().members()), r#"{"a": Node([1.50,"\u0001"])}"#);
}
