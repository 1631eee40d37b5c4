//! One text, read by mezdruk and by serde_json.

use mezdruk::{Document, Kind, Node, Options};
use serde_json::{Map, Number, Value};
use std::fmt;

/// The most levels of arrays and objects that serde_json reads.
const LEVELS: u32 = 127;

/// How many texts were valid, and how many values are read in a different way, as expected.
#[derive(Default)]
pub struct Counts {
    valid: usize,
    repeated_names: usize,
    negative_zeros: usize,
}

impl fmt::Display for Counts {
    fn fmt(&self, f: &mut fmt::Formatter<'_>) -> fmt::Result {
        let Counts { valid, repeated_names, negative_zeros } = self;
        write!(f, "{valid} valid; {repeated_names} repeated names, {negative_zeros} times -0")
    }
}

/// Returns what differs.
pub fn compare(text: &[u8], counts: &mut Counts) -> Result<(), String> {
    let options = Options::new().depth(LEVELS);
    let checked = options.check(text);
    let wanted: Result<Value, _> = serde_json::from_slice(text);
    match (options.parse(text), wanted) {
        (Err(error), Err(_)) if checked.as_ref() == Err(&error) => Ok(()),
        (Ok(document), Ok(wanted)) if checked.is_ok() => {
            counts.valid += 1;
            compare_values(text, &document, &wanted, counts)
        }
        (found, wanted) => Err(format!("checked {checked:?}\nfound {found:?}\nwanted {wanted:?}")),
    }
}

/// Fails unless two values are equal.
fn equal<T: PartialEq + fmt::Debug>(what: &str, found: T, wanted: T) -> Result<(), String> {
    if found == wanted {
        Ok(())
    } else {
        Err(format!("{what}\n found {found:?}\nwanted {wanted:?}"))
    }
}

fn compare_values(
    text: &[u8],
    document: &Document,
    wanted: &Value,
    counts: &mut Counts,
) -> Result<(), String> {
    let root = document.root();
    let mut reader = Reader { differs: false, counts };
    let found = reader.value(root)?;
    equal("values", &found, wanted)?;
    equal("texts of values", found.to_string(), wanted.to_string())?;
    let printed = document.to_string();
    equal("mezdruk::get", mezdruk::get(text, "").ok(), Some(printed.clone()))?;
    equal("mezdruk::edit", mezdruk::edit(text, "[]").ok(), Some(printed.clone()))?;
    if reader.differs {
        let read_again: Value = serde_json::from_str(&printed).map_err(|it| it.to_string())?;
        return equal("printed values", &read_again, wanted);
    }
    equal("texts", printed, wanted.to_string())?;
    let pretty = serde_json::to_string_pretty(wanted).map_err(|it| it.to_string())?;
    equal("indented texts", format!("{document:#}"), pretty)?;
    compare_pointers(text, root, wanted)
}

/// A reader of documents, and whether some value was read in a different way, as expected.
struct Reader<'c> {
    differs: bool,
    counts: &'c mut Counts,
}

impl Reader<'_> {
    /// Returns the value as serde_json has it: of members of one name it has the last value where
    /// the first was.
    fn value(&mut self, node: Node<'_>) -> Result<Value, String> {
        Ok(match node.kind() {
            Kind::Null => Value::Null,
            Kind::Boolean => Value::Bool(node.as_bool().ok_or("no boolean")?),
            Kind::Number => Value::Number(self.number(node)?),
            Kind::String => Value::String(node.as_str().ok_or("no string")?.into()),
            Kind::Array => {
                let elements = node.elements().map(|element| self.value(element));
                Value::Array(elements.collect::<Result<_, _>>()?)
            }
            Kind::Object => {
                let mut map = Map::new();
                for (name, value) in node.members() {
                    if map.insert(name.into(), self.value(value)?).is_some() {
                        self.counts.repeated_names += 1;
                        self.differs = true;
                    }
                }
                Value::Object(map)
            }
        })
    }

    /// Returns a number, which serde_json reads by value as the node does.
    fn number(&mut self, node: Node<'_>) -> Result<Number, String> {
        let literal = node.literal().ok_or("no literal")?;
        if literal == "-0" {
            self.counts.negative_zeros += 1;
            self.differs = true;
            equal("-0", node.as_f64().map(f64::to_bits), Some((-0.0f64).to_bits()))?;
            return Ok(0.into());
        }
        let number: Number = literal.parse().map_err(|_| format!("literal {literal}"))?;
        equal("literals", &*number.to_string(), &literal)?;
        equal("i64", node.as_i64(), number.as_i64())?;
        equal("u64", node.as_u64(), number.as_u64())?;
        equal("f64", node.as_f64().map(f64::to_bits), number.as_f64().map(f64::to_bits))?;
        Ok(number)
    }
}

/// Compares what pointers reference: those of each value, and some that reference nothing.
fn compare_pointers(text: &[u8], root: Node<'_>, wanted: &Value) -> Result<(), String> {
    let mut pointers = vec![String::new()];
    let mut next = 0;
    while next < pointers.len().min(40) {
        let pointer = pointers[next].clone();
        next += 1;
        let found = root.pointer(&pointer).map(|node| node.to_string());
        let value = wanted.pointer(&pointer);
        equal(&pointer, found.clone(), value.map(Value::to_string))?;
        equal(&pointer, mezdruk::get(text, &pointer).ok(), found)?;
        match value {
            Some(Value::Array(elements)) => {
                pointers.extend((0..=elements.len()).map(|index| format!("{pointer}/{index}")));
                pointers.push(format!("{pointer}/00"));
            }
            Some(Value::Object(members)) => {
                let escaped = |name: &String| name.replace('~', "~0").replace('/', "~1");
                pointers.extend(members.keys().map(|name| format!("{pointer}/{}", escaped(name))));
                pointers.push(format!("{pointer}/z"));
            }
            Some(_) => pointers.push(format!("{pointer}/0")),
            None => {}
        }
    }
    Ok(())
}
