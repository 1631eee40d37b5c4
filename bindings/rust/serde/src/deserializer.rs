//! Values of nodes.

use crate::access::{Elements, Members, Variant};
use crate::error::{Error, Step};
use mezdruk::{Kind, Node};
use serde::de::{self, Error as _, Unexpected, Visitor};
use serde::forward_to_deserialize_any;

/// A deserializer of a node of a document.
///
/// ```
/// use serde::Deserialize;
///
/// let document = mezdruk::Document::parse("[1, 2.5]")?;
/// let pair = <(u8, f32)>::deserialize(mezdruk_serde::Deserializer::new(document.root()))?;
/// assert_eq!(pair, (1, 2.5));
/// # Ok::<(), mezdruk_serde::Error>(())
/// ```
#[derive(Clone, Copy, Debug)]
pub struct Deserializer<'d>(Node<'d>);

impl<'d> Deserializer<'d> {
    /// Returns a deserializer of the value of a node.
    pub fn new(node: Node<'d>) -> Deserializer<'d> {
        Deserializer(node)
    }

    fn visit_number<V: Visitor<'d>>(self, visitor: V) -> Result<V::Value, Error> {
        let Deserializer(node) = self;
        if let Some(natural) = node.as_u64() {
            visitor.visit_u64(natural)
        } else if let Some(integer) = node.as_i64() {
            visitor.visit_i64(integer)
        } else if let Some(double) = node.as_f64() {
            visitor.visit_f64(double)
        } else {
            Err(Error::custom("number out of range"))
        }
    }

    /// Returns the number of the literal, if it is an integer that the type has.
    fn integer<T: std::str::FromStr>(self) -> Option<T> {
        self.0.literal()?.parse().ok()
    }

    /// Returns what the value is, for a message.
    fn unexpected(&self) -> Unexpected<'d> {
        let Deserializer(node) = *self;
        match node.kind() {
            Kind::Null => Unexpected::Unit,
            Kind::Boolean => Unexpected::Bool(node.as_bool().unwrap_or_default()),
            Kind::Number => Unexpected::Other("number"),
            Kind::String => Unexpected::Str(node.as_str().unwrap_or_default()),
            Kind::Object => Unexpected::Map,
            Kind::Array => Unexpected::Seq,
        }
    }
}

impl<'d> de::Deserializer<'d> for Deserializer<'d> {
    type Error = Error;

    fn deserialize_any<V: Visitor<'d>>(self, visitor: V) -> Result<V::Value, Error> {
        let Deserializer(node) = self;
        match node.kind() {
            Kind::Null => visitor.visit_unit(),
            Kind::Boolean => visitor.visit_bool(node.as_bool().unwrap_or_default()),
            Kind::Number => self.visit_number(visitor),
            Kind::String => visitor.visit_borrowed_str(node.as_str().unwrap_or_default()),
            Kind::Object => Members::of(node).visit(visitor),
            Kind::Array => Elements::of(node).visit(visitor),
        }
    }

    fn deserialize_i128<V: Visitor<'d>>(self, visitor: V) -> Result<V::Value, Error> {
        match self.integer() {
            Some(integer) => visitor.visit_i128(integer),
            None => self.deserialize_any(visitor),
        }
    }

    fn deserialize_u128<V: Visitor<'d>>(self, visitor: V) -> Result<V::Value, Error> {
        match self.integer() {
            Some(integer) => visitor.visit_u128(integer),
            None => self.deserialize_any(visitor),
        }
    }

    fn deserialize_bytes<V: Visitor<'d>>(self, visitor: V) -> Result<V::Value, Error> {
        match self.0.as_str() {
            Some(string) => visitor.visit_borrowed_bytes(string.as_bytes()),
            None => self.deserialize_any(visitor),
        }
    }

    fn deserialize_byte_buf<V: Visitor<'d>>(self, visitor: V) -> Result<V::Value, Error> {
        self.deserialize_bytes(visitor)
    }

    fn deserialize_option<V: Visitor<'d>>(self, visitor: V) -> Result<V::Value, Error> {
        if self.0.is_null() {
            visitor.visit_none()
        } else {
            visitor.visit_some(self)
        }
    }

    fn deserialize_newtype_struct<V: Visitor<'d>>(
        self,
        _: &'static str,
        visitor: V,
    ) -> Result<V::Value, Error> {
        visitor.visit_newtype_struct(self)
    }

    fn deserialize_enum<V: Visitor<'d>>(
        self,
        _: &'static str,
        _: &'static [&'static str],
        visitor: V,
    ) -> Result<V::Value, Error> {
        let Deserializer(node) = self;
        let mut members = node.members();
        match (node.as_str(), members.next(), members.next()) {
            (Some(name), ..) => visitor.visit_enum(Variant::new(name, None)),
            (None, Some((name, value)), None) => {
                let visited = visitor.visit_enum(Variant::new(name, Some(value)));
                visited.map_err(|error| error.below(|| Step::Name(name.into())))
            }
            _ => {
                Err(Error::invalid_type(self.unexpected(), &"a string or an object of one member"))
            }
        }
    }

    fn deserialize_ignored_any<V: Visitor<'d>>(self, visitor: V) -> Result<V::Value, Error> {
        visitor.visit_unit()
    }

    forward_to_deserialize_any! {
        <V: Visitor<'d>>
        bool i8 i16 i32 i64 u8 u16 u32 u64 f32 f64 char str string unit unit_struct seq tuple
        tuple_struct map struct identifier
    }
}
