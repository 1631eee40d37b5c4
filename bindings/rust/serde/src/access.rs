//! Elements, members and variants.

use crate::deserializer::Deserializer;
use crate::error::{Error, Step};
use crate::key::Key;
use mezdruk::Node;
use serde::de::value::StrDeserializer;
use serde::de::{
    DeserializeSeed, EnumAccess, Error as _, IntoDeserializer, MapAccess, SeqAccess, Unexpected,
    VariantAccess, Visitor,
};
use serde::Deserializer as _;

/// The elements of an array that are left.
pub(crate) struct Elements<'d> {
    elements: mezdruk::Elements<'d>,
    index: usize,
}

impl<'d> Elements<'d> {
    pub(crate) fn of(array: Node<'d>) -> Elements<'d> {
        Elements { elements: array.elements(), index: 0 }
    }

    /// Returns what the visitor makes of the elements. It has to read all of them.
    pub(crate) fn visit<V: Visitor<'d>>(mut self, visitor: V) -> Result<V::Value, Error> {
        let count = self.elements.len();
        let value = visitor.visit_seq(&mut self)?;
        match self.elements.len() {
            0 => Ok(value),
            _ => Err(Error::invalid_length(count, &"fewer elements in array")),
        }
    }
}

impl<'d> SeqAccess<'d> for Elements<'d> {
    type Error = Error;

    fn next_element_seed<T: DeserializeSeed<'d>>(
        &mut self,
        seed: T,
    ) -> Result<Option<T::Value>, Error> {
        match self.elements.next() {
            Some(element) => {
                let index = self.index;
                self.index += 1;
                seed.deserialize(Deserializer::new(element))
                    .map(Some)
                    .map_err(|error| error.below(|| Step::Index(index)))
            }
            None => Ok(None),
        }
    }

    fn size_hint(&self) -> Option<usize> {
        Some(self.elements.len())
    }
}

/// The members of an object that are left, and the value of the name that was read.
pub(crate) struct Members<'d> {
    members: mezdruk::Members<'d>,
    member: Option<(&'d str, Node<'d>)>,
}

impl<'d> Members<'d> {
    pub(crate) fn of(object: Node<'d>) -> Members<'d> {
        Members { members: object.members(), member: None }
    }

    /// Returns what the visitor makes of the members. It has to read all of them.
    pub(crate) fn visit<V: Visitor<'d>>(mut self, visitor: V) -> Result<V::Value, Error> {
        let count = self.members.len();
        let value = visitor.visit_map(&mut self)?;
        match self.members.len() {
            0 => Ok(value),
            _ => Err(Error::invalid_length(count, &"fewer elements in map")),
        }
    }
}

impl<'d> MapAccess<'d> for Members<'d> {
    type Error = Error;

    fn next_key_seed<K: DeserializeSeed<'d>>(
        &mut self,
        seed: K,
    ) -> Result<Option<K::Value>, Error> {
        self.member = self.members.next();
        match self.member {
            Some((name, _)) => seed
                .deserialize(Key(name))
                .map(Some)
                .map_err(|error| error.below(|| Step::Name(name.into()))),
            None => Ok(None),
        }
    }

    fn next_value_seed<V: DeserializeSeed<'d>>(&mut self, seed: V) -> Result<V::Value, Error> {
        match self.member.take() {
            Some((name, value)) => seed
                .deserialize(Deserializer::new(value))
                .map_err(|error| error.below(|| Step::Name(name.into()))),
            None => Err(Error::custom("a value is read before its name")),
        }
    }

    fn size_hint(&self) -> Option<usize> {
        Some(self.members.len())
    }
}

/// A variant of an enum: its name, and the value that it has if it is not a unit.
pub(crate) struct Variant<'d> {
    name: &'d str,
    value: Option<Node<'d>>,
}

impl<'d> Variant<'d> {
    pub(crate) fn new(name: &'d str, value: Option<Node<'d>>) -> Variant<'d> {
        Variant { name, value }
    }

    fn value(&self, expected: &'static str) -> Result<Deserializer<'d>, Error> {
        match self.value {
            Some(value) => Ok(Deserializer::new(value)),
            None => Err(Error::invalid_type(Unexpected::UnitVariant, &expected)),
        }
    }
}

impl<'d> EnumAccess<'d> for Variant<'d> {
    type Error = Error;
    type Variant = Variant<'d>;

    fn variant_seed<V: DeserializeSeed<'d>>(
        self,
        seed: V,
    ) -> Result<(V::Value, Variant<'d>), Error> {
        let name: StrDeserializer<'d, Error> = self.name.into_deserializer();
        Ok((seed.deserialize(name)?, self))
    }
}

impl<'d> VariantAccess<'d> for Variant<'d> {
    type Error = Error;

    fn unit_variant(self) -> Result<(), Error> {
        match self.value {
            Some(value) => serde::Deserialize::deserialize(Deserializer::new(value)),
            None => Ok(()),
        }
    }

    fn newtype_variant_seed<T: DeserializeSeed<'d>>(self, seed: T) -> Result<T::Value, Error> {
        seed.deserialize(self.value("newtype variant")?)
    }

    fn tuple_variant<V: Visitor<'d>>(self, len: usize, visitor: V) -> Result<V::Value, Error> {
        self.value("tuple variant")?.deserialize_tuple(len, visitor)
    }

    fn struct_variant<V: Visitor<'d>>(
        self,
        fields: &'static [&'static str],
        visitor: V,
    ) -> Result<V::Value, Error> {
        self.value("struct variant")?.deserialize_struct("", fields, visitor)
    }
}
