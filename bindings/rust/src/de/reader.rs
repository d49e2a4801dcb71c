//! The nodes of a value, which are taken one after another. A type may read a part of a value, or keep its error to
//! itself: in the end all nodes of the value are taken, so that what is read next is what comes after it.
use super::error::ReadError;
use super::key::Key;
use crate::ffi::{Node, Nodes};
use crate::value::ValueType;
use serde::de::value::BorrowedStrDeserializer;
use serde::de::{
    Deserialize, DeserializeSeed, Deserializer, EnumAccess, Error, Expected, MapAccess, SeqAccess, Unexpected,
    VariantAccess, Visitor,
};
use std::convert::Infallible;
use std::fmt;

impl<'n, 'de> Nodes<'n, 'de> {
    #[inline]
    fn kind(&self) -> ValueType {
        self.first().kind()
    }

    // Takes the first node.
    #[inline]
    fn take(&mut self) -> &'n Node {
        let node = self.first();
        self.nodes = &self.nodes[1..];
        node
    }

    // Takes the first value.
    #[inline]
    fn pass(&mut self) {
        self.nodes = &self.nodes[self.first().count()..];
    }

    fn key(&mut self) -> Key<'de> {
        Key(self.text(self.take()))
    }

    // What a type reads from the first node on. An error is at that node, unless it is at one in it.
    #[inline]
    fn placed<T>(&mut self, read: impl FnOnce(&mut Self) -> Result<T, ReadError>) -> Result<T, ReadError> {
        let left = self.nodes.len();
        read(self).map_err(|error| error.at(left))
    }

    // Takes the first value, which is of a kind.
    #[inline(always)]
    fn visit<V: Visitor<'de>>(&mut self, kind: ValueType, visitor: V) -> Result<V::Value, ReadError> {
        let node = self.take();
        match kind {
            ValueType::Null => visitor.visit_unit(),
            ValueType::Bool => visitor.visit_bool(node.value != 0),
            ValueType::I64 => visitor.visit_i64(node.value as i64),
            ValueType::U64 => visitor.visit_u64(node.value),
            ValueType::I128 => visitor.visit_i128(self.wide(node) as i128),
            ValueType::U128 => match i128::try_from(self.wide(node)) {
                Ok(number) => visitor.visit_i128(number),
                Err(_) => visitor.visit_u128(self.wide(node)),
            },
            ValueType::Decimal => visitor.visit_f64(self.double(node)),
            ValueType::String => visitor.visit_borrowed_str(self.text(node)),
            ValueType::Array => self.within(node, |members| visitor.visit_seq(members)),
            ValueType::Object => self.within(node, |members| members.visit(visitor)),
        }
    }

    // Takes the members of a container. Any that `read` leaves are passed over, and are an error if it returns none.
    #[inline]
    fn within<T>(
        &mut self,
        node: &Node,
        read: impl FnOnce(&mut Members<'_, 'n, 'de>) -> Result<T, ReadError>,
    ) -> Result<T, ReadError> {
        let after = &self.nodes[node.value as usize..];
        let mut members = Members { nodes: self, left: node.len, value: usize::MAX };
        let (value, left) = (read(&mut members), members.left);
        self.nodes = after;
        match left {
            0 => value,
            _ => value.and_then(|_| {
                let fewer = format!("no more than {}", node.len - left);
                Err(ReadError::invalid_length(node.len as usize, &fewer.as_str()))
            }),
        }
    }
}

/// Rejects any value, since another is expected.
struct Rejecting<E>(E);

impl<E: Expected> Visitor<'_> for Rejecting<E> {
    type Value = Infallible;

    fn expecting(&self, f: &mut fmt::Formatter<'_>) -> fmt::Result {
        self.0.fmt(f)
    }
}

// Methods that read values of the kind that they mostly find, and others as `deserialize_any` does.
macro_rules! methods {
    ($(
        $kinds:pat => |$nodes:ident, $visitor:ident| $read:expr, $($method:ident($($arg:ident: $type:ty),*))+;
    )*) => {$($(
        #[inline]
        fn $method<V: Visitor<'de>>(self, $($arg: $type,)* $visitor: V) -> Result<V::Value, ReadError> {
            let $nodes = self;
            match $nodes.kind() {
                $kinds => $read,
                _ => $nodes.deserialize_any($visitor),
            }
        }
    )+)*};
}

impl<'de> Deserializer<'de> for &mut Nodes<'_, 'de> {
    type Error = ReadError;

    #[inline]
    fn deserialize_any<V: Visitor<'de>>(self, visitor: V) -> Result<V::Value, ReadError> {
        self.visit(self.kind(), visitor)
    }

    methods! {
        ValueType::U64 => |nodes, visitor| nodes.visit(ValueType::U64, visitor),
            deserialize_i8() deserialize_i16() deserialize_i32() deserialize_i64() deserialize_i128()
            deserialize_u8() deserialize_u16() deserialize_u32() deserialize_u64() deserialize_u128();
        ValueType::String => |nodes, visitor| nodes.visit(ValueType::String, visitor),
            deserialize_char() deserialize_str() deserialize_string();
        ValueType::Array => |nodes, visitor| nodes.visit(ValueType::Array, visitor),
            deserialize_seq() deserialize_tuple(_len: usize);
        ValueType::Object => |nodes, visitor| nodes.visit(ValueType::Object, visitor),
            deserialize_map() deserialize_struct(_name: &'static str, _fields: &'static [&'static str]);
        ValueType::Decimal | ValueType::I128 | ValueType::U128 =>
            |nodes, visitor| visitor.visit_f64(nodes.double(nodes.take())),
            deserialize_f64();
        // By one rounding, not by way of an `f64`.
        ValueType::Decimal | ValueType::I128 | ValueType::U128 =>
            |nodes, visitor| visitor.visit_f32(nodes.text(nodes.take()).parse().unwrap_or_default()),
            deserialize_f32();
        ValueType::String =>
            |nodes, visitor| visitor.visit_borrowed_bytes(nodes.text(nodes.take()).as_bytes()),
            deserialize_bytes() deserialize_byte_buf();
    }

    #[inline]
    fn deserialize_option<V: Visitor<'de>>(self, visitor: V) -> Result<V::Value, ReadError> {
        if self.kind() != ValueType::Null {
            return visitor.visit_some(self);
        }
        self.take();
        visitor.visit_none()
    }

    #[inline]
    fn deserialize_newtype_struct<V: Visitor<'de>>(self, _: &'static str, visitor: V) -> Result<V::Value, ReadError> {
        visitor.visit_newtype_struct(self)
    }

    // The name of a variant; or an object with that as its only key, and the content as its value.
    #[inline]
    fn deserialize_enum<V: Visitor<'de>>(
        self,
        _name: &'static str,
        _variants: &'static [&'static str],
        visitor: V,
    ) -> Result<V::Value, ReadError> {
        if !matches!(self.kind(), ValueType::String | ValueType::Object) {
            return self.deserialize_any(Rejecting("string or map")).map(|never| match never {});
        }
        let node = self.take();
        let after = self.from(node.count() - 1);
        let value = match (node.kind(), node.len) {
            (ValueType::String, _) => visitor.visit_enum(BorrowedStrDeserializer::new(self.text(node))),
            (_, 1) => visitor.visit_enum(&mut *self),
            _ => Err(ReadError::invalid_value(Unexpected::Map, &"an object with one key")),
        };
        *self = after;
        value
    }

    // A tag, which is a string: a number is not taken for the index of a variant.
    fn deserialize_identifier<V: Visitor<'de>>(self, visitor: V) -> Result<V::Value, ReadError> {
        match self.kind() {
            ValueType::String => self.deserialize_str(visitor),
            _ => self.deserialize_any(Rejecting(visitor)).map(|never| match never {}),
        }
    }

    #[inline]
    fn deserialize_ignored_any<V: Visitor<'de>>(self, visitor: V) -> Result<V::Value, ReadError> {
        self.pass();
        visitor.visit_unit()
    }

    serde::forward_to_deserialize_any! { bool unit unit_struct tuple_struct }
}

/// The members of a container that are left.
struct Members<'r, 'n, 'de> {
    nodes: &'r mut Nodes<'n, 'de>,
    left: u32,
    // how many nodes there are from the value on that is to be read; where it is read there are fewer
    value: usize,
}

impl<'de> Members<'_, '_, 'de> {
    // Whether there is a member more. A value that was not read is passed over.
    #[inline]
    fn next(&mut self) -> bool {
        if self.is_unread() {
            self.pass_unread();
        }
        if self.left == 0 {
            return false;
        }
        self.left -= 1;
        true
    }

    #[inline]
    fn is_unread(&self) -> bool {
        self.nodes.nodes.len() == self.value
    }

    #[cold]
    #[inline(never)]
    fn pass_unread(&mut self) {
        self.nodes.pass();
    }

    // An error of the visitor itself is at a key, if that is read and its value is not.
    #[inline]
    fn visit<V: Visitor<'de>>(&mut self, visitor: V) -> Result<V::Value, ReadError> {
        let value = visitor.visit_map(&mut *self);
        value.map_err(|error| if self.is_unread() { error.at(self.value + 1) } else { error })
    }
}

impl<'de> SeqAccess<'de> for Members<'_, '_, 'de> {
    type Error = ReadError;

    #[inline]
    fn next_element_seed<T: DeserializeSeed<'de>>(&mut self, seed: T) -> Result<Option<T::Value>, ReadError> {
        if !self.next() {
            return Ok(None);
        }
        self.value = self.nodes.nodes.len();
        self.nodes.placed(|nodes| seed.deserialize(nodes)).map(Some)
    }

    fn size_hint(&self) -> Option<usize> {
        Some(self.left as usize)
    }
}

impl<'de> MapAccess<'de> for Members<'_, '_, 'de> {
    type Error = ReadError;

    #[inline]
    fn next_key_seed<K: DeserializeSeed<'de>>(&mut self, seed: K) -> Result<Option<K::Value>, ReadError> {
        if !self.next() {
            return Ok(None);
        }
        self.value = self.nodes.nodes.len() - 1;
        self.nodes.placed(|nodes| seed.deserialize(nodes.key())).map(Some)
    }

    #[inline]
    fn next_value_seed<V: DeserializeSeed<'de>>(&mut self, seed: V) -> Result<V::Value, ReadError> {
        if !self.is_unread() {
            return Err(ReadError::custom("a value is read without its key"));
        }
        self.nodes.placed(|nodes| seed.deserialize(nodes))
    }

    fn size_hint(&self) -> Option<usize> {
        Some(self.left as usize)
    }
}

impl<'de> EnumAccess<'de> for &mut Nodes<'_, 'de> {
    type Error = ReadError;
    type Variant = Self;

    fn variant_seed<V: DeserializeSeed<'de>>(self, seed: V) -> Result<(V::Value, Self), ReadError> {
        let variant = self.placed(|nodes| seed.deserialize(nodes.key()))?;
        Ok((variant, self))
    }
}

impl<'de> VariantAccess<'de> for &mut Nodes<'_, 'de> {
    type Error = ReadError;

    fn unit_variant(self) -> Result<(), ReadError> {
        self.placed(|content| Deserialize::deserialize(content))
    }

    fn newtype_variant_seed<T: DeserializeSeed<'de>>(self, seed: T) -> Result<T::Value, ReadError> {
        self.placed(|content| seed.deserialize(content))
    }

    fn tuple_variant<V: Visitor<'de>>(self, _len: usize, visitor: V) -> Result<V::Value, ReadError> {
        self.placed(|content| content.deserialize_any(visitor))
    }

    fn struct_variant<V: Visitor<'de>>(self, _: &'static [&'static str], visitor: V) -> Result<V::Value, ReadError> {
        self.placed(|content| content.deserialize_any(visitor))
    }
}
