//! Values of a tape. A node of a container is followed by the nodes of its members.
use crate::error::{numbered, Error};
use crate::ffi::{Buffers, Document, Node, Nodes};
use std::fmt::{self, Formatter};
use std::iter::FusedIterator;
use std::marker::PhantomData;

numbered! {
    /// The kind of a value.
    ValueType {
        /// `null`
        Null = 0,
        /// `true` or `false`
        Bool = 1,
        /// An integer with a `-`, of 64 bits
        I64 = 2,
        /// An integer without a `-`, of 64 bits
        U64 = 3,
        /// An integer with a `-`, of 128 bits
        I128 = 4,
        /// An integer without a `-`, of 128 bits
        U128 = 5,
        /// A number with a fraction or an exponent
        Decimal = 6,
        /// A string
        String = 7,
        /// An array
        Array = 8,
        /// An object
        Object = 9,
    }
}

macro_rules! integers {
    ($($name:ident $type:ty,)*) => {$(
        #[doc = concat!("The integer, if it fits `", stringify!($type), "`.")]
        pub fn $name(self) -> Option<$type> {
            self.as_i128().and_then(|number| <$type>::try_from(number).ok())
        }
    )*};
}

/// A parsed document: its nodes in preorder. Its strings and literals are in the input.
pub struct Tape<'input> {
    document: Document,
    // where they are not borrowed, the memory of the nodes, and the input
    _own: Option<(Buffers, Vec<u8>)>,
    _borrowed: PhantomData<(&'input mut Buffers, &'input mut [u8])>,
}

impl<'input> Tape<'input> {
    /// The tape of a document whose buffers and input are its own, or borrowed. What they hold is not moved with them.
    pub(crate) fn new(document: Document, own: Option<(Buffers, Vec<u8>)>) -> Tape<'input> {
        Tape { document, _own: own, _borrowed: PhantomData }
    }

    /// The document as a value.
    pub fn as_value(&self) -> Value<'_> {
        self.document.value()
    }

    /// How many nodes the document has: values and keys.
    pub fn node_count(&self) -> usize {
        self.as_value().0.first().count()
    }
}

impl fmt::Debug for Tape<'_> {
    fn fmt(&self, f: &mut Formatter<'_>) -> fmt::Result {
        f.debug_tuple("Tape").field(&self.as_value()).finish()
    }
}

/// The text of the document, as of a [`Value`].
impl fmt::Display for Tape<'_> {
    fn fmt(&self, f: &mut Formatter<'_>) -> fmt::Result {
        self.as_value().fmt(f)
    }
}

/// A value of a tape.
#[derive(Clone, Copy)]
pub struct Value<'tape>(pub(crate) Nodes<'tape, 'tape>);

impl<'tape> Value<'tape> {
    /// Its kind.
    pub fn value_type(self) -> ValueType {
        self.node().kind()
    }

    /// Whether it is null.
    pub fn is_null(self) -> bool {
        self.value_type() == ValueType::Null
    }

    fn node(self) -> &'tape Node {
        self.0.first()
    }

    /// The truth value, or `None`.
    pub fn as_bool(self) -> Option<bool> {
        (self.value_type() == ValueType::Bool).then(|| self.node().value != 0)
    }

    /// The integer, if it fits `i128`.
    pub fn as_i128(self) -> Option<i128> {
        match self.value_type() {
            ValueType::I64 => Some(i128::from(self.node().value as i64)),
            ValueType::U64 => Some(i128::from(self.node().value)),
            ValueType::I128 => Some(self.0.wide(self.node()) as i128),
            ValueType::U128 => i128::try_from(self.0.wide(self.node())).ok(),
            _ => None,
        }
    }

    /// The integer, if it is not negative.
    pub fn as_u128(self) -> Option<u128> {
        match self.value_type() {
            ValueType::U128 => Some(self.0.wide(self.node())),
            _ => self.as_i128().and_then(|number| u128::try_from(number).ok()),
        }
    }

    integers! {
        as_i8 i8, as_i16 i16, as_i32 i32, as_i64 i64, as_isize isize,
        as_u8 u8, as_u16 u16, as_u32 u32, as_u64 u64, as_usize usize,
    }

    /// The number as the nearest float, infinite where it is past the greatest; `None` if it is no number.
    pub fn as_f64(self) -> Option<f64> {
        match self.value_type() {
            ValueType::I64 => Some(self.node().value as i64 as f64),
            ValueType::U64 => Some(self.node().value as f64),
            ValueType::I128 | ValueType::U128 | ValueType::Decimal => Some(self.0.double(self.node())),
            _ => None,
        }
    }

    /// The number as the nearest `f32`, by one rounding; infinite where it is past the greatest.
    pub fn as_f32(self) -> Option<f32> {
        match self.value_type() {
            ValueType::I64 => Some(self.node().value as i64 as f32),
            ValueType::U64 => Some(self.node().value as f32),
            ValueType::I128 | ValueType::U128 | ValueType::Decimal => self.0.text(self.node()).parse().ok(),
            _ => None,
        }
    }

    /// The literal of a number with a fraction or an exponent, as it is written.
    pub fn as_decimal(self) -> Option<&'tape str> {
        (self.value_type() == ValueType::Decimal).then(|| self.0.text(self.node()))
    }

    /// The string, with its escapes decoded.
    pub fn as_str(self) -> Option<&'tape str> {
        (self.value_type() == ValueType::String).then(|| self.0.text(self.node()))
    }

    /// The elements, if it is an array.
    pub fn as_array(self) -> Option<Array<'tape>> {
        let left = self.node().len as usize;
        (self.value_type() == ValueType::Array).then(|| Array { rest: self.0.from(1), left })
    }

    /// The members, if it is an object.
    pub fn as_object(self) -> Option<Object<'tape>> {
        let left = self.node().len as usize;
        (self.value_type() == ValueType::Object).then(|| Object { rest: self.0.from(1), left })
    }

    /// The value of the first member of an object with this key.
    pub fn get(self, key: &str) -> Option<Value<'tape>> {
        self.0.get(key).map(Value)
    }

    /// The element of an array with this index.
    pub fn get_idx(self, index: usize) -> Option<Value<'tape>> {
        self.as_array()?.nth(index)
    }

    /// The value in this one that a JSON Pointer (RFC 6901) names, or `None`.
    ///
    /// ```
    /// let mut input = *br#"{"sizes":[1,{"a/b":2}]}"#;
    /// let tape = simd_json_proved::to_tape(&mut input)?;
    /// assert_eq!(tape.as_value().pointer("/sizes/1/a~1b")?.and_then(|value| value.as_u64()), Some(2));
    /// assert!(tape.as_value().pointer("/sizes/2")?.is_none() && tape.as_value().pointer("sizes").is_err());
    /// # Ok::<(), simd_json_proved::Error>(())
    /// ```
    ///
    /// # Errors
    ///
    /// `InvalidPointer` if the pointer is malformed.
    pub fn pointer(self, pointer: &str) -> Result<Option<Value<'tape>>, Error> {
        self.0.pointer(pointer).map(|found| found.map(Value))
    }
}

/// A scalar, or how many members a container has.
impl fmt::Debug for Value<'_> {
    fn fmt(&self, f: &mut Formatter<'_>) -> fmt::Result {
        let (kind, node) = (self.value_type(), self.node());
        match kind {
            ValueType::Null => write!(f, "Null"),
            ValueType::String => write!(f, "String({:?})", self.0.text(node)),
            ValueType::Array | ValueType::Object => write!(f, "{kind:?}(len {})", node.len),
            _ => write!(f, "{kind:?}({self})"),
        }
    }
}

/// The text of the value, as a document: compact, or by `{:#}` with a line for each member, after two spaces for each
/// container that is open there. Decimals are their literals, so nothing of a number is lost. An error if an allocation
/// fails.
///
/// ```
/// let mut input = *br#"{ "size": [1.50, "\u00e9"] }"#;
/// let tape = simd_json_proved::to_tape(&mut input)?;
/// assert_eq!(tape.as_value().to_string(), r#"{"size":[1.50,"é"]}"#);
/// # Ok::<(), simd_json_proved::Error>(())
/// ```
impl fmt::Display for Value<'_> {
    fn fmt(&self, f: &mut Formatter<'_>) -> fmt::Result {
        f.write_str(&self.0.printed(f.alternate()).ok_or(fmt::Error)?)
    }
}

/// An iterator over the members of a container.
macro_rules! members {
    ($($(#[$doc:meta])* $name:ident of $item:ty, shown by $show:ident, |$member:ident| $made:expr;)*) => {$(
        $(#[$doc])*
        #[derive(Clone, Copy)]
        pub struct $name<'tape> {
            // after the last member what follows the container, if anything does
            rest: Nodes<'tape, 'tape>,
            left: usize,
        }

        impl $name<'_> {
            /// Those that are left.
            pub fn iter(&self) -> Self {
                *self
            }
        }

        /// The members that are left.
        impl fmt::Debug for $name<'_> {
            fn fmt(&self, f: &mut Formatter<'_>) -> fmt::Result {
                f.$show().entries(*self).finish()
            }
        }

        impl<'tape> Iterator for $name<'tape> {
            type Item = $item;

            fn next(&mut self) -> Option<$item> {
                self.left = self.left.checked_sub(1)?;
                let $member = self.rest;
                let (value, item) = $made;
                self.rest = value.from(value.first().count());
                Some(item)
            }

            fn size_hint(&self) -> (usize, Option<usize>) {
                (self.left, Some(self.left))
            }
        }

        impl ExactSizeIterator for $name<'_> {}

        impl FusedIterator for $name<'_> {}
    )*};
}

members! {
    /// The elements of an array that are left.
    Array of Value<'tape>, shown by debug_list, |element| (element, Value(element));
    /// The members of an object that are left, each a key and a value.
    Object of (&'tape str, Value<'tape>), shown by debug_map,
        |key| (key.from(1), (key.text(key.first()), Value(key.from(1))));
}
