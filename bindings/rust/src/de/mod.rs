//! Types that derive `serde::Deserialize`, read from the nodes of a parse.
mod error;
mod key;
mod reader;

pub use error::ReadError;

use crate::ffi::{Buffers, Index};
use crate::value::Value;
use serde::de::{Deserialize, DeserializeOwned, Deserializer, Visitor};

/// Reads a document as a type that borrows nothing; [`from_slice_mut`] reads one with a `&str`. The input is left as it
/// is, since a copy is parsed. At most 128 containers may be open: a type that nests as deep as its input takes stack
/// for each. [`from_slice_with`] has the limit of its [`Buffers`].
///
/// ```
/// #[derive(serde::Deserialize)]
/// struct Line {
///     level: String,
///     status: u16,
/// }
///
/// let line: Line = simd_json_proved::from_slice(br#"{"level":"info","status":200}"#)?;
/// assert_eq!((line.level.as_str(), line.status), ("info", 200));
/// let error = simd_json_proved::from_slice::<Line>(br#"{"level":"info","status":"no"}"#).err().unwrap();
/// assert_eq!(error.to_string(), "/status: invalid type: string \"no\", expected u16 at line 1 column 26");
/// # Ok::<(), simd_json_proved::ReadError>(())
/// ```
///
/// # Errors
///
/// The first error of the input; or how the document does not fit the type, with the path to the value.
pub fn from_slice<T: DeserializeOwned>(input: &[u8]) -> Result<T, ReadError> {
    from_slice_with(&mut Buffers::with_max_depth(MAX_DEPTH)?, input)
}

/// [`from_slice`] of a text: for a type that borrows nothing. [`from_slice_mut`] reads one with a `&str`.
///
/// # Errors
///
/// As those of [`from_slice`].
pub fn from_str<T: DeserializeOwned>(input: &str) -> Result<T, ReadError> {
    from_slice(input.as_bytes())
}

/// Reads a document as a type, in memory that is kept for the next. The type may borrow strings from the copy there: a
/// `&str` is borrowed with its escapes decoded. Without that copy it is [`from_slice_mut_with`].
///
/// ```
/// use simd_json_proved::{from_slice_with, Buffers};
///
/// #[derive(serde::Deserialize)]
/// struct Line<'a> {
///     level: &'a str,
///     status: u16,
/// }
///
/// let mut buffers = Buffers::default();
/// for line in [r#"{"level":"info","status":200}"#, r#"{"level":"\u0065rror","status":500}"#] {
///     let line: Line = from_slice_with(&mut buffers, line.as_bytes())?;
///     assert_eq!(line.level == "error", line.status == 500);
/// }
/// # Ok::<(), simd_json_proved::ReadError>(())
/// ```
///
/// What is borrowed ends with the next call.
///
/// # Errors
///
/// As those of [`from_slice`].
pub fn from_slice_with<'b, T: Deserialize<'b>>(buffers: &'b mut Buffers, input: &[u8]) -> Result<T, ReadError> {
    match buffers.value(input) {
        Ok(Value(nodes)) => T::deserialize(&mut { nodes }).map_err(|error| error.in_input(nodes, input)),
        Err(error) => Err(ReadError::of_parse(error, Some(input))),
    }
}

/// Reads a document as a type, without a copy. The input is overwritten, and the type may borrow strings from it, each
/// with its escapes decoded. At most 128 containers may be open.
///
/// ```
/// #[derive(serde::Deserialize)]
/// struct Line<'a> {
///     level: &'a str,
///     status: u16,
/// }
///
/// let mut input = *br#"{"level":"\u0065rror","status":500}"#;
/// let line: Line = simd_json_proved::from_slice_mut(&mut input)?;
/// assert_eq!((line.level, line.status), ("error", 500));
/// # Ok::<(), simd_json_proved::ReadError>(())
/// ```
///
/// While something is borrowed from it the input can't be changed or dropped.
///
/// # Errors
///
/// As those of [`from_slice`], but without a line and a column, since the text is lost.
pub fn from_slice_mut<'de, T: Deserialize<'de>>(input: &'de mut [u8]) -> Result<T, ReadError> {
    from_slice_mut_with(&mut Buffers::with_max_depth(MAX_DEPTH)?, input)
}

/// [`from_slice_mut`] in memory that is kept for the next, from which nothing is borrowed.
///
/// ```
/// use simd_json_proved::{from_slice_mut_with, Buffers};
///
/// let (mut buffers, mut text) = (Buffers::default(), *br#""a""b""#);
/// let (first, second) = text.split_at_mut(3);
/// let first: &str = from_slice_mut_with(&mut buffers, first)?;
/// let second: &str = from_slice_mut_with(&mut buffers, second)?;
/// assert_eq!((first, second), ("a", "b"));
/// # Ok::<(), simd_json_proved::ReadError>(())
/// ```
///
/// # Errors
///
/// As those of [`from_slice_mut`].
pub fn from_slice_mut_with<'de, T: Deserialize<'de>>(
    buffers: &mut Buffers,
    input: &'de mut [u8],
) -> Result<T, ReadError> {
    let nodes = buffers.parser.nodes(input)?;
    T::deserialize(&mut { nodes }).map_err(|error| error.beneath(nodes))
}

impl Index<'_> {
    /// The value that a JSON Pointer names, as [`Index::pointer`] has it, read as a type.
    ///
    /// # Errors
    ///
    /// Those of [`Index::pointer`]; or how the value does not fit the type, with the path from it on.
    pub fn read<'i, T: Deserialize<'i>>(&'i mut self, pointer: &str) -> Result<Option<T>, ReadError> {
        self.pointer(pointer)?.map(T::deserialize).transpose()
    }
}

// As that of `serde_json`, since without optimization usual types take more than 4 kB of stack for each.
const MAX_DEPTH: usize = 128;

macro_rules! by_nodes {
    ($($method:ident($($arg:ident: $type:ty),*);)*) => {$(
        #[inline]
        fn $method<V: Visitor<'de>>(self, $($arg: $type,)* visitor: V) -> Result<V::Value, ReadError> {
            (&mut { self.0 }).$method($($arg,)* visitor).map_err(|error| error.beneath(self.0))
        }
    )*};
}

/// A type is read from a value by `T::deserialize(value)`.
///
/// An integer beyond 64 bits is an `i128` or a `u128`, or the nearest float where that is asked for; `-0` is the
/// integer 0. A type that nests without end takes stack for each container that is open, of which there are at most as
/// many as the [`Buffers`] allow.
impl<'de> Deserializer<'de> for Value<'de> {
    type Error = ReadError;

    by_nodes! {
        deserialize_any();
        deserialize_f32();
        deserialize_f64();
        deserialize_bytes();
        deserialize_byte_buf();
        deserialize_option();
        deserialize_newtype_struct(name: &'static str);
        deserialize_enum(name: &'static str, variants: &'static [&'static str]);
        deserialize_ignored_any();
    }

    serde::forward_to_deserialize_any! {
        bool i8 i16 i32 i64 i128 u8 u16 u32 u64 u128 char str string unit unit_struct seq tuple tuple_struct map struct
        identifier
    }
}
