#![cfg_attr(feature = "serde", doc = include_str!("../README.md"))]
#![cfg_attr(not(feature = "serde"), doc = "JSON (RFC 8259) by `libsimd_json`, a parser whose results are proved.")]
mod compare;
#[cfg(feature = "serde")]
mod de;
mod error;
mod ffi;
#[cfg(feature = "serde")]
mod ser;
mod value;

#[cfg(feature = "serde")]
pub use de::{from_slice, from_slice_mut, from_slice_mut_with, from_slice_with, from_str, ReadError};
pub use error::{Error, ErrorType, Location};
pub use ffi::{check, Buffers, Fields, Found, Index};
pub use value::{Array, Object, Tape, Value, ValueType};

#[cfg(doctest)]
#[doc = include_str!("../tests/must_not_compile.md")]
#[cfg_attr(feature = "serde", doc = include_str!("../tests/must_not_compile_serde.md"))]
mod must_not_compile {}

/// Parses a document into a tape, which borrows the input: its strings and literals are there. The input is
/// overwritten, since escapes are decoded in place.
///
/// ```
/// let mut input = *br#"{"name":"\u00e9"}"#;
/// let tape = simd_json_proved::to_tape(&mut input)?;
/// assert_eq!(tape.as_value().get("name").and_then(|name| name.as_str()), Some("é"));
/// # Ok::<(), simd_json_proved::Error>(())
/// ```
///
/// While there is a tape its input is neither changed, nor read, nor dropped, and no text outlives its tape.
///
/// # Errors
///
/// The first error of the input, with its kind, index and character.
pub fn to_tape(input: &mut [u8]) -> Result<Tape<'_>, Error> {
    let mut buffers = Buffers::new()?;
    let document = buffers.parser.parse(input)?;
    Ok(Tape::new(document, Some((buffers, Vec::new()))))
}

/// Parses a document into a tape that owns the input and borrows nothing, and so may be returned from a function.
///
/// ```
/// use simd_json_proved::{to_owned_tape, Error, Tape};
///
/// fn settings(text: String) -> Result<Tape<'static>, Error> {
///     to_owned_tape(text)
/// }
/// assert_eq!(settings(r#"{"depth":3}"#.to_string())?.as_value().get("depth").unwrap(), 3);
/// # Ok::<(), Error>(())
/// ```
///
/// # Errors
///
/// The first error of the input, with its kind, index and character.
pub fn to_owned_tape(input: impl Into<Vec<u8>>) -> Result<Tape<'static>, Error> {
    let (mut buffers, mut input) = (Buffers::new()?, input.into());
    let document = buffers.parser.parse(&mut input)?;
    Ok(Tape::new(document, Some((buffers, input))))
}
