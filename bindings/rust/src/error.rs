//! Why an input is rejected, and where.
use crate::ffi::{located, Position};
use std::fmt;

/// An enum with the numbers of the header, which a test compares.
macro_rules! numbered {
    ($(#[$about:meta])* $type:ident { $($(#[$doc:meta])* $name:ident = $number:literal,)* }) => {
        $(#[$about])*
        #[derive(Clone, Copy, Debug, PartialEq, Eq, Hash)]
        pub enum $type {
            $($(#[$doc])* $name = $number,)*
        }

        impl $type {
            #[inline]
            pub(crate) fn numbered(number: u32) -> Option<$type> {
                match number {
                    $($number => Some($type::$name),)*
                    _ => None,
                }
            }
        }
    };
}
pub(crate) use numbered;

numbered! {
    /// The kind of an error, as `simd-json` names it.
    #[non_exhaustive]
    ErrorType {
        /// An allocation failed.
        OutOfMemory = 1,
        /// More than 4,294,967,295 bytes.
        InputTooLarge = 2,
        /// Not UTF-8 (RFC 3629).
        InvalidUtf8 = 3,
        /// A string has no end, or contains a byte below 0x20; with a character: the input ends early, reported at the
        /// last token.
        Syntax = 4,
        /// Nothing but whitespace.
        Eof = 5,
        /// No value where one is expected; or more text after the root container, reported at its closing bracket.
        InternalError = 6,
        /// No `,` or `]` after an element.
        ExpectedArrayContent = 7,
        /// No key or `}` after `{`, no `,` or `}` after a member.
        ExpectedObjectContent = 8,
        /// No key after `,`.
        ExpectedObjectKey = 9,
        /// No `:` after a key.
        ExpectedObjectColon = 10,
        /// More text after a root scalar, reported at the scalar.
        TrailingData = 11,
        /// More containers are open than the depth limit allows.
        DepthLimitExceeded = 12,
        /// Another word that begins with `t`.
        ExpectedTrue = 13,
        /// Another word that begins with `f`.
        ExpectedFalse = 14,
        /// Another word that begins with `n`.
        ExpectedNull = 15,
        /// A malformed number, or an integer out of range.
        InvalidNumber = 16,
        /// A backslash before a byte that no escape has.
        InvalidEscape = 17,
        /// A malformed `\u` escape, or half of a surrogate pair.
        InvalidUnicodeCodepoint = 18,
        /// A malformed JSON Pointer, in which the index is. It has no location in an input.
        InvalidPointer = 22,
    }
}

impl fmt::Display for ErrorType {
    fn fmt(&self, f: &mut fmt::Formatter<'_>) -> fmt::Result {
        fmt::Debug::fmt(self, f)
    }
}

/// The first error of an input.
#[derive(Clone, Copy, Debug, PartialEq, Eq)]
pub struct Error {
    pub(crate) kind: ErrorType,
    pub(crate) index: usize,
    pub(crate) character: Option<char>,
}

impl Error {
    /// Its kind.
    pub fn error(&self) -> ErrorType {
        self.kind
    }

    /// Its index in the input, in bytes; 0 for an error of the whole input.
    pub fn index(&self) -> usize {
        self.index
    }

    /// The byte there, as a character; `None` for an error of the whole input.
    pub fn character(&self) -> Option<char> {
        self.character
    }

    /// Where and why, for people. `input` is the bytes as they were before the parse, which has overwritten them.
    ///
    /// ```
    /// let input = b"{\n  \"tags\": [1,]\n}";
    /// let error = simd_json_proved::check(input).unwrap_err();
    /// assert_eq!(error.location(input)?.to_string(), "2:14: expected a value, found `]`");
    /// # Ok::<(), simd_json_proved::Error>(())
    /// ```
    ///
    /// # Errors
    ///
    /// `OutOfMemory` if an allocation fails.
    pub fn location(&self, input: &[u8]) -> Result<Location, Error> {
        located(input, self)
    }
}

/// Whether a JSON Pointer is well-formed (RFC 6901, section 3), or where it is not.
pub(crate) fn check_pointer(pointer: &str) -> Result<(), Error> {
    let is_wrong = |&(at, c): &(usize, char)| match c {
        '~' if at > 0 => !pointer[at + 1..].starts_with(['0', '1']),
        _ => at == 0 && c != '/',
    };
    match pointer.char_indices().find(is_wrong) {
        Some((index, c)) => Err(Error { kind: ErrorType::InvalidPointer, index, character: Some(c) }),
        None => Ok(()),
    }
}

/// Where and why an input is rejected: [`Error::location`].
#[derive(Clone, Debug, PartialEq, Eq)]
pub struct Location {
    pub(crate) position: Position,
    pub(crate) reason: String,
}

impl Location {
    /// The index in bytes: that of the error; for more text after a document that of this text; for an error of the
    /// whole input that of the bytes which are wrong.
    pub fn byte(&self) -> usize {
        self.position.byte
    }

    /// The line, by line feeds, from 1.
    pub fn line(&self) -> usize {
        self.position.line
    }

    /// The column, in characters, from 1.
    pub fn column(&self) -> usize {
        self.position.column
    }

    /// The reason, as "expected a value, found `]`".
    pub fn reason(&self) -> &str {
        &self.reason
    }
}

impl fmt::Display for Location {
    fn fmt(&self, f: &mut fmt::Formatter<'_>) -> fmt::Result {
        write!(f, "{}:{}: {}", self.line(), self.column(), self.reason)
    }
}

impl fmt::Display for Error {
    fn fmt(&self, f: &mut fmt::Formatter<'_>) -> fmt::Result {
        write!(f, "{} at character {}", self.kind, self.index)?;
        if let Some(character) = self.character {
            write!(f, " ('{character}')")?;
        }
        f.write_str(if self.kind == ErrorType::InvalidPointer { ": write `/a/0`, with `~0` for `~`" } else { "" })
    }
}

impl std::error::Error for Error {}
