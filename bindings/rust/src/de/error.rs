//! Why an input could not be read as a type, and where.
use crate::error::{Error, ErrorType, Location};
use crate::ffi::{located, node_position, Buffers, Nodes, Position};
use crate::value::ValueType;
use serde::de::{Expected, Unexpected};
use std::fmt;

/// Why an input could not be read as a type: it is no document, or the document does not fit.
///
/// It prints as `/users/0/id: invalid type: string "x", expected u64 at line 2 column 9`.
pub struct ReadError(Box<Inner>);

#[derive(Debug, Default)]
struct Inner {
    // of an input that is no document
    parse: Option<Error>,
    // how many nodes there were from the one on that does not fit
    left: Option<usize>,
    is_at_end: bool,
    path: String,
    location: Option<Location>,
    reason: String,
}

impl ReadError {
    /// The first error of the input, if it is no document; also that of a malformed JSON Pointer.
    pub fn parse_error(&self) -> Option<Error> {
        self.0.parse
    }

    /// The JSON Pointer (RFC 6901) to the value that does not fit, as `/users/0/id`: from the document on, or from the
    /// value that was read. Empty of an input that is no document. Of a key it is the path of its object.
    pub fn path(&self) -> &str {
        &self.0.path
    }

    /// The reason, as "expected a value, found `]`", or in the words of `serde`. Where there is no location it is the
    /// kind of the error of an input, with its index.
    pub fn reason(&self) -> &str {
        &self.0.reason
    }

    /// Where it is in the input: a field that is missing at the end of its object, a key that is there twice at the
    /// second. `None` if a value of a tape was read, the input was overwritten, or an allocation failed.
    pub fn location(&self) -> Option<&Location> {
        self.0.location.as_ref()
    }

    /// The line, by line feeds, from 1; 0 where there is no location.
    pub fn line(&self) -> usize {
        self.location().map_or(0, Location::line)
    }

    /// The column in characters, from 1; 0 where there is no location.
    pub fn column(&self) -> usize {
        self.location().map_or(0, Location::column)
    }

    fn new(reason: String) -> ReadError {
        ReadError(Box::new(Inner { reason, ..Inner::default() }))
    }

    #[cold]
    pub(super) fn of_parse(error: Error, input: Option<&[u8]>) -> ReadError {
        let location = input.and_then(|input| located(input, &error).ok());
        let reason = location.as_ref().map_or_else(|| error.to_string(), |at| at.reason.clone());
        let mut read = ReadError::new(reason);
        (read.0.parse, read.0.location) = (Some(error), location);
        read
    }

    /// The same, at a node unless it is at one beneath.
    #[cold]
    pub(super) fn at(mut self, left: usize) -> ReadError {
        self.0.left.get_or_insert(left);
        self
    }

    /// The same with its path from a value on, of which all nodes were there at first.
    #[cold]
    pub(super) fn beneath(mut self, value: Nodes<'_, '_>) -> ReadError {
        if let Some(left) = self.0.left.take() {
            self.0.path = path_to(value, value.nodes.len() - left);
        }
        self
    }

    /// The same with its path, and its place in the input of which this is the value.
    #[cold]
    pub(super) fn in_input(mut self, value: Nodes<'_, '_>, input: &[u8]) -> ReadError {
        let node = value.nodes.len() - self.0.left.unwrap_or(value.nodes.len());
        let reason = self.0.reason.clone();
        let start = node_position(input, node);
        let position = if self.0.is_at_end { start.and_then(|start| end_of(input, start.byte)) } else { start };
        self.0.location = position.map(|position| Location { position, reason });
        self.beneath(value)
    }
}

// The bracket that closes the object at an index of a document.
fn end_of(input: &[u8], start: usize) -> Option<Position> {
    let index = match Buffers::with_max_depth(usize::MAX).ok()?.check(&input[start..]) {
        // Text after a document is an error at the bracket that closes it.
        Err(error) => start + error.index,
        Ok(()) => input.iter().rposition(|byte| *byte == b'}')?,
    };
    // The position of an error of this kind is that of its index.
    let error = Error { kind: ErrorType::ExpectedObjectKey, index, character: Some('}') };
    located(input, &error).ok().map(|location| location.position)
}

// The JSON Pointer to a node beneath a value; of a key that of its object.
fn path_to(value: Nodes<'_, '_>, node: usize) -> String {
    let (mut path, mut container) = (String::new(), 0);
    while container < node {
        let is_object = value.nodes[container].kind() == ValueType::Object;
        // the key, or else the value, of the member that has the node, and that value
        let (mut member, mut number) = (container + 1, 0);
        container = member + usize::from(is_object);
        while container + value.nodes[container].count() <= node {
            member = container + value.nodes[container].count();
            container = member + usize::from(is_object);
            number += 1;
        }
        if container > node {
            break;
        }
        path.push('/');
        if is_object {
            path.push_str(&value.text(&value.nodes[member]).replace('~', "~0").replace('/', "~1"));
        } else {
            path.push_str(&number.to_string());
        }
    }
    path
}

/// The error of an input, without its location, since that is not known.
impl From<Error> for ReadError {
    fn from(error: Error) -> ReadError {
        ReadError::of_parse(error, None)
    }
}

impl serde::de::Error for ReadError {
    #[cold]
    fn custom<T: fmt::Display>(words: T) -> ReadError {
        ReadError::new(words.to_string())
    }

    // As serde_json: `null`, which serde calls a unit value.
    #[cold]
    fn invalid_type(found: Unexpected<'_>, expected: &dyn Expected) -> ReadError {
        match found {
            Unexpected::Unit => ReadError::new(format!("invalid type: null, expected {expected}")),
            found => ReadError::new(format!("invalid type: {found}, expected {expected}")),
        }
    }

    #[cold]
    fn missing_field(field: &'static str) -> ReadError {
        let mut error = ReadError::new(format!("missing field `{field}`"));
        error.0.is_at_end = true;
        error
    }
}

impl fmt::Display for ReadError {
    fn fmt(&self, f: &mut fmt::Formatter<'_>) -> fmt::Result {
        if !self.path().is_empty() {
            write!(f, "{}: ", self.path())?;
        }
        f.write_str(self.reason())?;
        match self.location() {
            Some(at) => write!(f, " at line {} column {}", at.line(), at.column()),
            None => Ok(()),
        }
    }
}

impl fmt::Debug for ReadError {
    fn fmt(&self, f: &mut fmt::Formatter<'_>) -> fmt::Result {
        write!(f, "ReadError({:?})", self.to_string())
    }
}

impl std::error::Error for ReadError {}
