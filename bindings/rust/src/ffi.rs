//! The calls of the library, which `include/simd_json.h` documents: all that is `unsafe` in this crate.
use crate::error::{check_pointer, Error, ErrorType, Location};
use crate::value::{Tape, Value, ValueType};
use std::ffi::c_void;
use std::{fmt, ptr, slice, str};

/// A node, as the library writes it.
#[repr(C)]
#[derive(Debug)]
pub(crate) struct Node {
    kind: u32,
    pub(crate) len: u32,
    pub(crate) value: u64,
}

impl Node {
    /// What it is.
    #[inline]
    pub(crate) fn kind(&self) -> ValueType {
        ValueType::numbered(self.kind).expect("the library has no other kinds")
    }

    /// How many nodes it and those in it are.
    #[inline]
    pub(crate) fn count(&self) -> usize {
        if self.kind < ValueType::Array as u32 { 1 } else { 1 + self.value as usize }
    }
}

/// Nodes of a document, of which the first begins a value or is a key, and the bytes in which their texts are.
#[derive(Clone, Copy)]
pub(crate) struct Nodes<'n, 't> {
    pub(crate) nodes: &'n [Node],
    bytes: &'t [u8],
}

impl<'n, 't> Nodes<'n, 't> {
    /// The first of them.
    #[inline]
    pub(crate) fn first(self) -> &'n Node {
        &self.nodes[0]
    }

    /// Those from an index on.
    #[inline]
    pub(crate) fn from(self, index: usize) -> Nodes<'n, 't> {
        Nodes { nodes: &self.nodes[index..], ..self }
    }

    /// The text of one of them: of a string, a key, a decimal or an integer beyond 64 bits.
    #[inline]
    pub(crate) fn text(self, node: &Node) -> &'t str {
        assert!(node.kind < ValueType::Array as u32);
        let (start, len) = (node.value as usize, node.len as usize);
        // SAFETY: the bytes of such a node are UTF-8, and others have none, but for headers.
        unsafe { str::from_utf8_unchecked(&self.bytes[start..start + len]) }
    }

    /// The value of the first member with a key, of the value that the first begins.
    pub(crate) fn get(self, key: &str) -> Option<Nodes<'n, 't>> {
        self.named(simd_json_get, key)
    }

    /// What a JSON Pointer names in the value that the first begins.
    pub(crate) fn pointer(self, pointer: &str) -> Result<Option<Nodes<'n, 't>>, Error> {
        match self.named(simd_json_pointer, pointer) {
            None => check_pointer(pointer).map(|()| None),
            found => Ok(found),
        }
    }

    fn named(self, call: LookUp, name: &str) -> Option<Nodes<'n, 't>> {
        let (nodes, len, bytes, bytes_len) = self.parts();
        // SAFETY: these are only read, until the call returns.
        let index = unsafe { call(nodes, len, bytes, bytes_len, 0, name.as_ptr(), name.len()) };
        // No node has the index that is returned for none, the greatest.
        (index < len).then(|| self.from(index))
    }

    fn parts(self) -> (*const Node, usize, *const u8, usize) {
        (self.nodes.as_ptr(), self.nodes.len(), self.bytes.as_ptr(), self.bytes.len())
    }

    /// The text of the value that the first begins; `None` if an allocation fails.
    pub(crate) fn printed(self, is_pretty: bool) -> Option<String> {
        let (nodes, len, bytes, bytes_len) = self.parts();
        let (mut text, first) = (Vec::new(), self.first());
        let each = if is_pretty { 48 } else { 24 };
        let mut needed = each * first.count() + first.len as usize; // enough for most
        loop {
            text.try_reserve_exact(needed).ok()?;
            let (layout, out, room) = (u32::from(is_pretty), text.as_mut_ptr(), text.capacity());
            // SAFETY: nodes and bytes are only read, and the text is written, until the call returns.
            let status = unsafe { simd_json_print(nodes, len, bytes, bytes_len, 0, layout, out, room, &mut needed) };
            if status == OK {
                // SAFETY: so many bytes are written, in UTF-8 as the texts of the document are.
                return unsafe {
                    text.set_len(needed);
                    Some(String::from_utf8_unchecked(text))
                };
            }
            if status != TOO_LITTLE_ROOM {
                return None;
            }
        }
    }

    /// The double nearest to the literal of one of them; infinite where it is past the greatest.
    #[inline]
    pub(crate) fn double(self, node: &Node) -> f64 {
        let (literal, mut number) = (self.text(node), 0.0);
        // SAFETY: the literal is only read, and the number written, until the call returns.
        unsafe { simd_json_double(literal.as_ptr(), literal.len(), &mut number) };
        number
    }

    /// The integer whose literal one of them has: 128 bits, of a negative one in two's complement.
    pub(crate) fn wide(self, node: &Node) -> u128 {
        let (literal, mut low, mut high) = (self.text(node), 0, 0);
        // SAFETY: the literal is only read, and both words are written, until the call returns.
        unsafe { simd_json_integer(literal.as_ptr(), literal.len(), &mut low, &mut high) };
        u128::from(high) << 64 | u128::from(low)
    }
}

#[repr(C)]
struct Place {
    index: usize,
    character: u32,
}

const NO_PLACE: Place = Place { index: 0, character: u32::MAX };

/// A place in an input, its line and its column from 1.
#[repr(C)]
#[derive(Clone, Copy, Debug, Default, PartialEq, Eq)]
pub(crate) struct Position {
    pub(crate) byte: usize,
    pub(crate) line: usize,
    pub(crate) column: usize,
    status: i32,
}

#[repr(C)]
struct Extent {
    kind: u32,
    len: usize,
}

/// What is found: its kind, `MISSING` if there is none, and where it is in the input.
#[repr(C)]
#[derive(Debug)]
struct Field {
    kind: u32,
    has_escape: u32,
    len: usize,
    value: u64,
}

const MISSING: u32 = 10;

impl Field {
    fn is_parsed(&self) -> bool {
        self.has_escape != 0 || (ValueType::Array as u32..MISSING).contains(&self.kind)
    }

    /// The node of another one, whose text is in the input.
    fn node(&self) -> Node {
        let quotes = u64::from(self.kind == ValueType::String as u32);
        Node { kind: self.kind, len: (self.len as u64).wrapping_sub(2 * quotes) as u32, value: self.value + quotes }
    }
}

/// The nodes of a parser, and the bytes of the input that it has read.
#[repr(C)]
pub(crate) struct Document {
    nodes: *const Node,
    nodes_len: usize,
    bytes: *const u8,
    bytes_len: usize,
}

// SAFETY: the memory is only read, and belongs to no thread.
unsafe impl Send for Document {}
unsafe impl Sync for Document {}

impl Document {
    /// The value of the document. A `Tape` has borrowed parser and input, or owns them and uses them no more.
    pub(crate) fn value(&self) -> Value<'_> {
        // SAFETY: so both stay as they are while the tape is borrowed.
        Value(unsafe { self.nodes() })
    }

    // The parser must not be used as long as its nodes are, nor the input as long as its bytes are.
    unsafe fn nodes<'n, 't>(&self) -> Nodes<'n, 't> {
        Nodes {
            nodes: slice::from_raw_parts(self.nodes, self.nodes_len),
            bytes: slice::from_raw_parts(self.bytes, self.bytes_len),
        }
    }
}

const OK: i32 = 0;
const TOO_LITTLE_ROOM: i32 = 19;
const REASON_MAX: usize = 128;

type LookUp = unsafe extern "C" fn(*const Node, usize, *const u8, usize, usize, *const u8, usize) -> usize;
type Read = unsafe extern "C" fn(*mut RawParser, *const u8, usize, *mut Place) -> i32;

// A number without a name is the length of what the pointer before it points to.
extern "C" {
    fn simd_json_double(literal: *const u8, _: usize, number: *mut f64) -> i32;
    fn simd_json_integer(literal: *const u8, _: usize, low: *mut u64, high: *mut u64) -> i32;
    fn simd_json_get(_: *const Node, _: usize, _: *const u8, _: usize, object: usize, _: *const u8, _: usize) -> usize;
    fn simd_json_pointer(_: *const Node, _: usize, _: *const u8, _: usize, at: usize, _: *const u8, _: usize) -> usize;
    fn simd_json_print(
        nodes: *const Node,
        _: usize,
        bytes: *const u8,
        _: usize,
        from: usize,
        layout: u32,
        out: *mut u8,
        _: usize,
        needed: *mut usize,
    ) -> i32;
    fn simd_json_location(
        input: *const u8,
        _: usize,
        first_line: usize,
        status: i32,
        place: *const Place,
        position: *mut Position,
        out: *mut u8,
        _: usize,
        needed: *mut usize,
    ) -> i32;
    #[cfg(feature = "serde")]
    fn simd_json_node_position(input: *const u8, _: usize, node: usize, position: *mut Position) -> i32;
    fn simd_json_open(parser: *mut RawParser, max_depth: usize) -> i32;
    fn simd_json_close(parser: *mut RawParser);
    fn simd_json_parser_check(_: *mut RawParser, input: *const u8, _: usize, place: *mut Place) -> i32;
    fn simd_json_parser_scan(_: *mut RawParser, input: *const u8, _: usize, place: *mut Place) -> i32;
    fn simd_json_parser_parse(_: *mut RawParser, _: *mut u8, _: usize, _: *mut Document, place: *mut Place) -> i32;
    fn simd_json_parser_pointer(_: *mut RawParser, _: *const u8, _: usize, _: *mut Extent, _: *mut u8, _: usize) -> i32;
    fn simd_json_parser_add(_: *mut RawParser, pointer: *const u8, _: usize) -> i32;
    fn simd_json_parser_pointers(
        _: *mut RawParser,
        input: *const u8,
        _: usize,
        fields: *mut Field,
        _: usize,
        place: *mut Place,
    ) -> i32;
    fn simd_json_check(input: *const u8, _: usize, max_depth: usize, place: *mut Place) -> i32;
}

/// The place and the reason of an error in the input that it is of.
pub(crate) fn located(input: &[u8], error: &Error) -> Result<Location, Error> {
    let place = Place { index: error.index, character: error.character.map_or(u32::MAX, u32::from) };
    let (mut position, mut reason, mut needed) = (Position::default(), [0; REASON_MAX], 0);
    let (text, len, status, out) = (input.as_ptr(), input.len(), error.kind as i32, reason.as_mut_ptr());
    // SAFETY: input and place are only read, and the rest is written, until the call returns.
    let status =
        unsafe { simd_json_location(text, len, 1, status, &place, &mut position, out, REASON_MAX, &mut needed) };
    let reason = String::from_utf8_lossy(&reason[..needed]).into_owned();
    if status == OK { Ok(Location { position, reason }) } else { Err(OUT_OF_MEMORY) }
}

/// Where a node of a document was written in the input; `None` if an allocation fails.
#[cfg(feature = "serde")]
pub(crate) fn node_position(input: &[u8], node: usize) -> Option<Position> {
    let mut position = Position::default();
    // SAFETY: the input is only read, and the position written, until the call returns.
    let status = unsafe { simd_json_node_position(input.as_ptr(), input.len(), node, &mut position) };
    (status == OK).then_some(position)
}

/// Checks that the input is a document with at most 1,024 open containers. The input is unchanged.
///
/// # Errors
///
/// The first error of the input, with its kind, index and character.
pub fn check(input: &[u8]) -> Result<(), Error> {
    Buffers::default().check(input)
}

const MAX_DEPTH: usize = 1024;

const OUT_OF_MEMORY: Error = Error { kind: ErrorType::OutOfMemory, index: 0, character: None };

fn result_of(status: i32, place: &Place) -> Result<(), Error> {
    if status == OK {
        return Ok(());
    }
    // The library returns no other status here: PARSER_CLOSED is excluded by how it is called.
    let kind = ErrorType::numbered(status as u32).unwrap_or(ErrorType::InternalError);
    Err(Error { kind, index: place.index, character: char::from_u32(place.character) })
}

// Makes a list at least so long; `None` if an allocation fails.
fn lengthen(list: &mut Vec<u8>, len: usize) -> Option<()> {
    if list.len() < len {
        list.try_reserve(len - list.len()).ok()?;
        list.resize(len, 0);
    }
    Some(())
}

#[repr(C)]
struct RawParser {
    at: *mut c_void,
    is_open: u8,
}

pub(crate) struct Parser {
    // closed before the first input of a default
    raw: RawParser,
    max_depth: usize,
}

// SAFETY: what `at` points to is this parser's alone, the library keeps nothing that belongs to a thread, and no call
// takes a parser that is only shared.
unsafe impl Send for Parser {}
unsafe impl Sync for Parser {}

impl Parser {
    fn open(&mut self) -> Result<&mut RawParser, Error> {
        // SAFETY: the parser is closed, as the call wants it.
        if self.raw.is_open == 0 && unsafe { simd_json_open(&mut self.raw, self.max_depth) } != OK {
            return Err(OUT_OF_MEMORY);
        }
        Ok(&mut self.raw)
    }

    fn read(&mut self, input: &[u8], call: Read) -> Result<(), Error> {
        let mut place = NO_PLACE;
        // SAFETY: the parser is open, the input is only read, and the place written, until the call returns.
        let status = unsafe { call(self.open()?, input.as_ptr(), input.len(), &mut place) };
        result_of(status, &place)
    }

    /// The document of an input, which is overwritten.
    pub(crate) fn parse(&mut self, input: &mut [u8]) -> Result<Document, Error> {
        let mut document = Document { nodes: ptr::null(), nodes_len: 0, bytes: ptr::null(), bytes_len: 0 };
        let mut place = NO_PLACE;
        // SAFETY: the parser is open, and the rest is written until the call returns.
        let status = unsafe {
            simd_json_parser_parse(self.open()?, input.as_mut_ptr(), input.len(), &mut document, &mut place)
        };
        result_of(status, &place).map(|()| document)
    }

    /// The nodes of an input, and the input with their texts, which so outlive the nodes.
    #[cfg(feature = "serde")]
    pub(crate) fn nodes<'n, 't>(&'n mut self, input: &'t mut [u8]) -> Result<Nodes<'n, 't>, Error> {
        let document = self.parse(input)?;
        // SAFETY: both are borrowed as long.
        Ok(unsafe { document.nodes() })
    }

    // The length of the value that a pointer names in the input that is kept: it is at the front of `out`, as it is
    // written.
    fn pointer(&mut self, pointer: &str, out: &mut Vec<u8>) -> Result<Option<usize>, Error> {
        let mut found = Extent { kind: 0, len: 0 };
        loop {
            let (name, len, text, room) = (pointer.as_ptr(), pointer.len(), out.as_mut_ptr(), out.len());
            // SAFETY: the pointer is only read, and the rest written, until the call returns.
            let status = unsafe { simd_json_parser_pointer(&mut self.raw, name, len, &mut found, text, room) };
            match status {
                OK => return Ok(Some(found.len)),
                TOO_LITTLE_ROOM => lengthen(out, found.len).ok_or(OUT_OF_MEMORY)?,
                _ => return Ok(None),
            }
        }
    }
}

impl Drop for Parser {
    fn drop(&mut self) {
        // SAFETY: closing a closed parser does nothing, and this one is not used afterwards.
        unsafe { simd_json_close(&mut self.raw) }
    }
}

/// The memory of a parser, which is kept from one input to the next. A tape of its nodes ends with the next call.
///
/// `Buffers::default()` takes memory with the first input, for at most 1,024 open containers.
pub struct Buffers {
    pub(crate) parser: Parser,
    // what is parsed where the input may not be overwritten, at the front
    copy: Vec<u8>,
}

impl Buffers {
    /// Memory for inputs with at most 1,024 open containers.
    ///
    /// # Errors
    ///
    /// `OutOfMemory` if an allocation fails.
    pub fn new() -> Result<Buffers, Error> {
        Buffers::with_max_depth(MAX_DEPTH)
    }

    /// Memory for inputs with at most `max_depth` open containers.
    ///
    /// # Errors
    ///
    /// `OutOfMemory` if an allocation fails.
    pub fn with_max_depth(max_depth: usize) -> Result<Buffers, Error> {
        let mut buffers = Buffers::default();
        buffers.parser.max_depth = max_depth;
        buffers.parser.open()?;
        Ok(buffers)
    }

    /// Parses a document into a tape, whose nodes are in this memory and whose texts are in the input, which is
    /// overwritten. So the input may be neither a temporary nor changed while there is a tape.
    ///
    /// # Errors
    ///
    /// The first error of the input, with its kind, index and character.
    pub fn parse<'a>(&'a mut self, input: &'a mut [u8]) -> Result<Tape<'a>, Error> {
        self.parser.parse(input).map(|document| Tape::new(document, None))
    }

    /// The value of an input that is left as it is, since a copy is parsed.
    #[cfg(feature = "serde")]
    pub(crate) fn value(&mut self, input: &[u8]) -> Result<Value<'_>, Error> {
        lengthen(&mut self.copy, input.len()).ok_or(OUT_OF_MEMORY)?;
        let copy = &mut self.copy[..input.len()];
        copy.copy_from_slice(input);
        self.parser.nodes(copy).map(Value)
    }

    /// Checks that the input is a document. The input is unchanged.
    ///
    /// # Errors
    ///
    /// The first error of the input, with its kind, index and character.
    pub fn check(&mut self, input: &[u8]) -> Result<(), Error> {
        self.parser.read(input, simd_json_parser_check)
    }

    /// Keeps a copy of an input with its structural indexes, for [`Index::pointer`].
    ///
    /// # Errors
    ///
    /// An error of the whole input: its size, its encoding, or a string that has no end or contains a byte below 0x20.
    /// Whether it is a document is not checked.
    pub fn scan<'b>(&'b mut self, input: &'b [u8]) -> Result<Index<'b>, Error> {
        self.parser.read(input, simd_json_parser_scan)?;
        Ok(Index { buffers: self, input, outcome: None })
    }
}

/// An input whose values are found on demand, without nodes: [`Buffers::scan`]. A value ends with the next call.
///
/// ```
/// let mut buffers = simd_json_proved::Buffers::default();
/// let mut index = buffers.scan(br#"{"user":{"id":7},"tags":["a"]}"#)?;
/// assert_eq!(index.pointer("/user/id")?.and_then(|value| value.as_u64()), Some(7));
/// assert!(index.pointer("/user/name")?.is_none());
/// # Ok::<(), simd_json_proved::Error>(())
/// ```
#[derive(Debug)]
pub struct Index<'buffers> {
    buffers: &'buffers mut Buffers,
    input: &'buffers [u8],
    // of a check of the input, once there was one
    outcome: Option<Result<(), Error>>,
}

impl Index<'_> {
    /// The value that a JSON Pointer (RFC 6901) names, or `None` if the document lacks it. Only the value and what is
    /// on the way to it are checked: it may also be found in an input that is not a document. Where there is none, the
    /// input is checked, once for all pointers.
    ///
    /// # Errors
    ///
    /// `InvalidPointer` if the pointer is malformed; the first error of the input, if the value is malformed or there
    /// is none.
    pub fn pointer(&mut self, pointer: &str) -> Result<Option<Value<'_>>, Error> {
        let Buffers { parser, copy } = &mut *self.buffers;
        match parser.pointer(pointer, copy)?.map(|len| parser.parse(&mut copy[..len])) {
            // SAFETY: parser and copy are borrowed as long.
            Some(Ok(document)) => Ok(Some(Value(unsafe { document.nodes() }))),
            Some(Err(error)) => self.check().and(Err(error)),
            None => check_pointer(pointer).and_then(|()| self.check()).map(|()| None),
        }
    }

    fn check(&mut self) -> Result<(), Error> {
        let Index { buffers, input, outcome } = self;
        *outcome.get_or_insert_with(|| buffers.check(input))
    }
}

/// The values of several JSON Pointers (RFC 6901) in one input after another, each found in one walk.
///
/// ```
/// use simd_json_proved::Fields;
///
/// let mut fields = Fields::new(["/status", "/request/path"])?;
/// for line in [r#"{"status":404,"request":{"path":"/a"}}"#, r#"{"status":200}"#] {
///     let found = fields.get(line.as_bytes())?;
///     if found.get(0).is_some_and(|status| status == 404) {
///         assert_eq!(found.get(1).and_then(|path| path.as_str()), Some("/a"));
///     }
/// }
/// # Ok::<(), simd_json_proved::Error>(())
/// ```
#[derive(Debug)]
pub struct Fields {
    // what is parsed is an array in the copy
    buffers: Buffers,
    max_depth: usize,
    fields: Vec<Field>,
    // of each its node, or of what is parsed the index of its node there
    nodes: Vec<Node>,
}

impl Fields {
    /// Prepares pointers, for inputs with at most 1,024 open containers.
    ///
    /// # Errors
    ///
    /// `InvalidPointer` if one is malformed, `OutOfMemory` if an allocation fails.
    pub fn new<P: AsRef<str>>(pointers: impl IntoIterator<Item = P>) -> Result<Fields, Error> {
        Fields::with_max_depth(pointers, MAX_DEPTH)
    }

    /// The same with another limit of open containers.
    ///
    /// # Errors
    ///
    /// As of [`Fields::new`].
    pub fn with_max_depth<P: AsRef<str>>(
        pointers: impl IntoIterator<Item = P>,
        max_depth: usize,
    ) -> Result<Fields, Error> {
        let mut buffers = Buffers::with_max_depth(max_depth.saturating_add(1))?;
        let (mut fields, mut nodes) = (Vec::new(), Vec::new());
        for pointer in pointers {
            let pointer = pointer.as_ref();
            check_pointer(pointer)?;
            fields.try_reserve(1).and(nodes.try_reserve(1)).map_err(|_| OUT_OF_MEMORY)?;
            // SAFETY: the parser is open, and the pointer only read, until the call returns.
            let status = unsafe { simd_json_parser_add(&mut buffers.parser.raw, pointer.as_ptr(), pointer.len()) };
            result_of(status, &NO_PLACE)?;
            fields.push(Field { kind: MISSING, has_escape: 0, len: 0, value: 0 });
            nodes.push(Node { kind: MISSING, len: 0, value: 0 });
        }
        Ok(Fields { buffers, max_depth, fields, nodes })
    }

    /// The values in an input, until the next call. Only these and what is on the way to them are checked: they may
    /// also be found in an input that is not a document. If there is none for a pointer, the input is checked. Strings
    /// with escapes, arrays and objects are parsed from a copy, other texts are in the input.
    ///
    /// # Errors
    ///
    /// An error of the whole input, as of [`Buffers::scan`]; the first error of the input, if a value is malformed or
    /// there is none; `OutOfMemory` if an allocation fails.
    pub fn get<'f>(&'f mut self, input: &'f [u8]) -> Result<Found<'f>, Error> {
        let (text, len, fields, count) = (input.as_ptr(), input.len(), self.fields.as_mut_ptr(), self.fields.len());
        let (parser, mut place) = (&mut self.buffers.parser.raw, NO_PLACE);
        // SAFETY: the parser is open, the input only read, and the rest written, until the call returns.
        let status = unsafe { simd_json_parser_pointers(parser, text, len, fields, count, &mut place) };
        result_of(status, &place)?;
        if self.fields.iter().any(|field| field.kind == MISSING) {
            self.check(input)?;
        }
        let copy = &mut self.buffers.copy;
        copy.clear();
        for (field, node) in self.fields.iter().zip(&mut self.nodes) {
            *node = field.node();
            if field.is_parsed() {
                copy.try_reserve(field.len + 2).map_err(|_| OUT_OF_MEMORY)?;
                copy.push(if copy.is_empty() { b'[' } else { b',' });
                copy.extend_from_slice(&input[field.value as usize..][..field.len]);
            }
        }
        let parsed = if copy.is_empty() { None } else { Some(self.parse(input)?) };
        // SAFETY: the buffers are borrowed as long.
        let parsed = parsed.map(|document| unsafe { document.nodes() });
        Ok(Found { fields: &self.fields, nodes: &self.nodes, input, parsed })
    }

    // The array in the copy, and where each field is in it.
    fn parse(&mut self, input: &[u8]) -> Result<Document, Error> {
        let Buffers { parser, copy } = &mut self.buffers;
        copy.push(b']');
        let document = parser.parse(copy).map_err(|error| match error.kind {
            ErrorType::OutOfMemory => error,
            _ => self.check(input).err().unwrap_or(error),
        })?;
        // SAFETY: the buffers are not used before these end.
        let parsed = unsafe { document.nodes() };
        let mut at = 1;
        for (_, node) in self.fields.iter().zip(&mut self.nodes).filter(|(field, _)| field.is_parsed()) {
            node.value = at as u64;
            at += parsed.nodes[at].count();
        }
        Ok(document)
    }

    fn check(&self, input: &[u8]) -> Result<(), Error> {
        let mut place = NO_PLACE;
        // SAFETY: the input is only read, and the place written, until the call returns.
        let status = unsafe { simd_json_check(input.as_ptr(), input.len(), self.max_depth, &mut place) };
        result_of(status, &place)
    }
}

/// What [`Fields::get`] has found: of each pointer, in their order, the value or `None`.
#[derive(Clone, Copy)]
pub struct Found<'f> {
    fields: &'f [Field],
    nodes: &'f [Node],
    input: &'f [u8],
    parsed: Option<Nodes<'f, 'f>>,
}

impl<'f> Found<'f> {
    /// The value of the pointer with this number, from 0; `None` if there is none, or no such pointer.
    pub fn get(&self, index: usize) -> Option<Value<'f>> {
        let field = self.fields.get(index).filter(|field| field.kind != MISSING)?;
        Some(Value(match self.parsed {
            Some(parsed) if field.is_parsed() => parsed.from(self.nodes[index].value as usize),
            _ => Nodes { nodes: &self.nodes[index..=index], bytes: self.input },
        }))
    }

    /// The values of all pointers.
    pub fn iter(&self) -> impl ExactSizeIterator<Item = Option<Value<'f>>> + 'f {
        let found = *self;
        (0..found.fields.len()).map(move |index| found.get(index))
    }
}

impl fmt::Debug for Found<'_> {
    fn fmt(&self, f: &mut fmt::Formatter<'_>) -> fmt::Result {
        f.debug_list().entries(self.iter()).finish()
    }
}

impl Default for Buffers {
    fn default() -> Buffers {
        let raw = RawParser { at: ptr::null_mut(), is_open: 0 };
        Buffers { parser: Parser { raw, max_depth: MAX_DEPTH }, copy: Vec::new() }
    }
}

impl fmt::Debug for Buffers {
    fn fmt(&self, f: &mut fmt::Formatter<'_>) -> fmt::Result {
        f.debug_struct("Buffers").field("max_depth", &self.parser.max_depth).finish_non_exhaustive()
    }
}
