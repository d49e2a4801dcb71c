//! Types that derive `serde::Deserialize`, beside `serde_json`.
#![cfg(feature = "serde")]
use serde::de::{DeserializeOwned, Deserializer, Visitor};
use serde::{Deserialize, Serialize};
use simd_json_proved::{
    from_slice, from_slice_mut, from_slice_mut_with, from_slice_with, from_str, to_owned_tape, Buffers, ErrorType,
    ReadError,
};
use std::borrow::Cow;
use std::collections::BTreeMap;
use std::fmt::Debug;

#[derive(Clone, Debug, Default, Deserialize, PartialEq)]
struct Strict {
    id: u64,
    #[serde(default)]
    sizes: (i8, Option<f64>),
    #[serde(rename = "a/b", default)]
    slashed: BTreeMap<String, Vec<u16>>,
}

#[derive(Debug, Deserialize, PartialEq)]
#[serde(deny_unknown_fields)]
struct Denying {
    id: u8,
    name: Option<String>,
}

#[derive(Debug, Deserialize, PartialEq)]
struct Flat {
    kind: char,
    #[serde(flatten)]
    strict: Strict,
    #[serde(flatten)]
    rest: BTreeMap<String, serde_json::Value>,
}

#[derive(Debug, Deserialize, PartialEq)]
enum Shape {
    Dot,
    Circle(f32),
    Line(i32, i32),
    Box { w: u32, h: u32 },
    #[serde(rename = "none")]
    Nothing(Option<()>),
}

#[derive(Debug, Deserialize, PartialEq)]
#[serde(tag = "type")]
enum Tagged {
    A { x: i64 },
    B(Strict),
    C,
}

#[derive(Debug, Deserialize, PartialEq)]
#[serde(untagged)]
enum Untagged {
    Number(f64),
    Text(String),
    Many(Vec<Untagged>),
    Pair { key: bool },
    Nothing,
}

#[derive(Debug, Deserialize, PartialEq)]
struct Unit;

#[derive(Debug, Deserialize, PartialEq)]
struct New(Vec<(u8, String)>);

/// What asks for bytes that it may keep, and takes no text.
#[derive(Debug, Eq, Ord, PartialEq, PartialOrd)]
struct Kept(Vec<u8>);

impl<'de> Deserialize<'de> for Kept {
    fn deserialize<D: Deserializer<'de>>(deserializer: D) -> Result<Self, D::Error> {
        struct Bytes;
        impl Visitor<'_> for Bytes {
            type Value = Kept;
            fn expecting(&self, f: &mut std::fmt::Formatter<'_>) -> std::fmt::Result {
                f.write_str("bytes")
            }
            fn visit_bytes<E>(self, bytes: &[u8]) -> Result<Kept, E> {
                Ok(Kept(bytes.to_vec()))
            }
        }
        deserializer.deserialize_byte_buf(Bytes)
    }
}

#[derive(Debug, Deserialize, PartialEq)]
struct Tree {
    v: i16,
    #[serde(default)]
    next: Option<Box<Tree>>,
    #[serde(default)]
    more: Vec<Tree>,
}

/// What takes more than 5 kB of stack for each that is open, without optimization.
#[derive(Debug, Deserialize)]
#[allow(dead_code)]
struct Large {
    numbers: [u64; 32],
    next: Option<Box<Large>>,
}

fn read<T: DeserializeOwned>(text: &str) -> T {
    from_str(text).unwrap_or_else(|error| panic!("{text}: {error}"))
}

fn words<T: DeserializeOwned + Debug>(text: &str) -> String {
    from_str::<T>(text).unwrap_err().to_string()
}

#[test]
fn types_are_read() {
    let strict: Strict = read(r#"{"x":[{}],"id":18446744073709551615,"sizes":[-128,1e1],"a/b":{"k":[65535],"":[]}}"#);
    assert_eq!((strict.id, strict.sizes), (u64::MAX, (-128, Some(10.0))));
    assert_eq!(strict.slashed.into_iter().collect::<Vec<_>>(), [("".into(), vec![]), ("k".into(), vec![65535])]);
    assert_eq!(read::<Strict>("[7,[1,null],{}]"), Strict { id: 7, sizes: (1, None), ..Strict::default() });
    let flat: Flat = read(r#"{"a":null,"kind":"é","id":3,"b":{"c":[1,-1,0.5,"\n"]}}"#);
    assert_eq!((flat.kind, flat.strict.id, flat.rest.len()), ('é', 3, 2));
    assert_eq!(flat.rest["b"], serde_json::json!({"c": [1, -1, 0.5, "\n"]}));
    let shapes: Vec<Shape> = read(r#"["Dot",{"Circle":-0.1},{"Line":[-1,2]},{"Box":{"h":1,"w":2}},{"none":null},{"Dot":null},{"Box":[3,4]}]"#);
    let wanted = [
        Shape::Dot,
        Shape::Circle(-0.1),
        Shape::Line(-1, 2),
        Shape::Box { w: 2, h: 1 },
        Shape::Nothing(None),
        Shape::Dot,
        Shape::Box { w: 3, h: 4 },
    ];
    assert_eq!(shapes, wanted);
    let tagged: Vec<Tagged> = read(r#"[{"x":-5,"type":"A"},{"type":"B","id":1},{"type":"C"}]"#);
    assert_eq!(tagged[0], Tagged::A { x: -5 });
    let untagged: Untagged = read(r#"[1,"a",[{"key":true}],null]"#);
    let inner = Untagged::Many(vec![Untagged::Pair { key: true }]);
    assert_eq!(untagged, Untagged::Many(vec![Untagged::Number(1.0), Untagged::Text("a".into()), inner, Untagged::Nothing]));
    assert_eq!(read::<(Unit, New)>(r#"[null,[[1,"b"]]]"#), (Unit, New(vec![(1, "b".into())])));
    assert_eq!(read::<BTreeMap<i8, u8>>(r#"{"-5":1,"0":2}"#).into_iter().collect::<Vec<_>>(), [(-5, 1), (0, 2)]);
    assert_eq!(read::<BTreeMap<bool, Shape>>(r#"{"true":"Dot"}"#)[&true], Shape::Dot);
    let kept = |text: &str| Kept(text.into());
    let wanted = BTreeMap::from([(kept("a\n"), kept("b")), (kept(""), kept("é"))]);
    assert_eq!(read::<BTreeMap<Kept, Kept>>(r#"{"a\n":"b","":"é"}"#), wanted);
    assert_eq!(read::<serde_json::Value>("[{}]"), serde_json::json!([{}]));
}

#[test]
fn numbers_are_exact() {
    assert_eq!(read::<(u128, i128)>(&format!("[{},{}]", u128::MAX, i128::MIN)), (u128::MAX, i128::MIN));
    assert_eq!(read::<(u128, i128)>("[0,-1]"), (0, -1));
    assert_eq!(read::<(f64, f64)>("[18446744073709551616,-170141183460469231731687303715884105728]"), (2f64.powi(64), -(2f64.powi(127))));
    // Each is nearer to the greater of two floats by its last digit alone.
    assert_eq!(read::<f64>("9007199254740993.00000000000000000001").to_bits(), 9007199254740994f64.to_bits());
    assert_eq!(read::<f32>("16777217.00000000000000000001"), 16777218.0);
    assert_eq!(read::<(f64, f64)>("[5e-324,1e400]"), (f64::from_bits(1), f64::INFINITY));
    assert_eq!(words::<u64>("18446744073709551616"), "invalid type: integer `18446744073709551616` as i128, expected u64 at line 1 column 1");
    // What serde buffers, and a serde_json::Value, have no integers beyond 64 bits.
    for text in ["18446744073709551616", "-9223372036854775809"] {
        assert!(from_str::<Untagged>(text).is_err() && from_str::<serde_json::Value>(text).is_err());
    }
    assert_eq!(words::<i128>("[0]"), "invalid type: sequence, expected i128 at line 1 column 1");
    assert_eq!(words::<u8>("256"), "invalid value: integer `256`, expected u8 at line 1 column 1");
}

#[test]
fn strings_are_borrowed() {
    #[derive(Deserialize)]
    struct Line<'a> {
        level: &'a str,
        #[serde(borrow)]
        text: Cow<'a, str>,
        bytes: &'a [u8],
    }
    let mut buffers = Buffers::default();
    let mut ends = Vec::new();
    for text in [r#"{"level":"a\u0000","text":"\"","bytes":"é"}"#, r#"{"bytes":"","text":"b","level":""}"#] {
        let line: Line = from_slice_with(&mut buffers, text.as_bytes()).unwrap();
        assert!(matches!(line.text, Cow::Borrowed(_)));
        ends.push((line.level.len(), line.text.into_owned(), line.bytes.len()));
    }
    assert_eq!(ends, [(2, "\"".to_string(), 2), (0, "b".to_string(), 0)]);
    let tape = to_owned_tape(r#"{"a":[{"level":"x","text":"y","bytes":"z"}]}"#).unwrap();
    let line = Line::deserialize(tape.as_value().pointer("/a/0").unwrap().unwrap()).unwrap();
    assert_eq!((line.level, line.bytes), ("x", &b"z"[..]));
}

// With the next inputs in the same buffers, and when these are gone.
#[test]
fn strings_stay_in_their_inputs() {
    #[derive(Deserialize)]
    struct Line<'a> {
        number: f64,
        #[serde(borrow)]
        texts: Vec<&'a str>,
    }
    let text = |at: usize| format!("é\"{}", "x".repeat(at % 70));
    let input = |at: usize| {
        let texts = format!(r#"["\u00e9\"{}","","b"]"#, "x".repeat(at % 70));
        format!(r#"{{"texts":{texts},"number":{at}.25,"more":{{"\n":[340282366920938463463374607431768211455]}}}}"#)
    };
    let mut inputs: Vec<Vec<u8>> = (0..300).map(|at| input(at).into_bytes()).collect();
    let mut buffers = Buffers::default();
    let mut lines: Vec<(std::ops::Range<*const u8>, Line)> = Vec::new();
    for (at, input) in inputs.iter_mut().enumerate() {
        let range = input.as_ptr_range();
        let line = if at % 10 == 0 { from_slice_mut(input) } else { from_slice_mut_with(&mut buffers, input) };
        lines.push((range, line.unwrap()));
    }
    drop(buffers);
    for (at, (range, line)) in lines.iter().enumerate() {
        assert_eq!((line.texts.as_slice(), line.number), ([text(at).as_str(), "", "b"].as_slice(), at as f64 + 0.25));
        assert!(line.texts.iter().all(|text| range.contains(&text.as_ptr())));
    }
}

#[test]
fn errors_in_place_have_paths() {
    let mut buffers = Buffers::default();
    let mut text = *br#"[{"id":1},{"\u006eame":"\n","id":"x"}]"#;
    let error = from_slice_mut_with::<Vec<Denying>>(&mut buffers, &mut text).unwrap_err();
    assert_eq!(error.to_string(), "/1/id: invalid type: string \"x\", expected u8");
    assert_eq!((error.line(), error.column(), error.location(), error.parse_error()), (0, 0, None, None));
    let error = from_slice_mut::<u8>(&mut br#"["\n",]"#.to_vec()).unwrap_err();
    assert_eq!((error.to_string().as_str(), error.line()), ("InternalError at character 6 (']')", 0));
    assert_eq!(error.parse_error().map(|error| error.index()), Some(6));
    assert_eq!(from_slice_mut_with::<u8>(&mut buffers, &mut []).unwrap_err().to_string(), "Eof at character 0");
    assert_eq!(from_slice_mut_with::<Vec<u8>>(&mut buffers, &mut b"[1,2]".to_vec()).unwrap(), [1, 2]);
}

/// A key that is asked for as bytes, and refused.
#[derive(Debug, Eq, Ord, PartialEq, PartialOrd)]
struct Refused;

impl<'de> Deserialize<'de> for Refused {
    fn deserialize<D: Deserializer<'de>>(deserializer: D) -> Result<Self, D::Error> {
        struct Bytes;
        impl Visitor<'_> for Bytes {
            type Value = Refused;
            fn expecting(&self, f: &mut std::fmt::Formatter<'_>) -> std::fmt::Result {
                f.write_str("other bytes")
            }
        }
        deserializer.deserialize_bytes(Bytes)
    }
}

#[test]
fn errors_have_places() {
    let text = "{\"id\": 1,\n \"a/b\": {\"~é\": [1, 2,\n  \"x\"]}}";
    let error = from_str::<Strict>(text).unwrap_err();
    assert_eq!(error.to_string(), "/a~1b/~0é/2: invalid type: string \"x\", expected u16 at line 3 column 3");
    assert_eq!((error.path(), error.line(), error.column()), ("/a~1b/~0é/2", 3, 3));
    assert_eq!((error.location().unwrap().byte(), error.parse_error()), (35, None));
    // A field that is missing is its object's, one that is not known its key's.
    assert_eq!(words::<Vec<Denying>>("[\n{}]"), "/0: missing field `id` at line 2 column 2");
    assert_eq!(words::<Vec<Denying>>(r#"[{"id":1,"name":null,"nam":[]}]"#), "/0: unknown field `nam`, expected `id` or `name` at line 1 column 22");
    assert_eq!(words::<Denying>(r#"{"id":1,"id":2}"#), "duplicate field `id` at line 1 column 9");
    assert_eq!(words::<Denying>(r#"{"name":"é","id":true}"#), "/id: invalid type: boolean `true`, expected u8 at line 1 column 18");
    assert_eq!(words::<Vec<u8>>("[1,null]"), "/1: invalid type: null, expected u8 at line 1 column 4");
    assert_eq!(words::<(u8, u8)>("[1,2,3]"), "invalid length 3, expected no more than 2 at line 1 column 1");
    assert_eq!(words::<(u8, u8)>("[1]"), "invalid length 1, expected a tuple of size 2 at line 1 column 1");
    assert_eq!(words::<Vec<Shape>>(r#"[{"Dot":null,"Circle":1}]"#), "/0: invalid value: map, expected an object with one key at line 1 column 2");
    assert_eq!(words::<Vec<Shape>>(r#"[ 5 ]"#), "/0: invalid type: integer `5`, expected string or map at line 1 column 3");
    assert_eq!(words::<Vec<Shape>>(r#"[{"Line":[1,"2"]}]"#), "/0/Line/1: invalid type: string \"2\", expected i32 at line 1 column 13");
    assert_eq!(words::<Tagged>(r#"{"type":0,"x":1}"#), "/type: invalid type: integer `0`, expected variant identifier at line 1 column 9");
    assert_eq!(words::<Vec<Shape>>(r#"[[],"dot"]"#), "/0: invalid type: sequence, expected string or map at line 1 column 2");
    assert_eq!(words::<BTreeMap<u8, u8>>(r#"{"+1":1}"#), "invalid type: string \"+1\", expected u8 at line 1 column 2");
    assert_eq!(words::<Vec<BTreeMap<Refused, u8>>>(r#"[{"a":1}]"#), "/0: invalid type: byte array, expected other bytes at line 1 column 3");
    // A document that is none.
    let error = from_slice::<Strict>(b"{\"id\":1,\n\"\\n\": }").unwrap_err();
    assert_eq!(error.to_string(), "expected a value, found `}` at line 2 column 7");
    assert_eq!((error.parse_error().unwrap().error(), error.path()), (ErrorType::InternalError, ""));
    assert_eq!(from_slice::<Strict>(b"\"a\xff\"").unwrap_err().location().unwrap().byte(), 2);
    // Of a value of a tape there is a path, and no place.
    let tape = to_owned_tape(r#"[0,{"id":1,"name":[7]}]"#).unwrap();
    let error = Denying::deserialize(tape.as_value().get_idx(1).unwrap()).unwrap_err();
    assert_eq!((error.to_string().as_str(), error.line()), ("/name: invalid type: sequence, expected a string", 0));
}

#[test]
fn values_are_found_and_read() {
    let mut buffers = Buffers::default();
    let mut index = buffers.scan(br#"{"a":[{"id":1,"name":"b"}],"wrong":[1,,2]}"#).unwrap();
    assert_eq!(index.read::<Denying>("/a/0").unwrap(), Some(Denying { id: 1, name: Some("b".into()) }));
    assert_eq!(index.read::<&str>("/a/0/name").unwrap(), Some("b"));
    assert_eq!(index.read::<u8>("/a").unwrap_err().to_string(), "invalid type: sequence, expected u8");
    for pointer in ["/wrong", "/a/1"] {
        assert_eq!(index.read::<u8>(pointer).unwrap_err().to_string(), "InternalError at character 38 (',')");
    }
    let wanted = "InvalidPointer at character 0 ('a'): write `/a/0`, with `~0` for `~`";
    assert_eq!(index.read::<u8>("a").unwrap_err().to_string(), wanted);
    assert_eq!(buffers.scan(b"[1]").unwrap().read::<u8>("/1").unwrap(), None);
}

#[test]
fn both_errors_are_returned_as_one() {
    fn second(input: &[u8]) -> Result<Option<String>, ReadError> {
        let mut buffers = Buffers::with_max_depth(2)?;
        buffers.check(input)?;
        let mut index = buffers.scan(input)?;
        Ok(if index.pointer("/0")?.is_some() { index.read("/1")? } else { None })
    }
    assert_eq!(second(br#"[0,"a"]"#).unwrap(), Some("a".into()));
    assert_eq!(second(b"[0]").unwrap(), None);
    let error = second(b"[0,[[]]]").unwrap_err();
    assert_eq!(error.to_string(), "DepthLimitExceeded at character 4 ('[')");
    assert_eq!((error.parse_error().unwrap().index(), error.location()), (4, None));
    assert_eq!(second(b"[0,1]").unwrap_err().to_string(), "invalid type: integer `1`, expected a string");
}

#[test]
fn values_are_written() {
    let text = r#"[null,true,-1,18446744073709551615,"é\n",{"a":[],"b":{}},1.5]"#;
    let tape = to_owned_tape(text).unwrap();
    assert_eq!(serde_json::to_string(&tape).unwrap(), text);
    assert_eq!(serde_json::to_value(tape.as_value()).unwrap(), serde_json::from_str::<serde_json::Value>(text).unwrap());
    #[derive(Serialize)]
    struct Holder<'a> {
        rest: simd_json_proved::Value<'a>,
    }
    let wide = to_owned_tape("[340282366920938463463374607431768211455,-170141183460469231731687303715884105728]").unwrap();
    let held = serde_json::to_string(&Holder { rest: wide.as_value() }).unwrap();
    assert_eq!(held, format!(r#"{{"rest":[{},{}]}}"#, u128::MAX, i128::MIN));
}

#[test]
fn depth_ends_no_program() {
    // As deep as is allowed by default, on the stack that a thread has by default, in a build without optimization.
    fn judge<T: DeserializeOwned + Debug>(open: &str, innermost: &str, close: &str) {
        let each = open.matches(['[', '{']).count() - open.matches(']').count();
        let text = |depth: usize| open.repeat(depth / each) + innermost + &close.repeat(depth / each);
        assert!(from_str::<T>(&text(126)).is_ok() && from_slice_mut::<T>(&mut text(126).into_bytes()).is_ok());
        for deeper in [text(130), text(1024), text(100_000)] {
            let read = [from_str::<T>(&deeper), from_slice_mut::<T>(&mut deeper.into_bytes())];
            for error in read.map(|read| read.unwrap_err().parse_error().unwrap()) {
                assert_eq!(error.error(), ErrorType::DepthLimitExceeded);
            }
        }
    }
    judge::<Tree>("{\"v\":1,\"more\":[", "", "]}");
    judge::<Tree>("{\"v\":1,\"next\":", "null", "}");
    judge::<serde_json::Value>("{\"a\":", "1", "}");
    judge::<Untagged>("[", "", "]");
    judge::<Large>("{\"numbers\":[0,0,0,0,0,0,0,0,0,0,0,0,0,0,0,0,0,0,0,0,0,0,0,0,0,0,0,0,0,0,0,0],\"next\":", "null", "}");
    // More where it is asked for.
    let deep = "[".repeat(1024) + &"]".repeat(1024);
    assert!(from_slice_with::<Untagged>(&mut Buffers::default(), deep.as_bytes()).is_ok());
}

// xorshift (G. Marsaglia, "Xorshift RNGs", 2003).
struct Random(u64);

const SEED: u64 = 0x9e37_79b9_7f4a_7c15;

impl Random {
    fn next(&mut self) -> u64 {
        self.0 ^= self.0 << 13;
        self.0 ^= self.0 >> 7;
        self.0 ^= self.0 << 17;
        self.0
    }

    fn below(&mut self, n: usize) -> usize {
        (self.next() % n as u64) as usize
    }

    fn one_of<'a, T>(&mut self, of: &'a [T]) -> &'a T {
        &of[self.below(of.len())]
    }
}

fn count() -> usize {
    std::env::var("MUTANTS").map_or(100_000, |count| count.parse().unwrap())
}

// A number with up to 9 digits before the point and 20 behind it, sometimes with an exponent, or as a float is printed.
fn decimal(random: &mut Random) -> String {
    let whole = random.next() % 10u64.pow(random.below(10) as u32);
    let fraction: String = (0..=random.below(20)).map(|_| char::from(b'0' + random.below(10) as u8)).collect();
    let sign = random.one_of(&["", "-"]);
    match random.below(8) {
        0 => format!("{sign}{whole}.{fraction}e{}", random.below(600) as i32 - 300),
        1 => format!("{sign}{:?}", whole as f64 / (1 + random.below(1_000_000)) as f64),
        _ => format!("{sign}{whole}.{fraction}"),
    }
}

fn mutant(random: &mut Random, text: &[u8]) -> Vec<u8> {
    const PARTS: [&str; 28] = [
        "{", "}", "[", "]", ":", ",", "\"", "\\", "\\u0041", "\\ud83d\\ude00", "null", "true", "false", "0", "-1", "1.5", "2e3",
        "256", "65536", "\"id\"", "\"x\"", " ", "\n", "é", "18446744073709551615", "[]", "{}", "\"\"",
    ];
    let mut out = text.to_vec();
    for _ in 0..1 + random.below(3) {
        let (at, end) = (random.below(out.len() + 1), random.below(out.len() + 1));
        match random.below(4) {
            0 => drop(out.splice(at..at, random.one_of(&PARTS).bytes())),
            1 => drop(out.splice(at..(at + 1).min(out.len()), random.one_of(&PARTS).bytes())),
            2 => drop(out.drain(at..(at + 1 + random.below(4)).min(out.len()))),
            _ if at < end && end - at < 24 => {
                let part = out[at..end].to_vec();
                let to = random.below(out.len() + 1);
                drop(out.splice(to..to, part));
            }
            _ => {}
        }
    }
    out
}

fn byte_of(error: &serde_json::Error, text: &[u8]) -> usize {
    let before = text.split_inclusive(|byte| *byte == b'\n').take(error.line() - 1).map(<[u8]>::len).sum::<usize>();
    before + error.column() - 1
}

// What both make of a text must be the same, but where a number is beyond serde_json, which rejects it or takes it for a float.
// What serde_json passes over it does not judge, so a document is what it reads as a value.
fn judge<T: DeserializeOwned + PartialEq + Debug>(text: &[u8], read: &mut [usize; 2]) {
    let ours = from_slice::<T>(text);
    let is_document = serde_json::from_slice::<serde_json::Value>(text);
    let theirs = match &is_document {
        Ok(_) => serde_json::from_slice::<T>(text),
        Err(_) => Err(serde::de::Error::custom("no document")),
    };
    let shown = String::from_utf8_lossy(text);
    match (&ours, from_slice_mut::<T>(&mut text.to_vec())) {
        (Ok(ours), Ok(in_place)) => assert_eq!(*ours, in_place, "{shown}"),
        (Err(ours), Err(in_place)) => {
            assert_eq!((ours.parse_error(), ours.path()), (in_place.parse_error(), in_place.path()), "{shown}");
        }
        (ours, in_place) => panic!("{shown}: {ours:?}, in place {in_place:?}"),
    }
    let is_beyond = || {
        let out_of_range = is_document.as_ref().err().map_or(false, |error| error.to_string().contains("number out of range"));
        let is_long = |number: &str| number.len() > 18 || number == "-0";
        let is_number = |c: char| c.is_ascii_digit() || "+-.eE".contains(c);
        out_of_range || shown.split(|c| !is_number(c)).any(is_long)
    };
    read[usize::from(ours.is_ok())] += 1;
    match (ours, theirs) {
        (Ok(ours), Ok(theirs)) => assert!(ours == theirs || is_beyond(), "{shown}: {ours:?}, {theirs:?}"),
        (Err(ours), Err(theirs)) if theirs.line() > 0 && !is_beyond() => {
            // Theirs is the last byte that was read, after what `serde` buffers with what comes before the next value.
            let (ours_at, theirs_at) = (ours.location().unwrap().byte(), byte_of(&theirs, text));
            if ours.reason().starts_with("missing field") {
                let is_between = text[ours_at..theirs_at].iter().skip(1).all(|byte| b" \n,]".contains(byte));
                assert!(text[ours_at] == b'}' && is_between, "{shown}: {ours}, {theirs}");
            }
            // Of what is buffered it is the object's.
            if ours.reason().starts_with("duplicate field") && text[ours_at] != b'{' {
                assert!(serde_json::from_slice::<String>(&text[ours_at..=theirs_at]).is_ok(), "{shown}: {ours}, {theirs}");
            }
        }
        (Err(_), Err(_)) => {}
        (ours, theirs) => assert!(is_beyond(), "{shown}: {ours:?}, {theirs:?}"),
    }
}

#[test]
fn decimals_are_those_of_core() {
    let mut random = Random(SEED);
    let literals: Vec<String> = (0..count()).map(|_| decimal(&mut random)).collect();
    let text = format!("[{}]", literals.join(","));
    let wanted: Vec<u64> = literals.iter().map(|literal| literal.parse::<f64>().unwrap().to_bits()).collect();
    let tape = to_owned_tape(text.clone()).unwrap();
    let values: Vec<f64> = tape.as_value().as_array().unwrap().filter_map(|value| value.as_f64()).collect();
    for found in [values, read(&text)] {
        assert_eq!(found.len(), wanted.len());
        for (at, literal) in literals.iter().enumerate() {
            assert_eq!(found[at].to_bits(), wanted[at], "{literal}");
        }
    }
}

#[test]
fn mutants_are_read_as_by_serde_json() {
    const STRICT: &[u8] = br#"{"x":[{"y":"\u00e9\n"}],"id":12,"sizes":[-12,1.25],"a/b":{"k":[655,0],"l":[]}}"#;
    const FLAT: &[u8] = br#"{"kind":"k","id":3,"more":{"c":[1,-1,0.5,"\n"]},"sizes":[1,null],"a":null}"#;
    const SHAPES: &[u8] = br#"["Dot",{"Circle":0.5},{"Line":[-1,2]},{"Box":{"h":1,"w":2}},{"none":null},{"Box":[3,4]}]"#;
    const TAGGED: &[u8] = br#"[{"x":-5,"type":"A"},{"type":"B","id":1,"sizes":[1,2]},{"type":"C"}]"#;
    const UNTAGGED: &[u8] = br#"[1,"a\t",[{"key":true}],null,[],[2.5e3,-7]]"#;
    const TREE: &[u8] = br#"{"v":1,"next":{"v":-300,"next":null},"more":[{"v":2,"more":[]},{"v":3,"next":{"v":4}}]}"#;
    const PAIRS: &[u8] = br#"[null,[[1,"b"],[2,"\\"],[255,""]]]"#;
    const DENYING: &[u8] = br#"[{"id":1,"name":null},{"name":"\"","id":200}]"#;
    let (mutants, mut random, mut read) = (count(), Random(SEED), [0; 2]);
    for number in 0..mutants {
        match number % 8 {
            0 => judge::<Strict>(&mutant(&mut random, STRICT), &mut read),
            1 => judge::<Flat>(&mutant(&mut random, FLAT), &mut read),
            2 => judge::<Vec<Shape>>(&mutant(&mut random, SHAPES), &mut read),
            3 => judge::<Vec<Tagged>>(&mutant(&mut random, TAGGED), &mut read),
            4 => judge::<Untagged>(&mutant(&mut random, UNTAGGED), &mut read),
            5 => judge::<Tree>(&mutant(&mut random, TREE), &mut read),
            6 => judge::<(Unit, New)>(&mutant(&mut random, PAIRS), &mut read),
            _ => judge::<Vec<Denying>>(&mutant(&mut random, DENYING), &mut read),
        }
    }
    assert!(read[0] > mutants / 10 && read[1] > mutants / 10, "{read:?} read of {mutants}");
}
