//! The rows of tests/vectors, whose answers are in the files.
use simd_json_proved::{check, to_owned_tape, to_tape, Buffers, ErrorType, Fields, Tape, Value, ValueType};
use std::fs;
use std::path::Path;

// The bytes that an input of a row stands for: `%XX` is a byte, `%(N:TEXT)` a text so many times.
fn decoded(text: &[u8]) -> Vec<u8> {
    let (mut out, mut rest) = (Vec::new(), text);
    while let Some((first, after)) = rest.split_first() {
        if *first != b'%' {
            out.push(*first);
            rest = after;
        } else if after[0] == b'(' {
            let colon = after.iter().position(|byte| *byte == b':').unwrap();
            let end = after.iter().position(|byte| *byte == b')').unwrap();
            let times: usize = std::str::from_utf8(&after[1..colon]).unwrap().parse().unwrap();
            out.extend(decoded(&after[colon + 1..end]).repeat(times));
            rest = &after[end + 1..];
        } else {
            out.push(u8::from_str_radix(std::str::from_utf8(&after[..2]).unwrap(), 16).unwrap());
            rest = &after[2..];
        }
    }
    out
}

// As the rows show a text.
fn shown(text: &str) -> String {
    let hidden = |c: char| c < ' ' || c == '%' || c == '\x7f';
    text.chars().map(|c| if hidden(c) { format!("%{:02X}", c as u32) } else { c.to_string() }).collect()
}

fn quoted(text: &str) -> String {
    let mut out = String::from("\"");
    for c in text.chars() {
        match c {
            '"' => out.push_str("\\\""),
            '\\' => out.push_str("\\\\"),
            '\n' => out.push_str("\\n"),
            '\r' => out.push_str("\\r"),
            '\t' => out.push_str("\\t"),
            '\x08' => out.push_str("\\b"),
            '\x0c' => out.push_str("\\f"),
            c if c < ' ' => out.push_str(&format!("\\u{:04x}", c as u32)),
            c => out.push(c),
        }
    }
    out + "\""
}

// The lines of the nodes of a value.
fn nodes(value: Value<'_>) -> Vec<String> {
    let mut out = Vec::new();
    lines(value, &mut out);
    out
}

fn lines(value: Value<'_>, out: &mut Vec<String>) {
    let kind = format!("{:?}", value.value_type());
    let at = out.len();
    out.push(match value.value_type() {
        ValueType::Null => kind,
        ValueType::Bool => format!("{kind} {}", value.as_bool().unwrap()),
        ValueType::I64 => format!("{kind} {}", value.as_i64().unwrap()),
        ValueType::U64 => format!("{kind} {}", value.as_u64().unwrap()),
        ValueType::I128 => format!("{kind} {}", value.as_i128().unwrap()),
        ValueType::U128 => format!("{kind} {}", value.as_u128().unwrap()),
        ValueType::Decimal => format!("{kind} {}", value.as_decimal().unwrap()),
        ValueType::String => format!("{kind} {}", quoted(value.as_str().unwrap())),
        ValueType::Array | ValueType::Object => kind,
    });
    let mut members = 0;
    if let Some(array) = value.as_array() {
        members = array.len();
        array.for_each(|element| lines(element, out));
    }
    if let Some(object) = value.as_object() {
        members = object.len();
        for (key, member) in object {
            out.push(format!("String {}", quoted(key)));
            lines(member, out);
        }
    }
    if matches!(value.value_type(), ValueType::Array | ValueType::Object) {
        out[at] = format!("{} {members} {}", out[at], out.len() - at - 1);
    }
}

fn answer(input: &mut [u8], limit: usize) -> String {
    match Buffers::with_max_depth(limit).unwrap().parse(input) {
        Ok(tape) => {
            let out = nodes(tape.as_value());
            assert_eq!(out.len(), tape.node_count());
            shown(&out.join(", "))
        }
        Err(error) => shown(&format!("! {error}")),
    }
}

fn judge_pointer(document: &[u8], pointer: &[u8], wanted: &str, row: &str) {
    let mut input = document.to_vec();
    let tape = to_tape(&mut input).unwrap();
    let pointer = std::str::from_utf8(pointer).unwrap();
    let mut buffers = Buffers::default();
    let mut index = buffers.scan(document).unwrap();
    for found in [tape.as_value().pointer(pointer), index.pointer(pointer)] {
        if wanted.starts_with("! expected a /,") || wanted.starts_with("! expected 0 or 1 after each ~,") {
            assert_eq!(found.unwrap_err().error(), ErrorType::InvalidPointer, "{row}");
        } else if wanted.starts_with("! ") {
            assert!(found.unwrap().is_none(), "{row}");
        } else {
            let mut text = decoded(wanted.as_bytes());
            assert_eq!(nodes(found.unwrap().unwrap()), nodes(to_tape(&mut text).unwrap().as_value()), "{row}");
        }
    }
}

// The place of an error, as the rows of `locate` have it, of a parse and of a check.
fn judge_place(input: &[u8], limit: usize, wanted: &str, row: &str) {
    let mut buffers = Buffers::with_max_depth(limit).unwrap();
    for result in [buffers.check(input), buffers.parse(&mut input.to_vec()).map(drop)] {
        let found = match result {
            Ok(()) => "none".to_string(),
            Err(error) => error.location(input).map(|at| format!("{} {at}", at.byte())).unwrap(),
        };
        assert_eq!(shown(&found), wanted, "{row}");
    }
}

fn judge_rows() {
    let folder = Path::new(env!("CARGO_MANIFEST_DIR")).join("../../tests/vectors");
    let (mut judged, mut pointers, mut printed_rows, mut places, mut document) = (0, 0, 0, 0, Vec::new());
    for file in fs::read_dir(folder).unwrap() {
        for row in fs::read_to_string(file.unwrap().path()).unwrap().lines() {
            if let Some(text) = row.strip_prefix("document ") {
                document = decoded(text.as_bytes());
                continue;
            }
            let Some((question, wanted)) = row.split_once(" => ") else { continue };
            let Some((word, text)) = question.split_once(' ') else { continue };
            let (word, limit) = word.split_once(':').unwrap_or((word, "1024"));
            if word == "parse" {
                let mut input = decoded(text.as_bytes());
                let limit = limit.parse().unwrap();
                let check = Buffers::with_max_depth(limit).unwrap().check(&input);
                assert_eq!(answer(&mut input, limit), wanted, "{row}");
                match check {
                    Ok(()) => assert!(!wanted.starts_with("! "), "{row}"),
                    Err(error) => assert_eq!(shown(&format!("! {error}")), wanted, "{row}"),
                }
                judged += 1;
            }
            if word == "compact" || word == "pretty" {
                let tape = to_owned_tape(decoded(text.as_bytes())).unwrap();
                let value = tape.as_value();
                let printed = if word == "pretty" { format!("{value:#}") } else { value.to_string() };
                assert_eq!(shown(&printed), wanted, "{row}");
                printed_rows += 1;
            }
            if word == "locate" {
                judge_place(&decoded(text.as_bytes()), limit.parse().unwrap(), wanted, row);
                places += 1;
            }
            if word == "pointer" {
                judge_pointer(&document, &decoded(text.as_bytes()), wanted, row);
                pointers += 1;
            }
        }
    }
    assert!(judged > 100 && pointers > 100, "{judged} rows, {pointers} pointers");
    assert!(printed_rows > 30 && places > 50, "{printed_rows} printed rows, {places} places");
}

#[test]
fn rows() {
    // The recursion of this test, not of the library, needs more stack than a test has.
    std::thread::Builder::new().stack_size(64 << 20).spawn(judge_rows).unwrap().join().unwrap();
}

// The enums, and what the crate has by number besides, are as the header has them.
#[test]
fn numbers_are_those_of_the_header() {
    use ErrorType::*;
    let folder = Path::new(env!("CARGO_MANIFEST_DIR"));
    let header = fs::read_to_string(folder.join("../../include/simd_json.h")).unwrap();
    let named = |line: &str| {
        let (name, number) = line.trim().strip_prefix("SIMD_JSON_")?.split_once(" = ")?;
        let end = number.find(|c: char| !c.is_ascii_digit()).unwrap_or(number.len());
        let words = name.split('_').map(|word| word[..1].to_string() + &word[1..].to_lowercase());
        Some((words.collect::<String>(), number[..end].parse::<usize>().unwrap()))
    };
    let numbered: Vec<_> = header.lines().filter_map(named).collect();
    let errors = [
        OutOfMemory, InputTooLarge, InvalidUtf8, Syntax, Eof, InternalError, ExpectedArrayContent, ExpectedObjectContent,
        ExpectedObjectKey, ExpectedObjectColon, TrailingData, DepthLimitExceeded, ExpectedTrue, ExpectedFalse,
        ExpectedNull, InvalidNumber, InvalidEscape, InvalidUnicodeCodepoint,
    ];
    assert_eq!(numbered[1..19], errors.map(|error| (error.to_string(), error as usize)));
    assert_eq!(numbered[0], ("Ok".to_string(), 0));
    assert_eq!(numbered[19], ("TooLittleRoom".to_string(), 19));
    assert_eq!(numbered[22], ("InvalidPointer".to_string(), InvalidPointer as usize));
    assert!(header.contains("\n#define SIMD_JSON_REASON_MAX 128\n"));
    let kinds = [
        ValueType::Null, ValueType::Bool, ValueType::I64, ValueType::U64, ValueType::I128, ValueType::U128,
        ValueType::Decimal, ValueType::String, ValueType::Array, ValueType::Object,
    ];
    assert_eq!(numbered[23..33], kinds.map(|kind| (format!("{kind:?}"), kind as usize)));
    let layouts = ["Compact", "Pretty"].map(String::from);
    assert_eq!(numbered[33..35], [(layouts[0].clone(), 0), (layouts[1].clone(), 1)]);
}

#[test]
fn wide_integers() {
    let texts = [
        "18446744073709551616", "170141183460469231731687303715884105727", "170141183460469231731687303715884105728",
        "340282366920938463463374607431768211455", "-9223372036854775809", "-170141183460469231731687303715884105728",
    ];
    let tape = to_owned_tape(format!("[{}]", texts.join(","))).unwrap();
    for (text, value) in texts.iter().zip(tape.as_value().as_array().unwrap()) {
        assert_eq!((value.as_i128(), value.as_u128()), (text.parse().ok(), text.parse().ok()), "{text}");
        assert_eq!((value.as_i64(), value.as_u64(), value.as_f64()), (None, None, text.parse().ok()), "{text}");
        assert_eq!(format!("{value} {value:#}"), format!("{text} {text}"));
    }
}

#[test]
fn values() {
    let mut input = *br#"{"a":[1,-2,2.5,1e400,"\u00e9"],"b":null,"a":true,"wide":340282366920938463463374607431768211455}"#;
    let tape = to_tape(&mut input).unwrap();
    let root = tape.as_value();
    let a = root.get("a").unwrap();
    assert_eq!(a.as_array().unwrap().len(), 5);
    assert_eq!((a.get_idx(0).unwrap().as_u64(), a.get_idx(1).unwrap().as_u64()), (Some(1), None));
    assert_eq!((a.get_idx(1).unwrap().as_i64(), a.get_idx(2).unwrap().as_f64()), (Some(-2), Some(2.5)));
    assert_eq!(a.get_idx(3).unwrap().as_f64(), Some(f64::INFINITY));
    assert_eq!((a.get_idx(4).unwrap().as_str(), a.get_idx(5).is_none()), (Some("é"), true));
    assert!(root.get("b").unwrap().is_null() && root.get("c").is_none());
    assert_eq!(root.get("wide").unwrap().as_u128(), Some(u128::MAX));
    assert_eq!(root.as_object().unwrap().map(|(key, _)| key).collect::<Vec<_>>(), ["a", "b", "a", "wide"]);
}

#[test]
fn values_are_shown() {
    let mut input = *br#"["a\n",-1,2,2.5,18446744073709551616,true,null,[3],{}]"#;
    let tape = to_tape(&mut input).unwrap();
    let shown: Vec<_> = tape.as_value().as_array().unwrap().map(|value| format!("{value:?}")).collect();
    let wanted = ["String(\"a\\n\")", "I64(-1)", "U64(2)", "Decimal(2.5)", "U128(18446744073709551616)", "Bool(true)", "Null"];
    assert_eq!(shown[..7], wanted);
    assert_eq!(shown[7..], ["Array(len 1)", "Object(len 0)"]);
    assert_eq!(format!("{tape:?}"), "Tape(Array(len 9))");
}

#[test]
fn arrays_and_objects_are_shown() {
    // At the end of the tape, amid it, and while they are read.
    for (text, array) in [("[]", "[]"), ("[1,[2,3]]", "[U64(1), Array(len 2)]")] {
        let mut input = text.as_bytes().to_vec();
        let tape = to_tape(&mut input).unwrap();
        assert_eq!(format!("{:?}", tape.as_value().as_array().unwrap()), array);
    }
    let shown = r#"{"a\n": Null, "b": Object(len 0)}"#;
    for (text, object) in [("{}", "{}"), (r#"{"a\n":null,"b":{}}"#, shown)] {
        let mut input = text.as_bytes().to_vec();
        let tape = to_tape(&mut input).unwrap();
        assert_eq!(format!("{:?}", tape.as_value().as_object().unwrap()), object);
    }
    let mut input = *br#"{"a":[],"b":{},"c":[1,2]}"#;
    let tape = to_tape(&mut input).unwrap();
    let mut members = tape.as_value().as_object().unwrap();
    let mut shown = vec![format!("{members:?}")];
    while let Some((_, value)) = members.next() {
        shown.push(format!("{:?} {:?} {members:?}", value.as_array(), value.as_object()));
    }
    let wanted = [
        r#"{"a": Array(len 0), "b": Object(len 0), "c": Array(len 2)}"#,
        r#"Some([]) None {"b": Object(len 0), "c": Array(len 2)}"#,
        r#"None Some({}) {"c": Array(len 2)}"#,
        r#"Some([U64(1), U64(2)]) None {}"#,
    ];
    assert_eq!(shown, wanted);
    let mut elements = tape.as_value().get("c").unwrap().as_array().unwrap();
    elements.next();
    assert_eq!(format!("{elements:?}"), "[U64(2)]");
    elements.next();
    assert_eq!((format!("{elements:?}").as_str(), elements.next().is_none()), ("[]", true));
}

#[test]
fn buffers_are_kept() {
    let mut buffers = Buffers::new().unwrap();
    for text in [r#"{"a":[1,"b"]}"#, "[]", r#"[1.5,"\u00e9",340282366920938463463374607431768211455]"#, "7"] {
        let (mut input, mut again) = (text.as_bytes().to_vec(), text.as_bytes().to_vec());
        let tape = buffers.parse(&mut input).unwrap();
        let moved = Box::new(to_tape(&mut again).unwrap());
        assert_eq!(nodes(tape.as_value()), nodes(moved.as_value()));
        std::thread::scope(|scope| scope.spawn(|| assert!(tape.node_count() > 0)).join().unwrap());
    }
    assert!(buffers.parse(&mut b"[".to_vec()).is_err());
    assert_eq!(buffers.parse(&mut b"[null]".to_vec()).unwrap().node_count(), 2);
}

#[test]
fn a_check_leaves_its_input() {
    // These are in memory that can't be written.
    const TEXTS: [&[u8]; 3] = [br#"["\u0041\n"]"#, br#"["\u0041\n",]"#, br#"["\x"]"#];
    let mut buffers = Buffers::new().unwrap();
    for _ in 0..2 {
        let found = TEXTS.map(|text| buffers.check(text).err().map(|error| (error.error(), error.index())));
        let wanted = [None, Some((ErrorType::InternalError, 12)), Some((ErrorType::InvalidEscape, 2))];
        assert_eq!(found, wanted);
    }
}

#[test]
fn errors() {
    let error = to_tape(&mut b"[1,]".to_vec()).unwrap_err();
    assert_eq!((error.error(), error.index(), error.character()), (ErrorType::InternalError, 3, Some(']')));
    assert_eq!(to_tape(&mut [0xff]).unwrap_err().to_string(), "InvalidUtf8 at character 0");
    assert_eq!(to_tape(&mut b"[[]]".to_vec()).unwrap().node_count(), 2);
    assert_eq!(Buffers::with_max_depth(1).unwrap().parse(&mut b"[[]]".to_vec()).unwrap_err().index(), 1);
}

#[test]
fn integers_of_each_width() {
    let tape = to_owned_tape("[127,-129,256,-1,65535,4294967295,-2147483648,9223372036854775808]").unwrap();
    let at = |index| tape.as_value().get_idx(index).unwrap();
    assert_eq!((at(0).as_i8(), at(1).as_i8(), at(1).as_i16()), (Some(127), None, Some(-129)));
    assert_eq!((at(0).as_u8(), at(2).as_u8(), at(2).as_u16(), at(3).as_u8()), (Some(127), None, Some(256), None));
    assert_eq!((at(4).as_u16(), at(4).as_i16(), at(5).as_u32(), at(5).as_i32()), (Some(65535), None, Some(u32::MAX), None));
    assert_eq!((at(6).as_i32(), at(6).as_isize(), at(6).as_usize()), (Some(i32::MIN), Some(i32::MIN as isize), None));
    assert_eq!((at(7).as_i64(), at(7).as_u64(), at(7).as_i128()), (None, Some(1 << 63), Some(1 << 63)));
    // By one rounding: as an `f64` it is halfway between two of `f32`.
    let near = to_owned_tape("16777217.00000000000000000001").unwrap();
    assert_eq!((near.as_value().as_f32(), near.as_value().as_f64()), (Some(16777218.0), Some(16777217.0)));
}

#[test]
fn values_are_compared() {
    let tape = to_owned_tape(r#"["a\u00e9",7,-7,2.50,true,null,340282366920938463463374607431768211455,[7]]"#).unwrap();
    let at = |index| tape.as_value().get_idx(index).unwrap();
    let owned = String::from("aé");
    assert!(at(0) == "aé" && *"aé" == at(0) && at(0) == owned && owned == at(0) && at(0) != "a" && at(0) != 7);
    assert!(at(1) == 7 && 7u8 == at(1) && at(1) == 7i128 && at(1) == 7.0 && at(1) != -7 && at(1) != true && at(1) != "7");
    assert!(at(2) == -7 && at(2) == -7f32 && at(2) != u64::MAX - 6 && at(3) == 2.5 && at(3) != 2);
    assert!(at(4) == true && at(4) != false && at(4) != 1 && at(5) != false && at(5) != 0 && at(5) != "");
    assert!(at(6) == u128::MAX && at(6) != -1 && at(6) != i128::MAX && at(7) != 7);
    assert!(tape.as_value().pointer("/7/0").unwrap().unwrap() == 7usize);
}

#[test]
fn tapes_are_returned() {
    fn of(text: &str) -> Result<Tape<'static>, simd_json_proved::Error> {
        let bytes = text.to_string().into_bytes();
        to_owned_tape(bytes)
    }
    let tapes: Vec<_> = ["[1]", r#"{"a":"\u00e9\n"}"#, "2.5"].into_iter().map(|text| of(text).unwrap()).collect();
    let moved = std::thread::spawn(|| tapes).join().unwrap();
    assert_eq!(moved[1].as_value().get("a").unwrap().as_str(), Some("é\n"));
    assert_eq!((moved[0].to_string().as_str(), moved[2].as_value().as_f64()), ("[1]", Some(2.5)));
    assert_eq!(of("[1").unwrap_err().error(), ErrorType::Syntax);
}

// Of each length, as a document that borrows its input and as one that holds it, which is moved; texts end where they do.
#[test]
fn texts_stay_in_their_inputs() {
    let text = |len: usize| {
        format!(r#"["\u00e9\ud83d\ude00{0}","{0}\n",1.50,340282366920938463463374607431768211455]"#, "é".repeat(len))
    };
    let mut inputs: Vec<Vec<u8>> = (0..70).map(|len| text(len).into_bytes()).collect();
    let ranges: Vec<_> = inputs.iter().map(|input| input.as_ptr_range()).collect();
    let tapes: Vec<Tape> = inputs.iter_mut().map(|input| to_tape(input).unwrap()).collect();
    for (range, tape) in ranges.iter().zip(&tapes) {
        assert!(tape.as_value().as_array().unwrap().filter_map(|value| value.as_str()).all(|text| range.contains(&text.as_ptr())));
    }
    let owned: Vec<Tape> = (0..70).map(|len| to_owned_tape(text(len)).unwrap()).collect();
    for moved in [tapes, std::thread::spawn(|| owned).join().unwrap()] {
        for (len, tape) in moved.iter().enumerate() {
            let at = |index| tape.as_value().get_idx(index).unwrap();
            let wanted = ["é\u{1f600}".to_string() + &"é".repeat(len), "é".repeat(len) + "\n"];
            assert_eq!([at(0), at(1)].map(|value| value.as_str().unwrap().to_string()), wanted);
            assert_eq!((at(2).as_decimal(), at(3).as_u128()), (Some("1.50"), Some(u128::MAX)));
        }
    }
}

#[test]
fn buffers_by_default() {
    let mut buffers = Buffers::default();
    assert_eq!(buffers.scan(b"[\"").unwrap_err().error(), ErrorType::Syntax);
    let mut index = buffers.scan(br#"{"a":[1,"\u00e9"],"b":[1,,2]"#).unwrap();
    assert!(index.pointer("/a/1").unwrap().unwrap() == "é");
    assert_eq!(["/b", ""].map(|pointer| index.pointer(pointer).unwrap_err().index()), [25, 25]);
    assert_eq!(index.pointer("/a").unwrap().unwrap().as_array().unwrap().len(), 2);
    let long = format!("[[{}]]", "1,".repeat(100_000) + "2");
    assert_eq!(buffers.scan(long.as_bytes()).unwrap().pointer("/0/100000").unwrap().unwrap().as_u64(), Some(2));
    assert_eq!(Buffers::default().parse(&mut b"[3]".to_vec()).unwrap().node_count(), 2);
    assert_eq!(Buffers::default().check(&[b"[".repeat(1025), b"]".repeat(1025)].concat()).unwrap_err().index(), 1024);
    assert_eq!(check(&[b"[".repeat(1025), b"]".repeat(1025)].concat()).unwrap_err().index(), 1024);
    assert_eq!((check(b"[1]"), check(b"").unwrap_err().error()), (Ok(()), ErrorType::Eof));
}

#[test]
fn malformed_pointers_are_errors() {
    let text = r#"{"a":[1],"":{"~":2},"$":3}"#;
    let tape = to_owned_tape(text).unwrap();
    let mut buffers = Buffers::default();
    let mut index = buffers.scan(text.as_bytes()).unwrap();
    let malformed = [
        ("a", 0, 'a'), ("$.a", 0, '$'), ("é/a", 0, 'é'), ("~0", 0, '~'), ("/a~", 2, '~'), ("/a/0/~2", 5, '~'),
        ("/é/~~0", 4, '~'), ("/b/~é", 3, '~'), ("#/a", 0, '#'), (" ", 0, ' '),
    ];
    for (pointer, at, character) in malformed {
        for found in [tape.as_value().pointer(pointer), index.pointer(pointer)] {
            let error = found.unwrap_err();
            let found = (error.error(), error.index(), error.character());
            assert_eq!(found, (ErrorType::InvalidPointer, at, Some(character)), "{pointer}");
        }
    }
    let well_formed = [("/a/0", Some(1)), ("//~0", Some(2)), ("/$", Some(3)), ("/~0~1", None), ("/b/~01", None), ("/a/-", None)];
    for (pointer, wanted) in well_formed {
        for found in [tape.as_value().pointer(pointer), index.pointer(pointer)] {
            assert_eq!(found.unwrap().and_then(|value| value.as_u64()), wanted, "{pointer}");
        }
    }
    let error = index.pointer("$.a").unwrap_err();
    assert_eq!(error.to_string(), "InvalidPointer at character 0 ('$'): write `/a/0`, with `~0` for `~`");
    assert_eq!(error.location(text.as_bytes()).unwrap().to_string(), "0:0: ");
}

// What is absent is none. A value that is wrong, or none of an input that is, has the error of a parse of the input.
#[test]
fn absent_is_not_wrong() {
    let long = format!(r#"{{"id":1{}}}"#, "0".repeat(40));
    let rows = [
        (long.as_str(), "/id", true), (&long, "/x", true), (&long, "", true), (r#"{"a":tru,"b":[2]}"#, "/a", true),
        (r#"{"a":tru,"b":[2]}"#, "/b/1", true), (r#"{"a":tru,"b":[2]}"#, "/b/0", false), (r#"[1,"\x",2]"#, "/1", true),
        (r#"[1,"\x",2]"#, "/2", false), ("[1 2]", "/1", true), ("[1,[2,]]", "/1", true), ("[1", "/0", false), ("[1", "/3", true),
        (r#"{"a" 1}"#, "/a", true), ("01", "", true), ("[1]x", "/0", false), ("[1]x", "/1", true),
        (r#"{"a":{"b":null}}"#, "/a/c", false), (r#"{"a":{"b":null}}"#, "/a/b/c", false), ("1", "/0", false),
        ("[[[[1]]],[2]]", "/1/0", false), ("[[[[1]]],[2]]", "/2", true), ("[[[[1]]],[2]]", "/0", false), ("[[[[1]]],[2]]", "", true),
    ];
    let mut buffers = Buffers::with_max_depth(3).unwrap();
    for (text, pointer, is_wrong) in rows {
        let parsed = buffers.parse(&mut text.as_bytes().to_vec()).map(drop);
        let mut index = buffers.scan(text.as_bytes()).unwrap();
        for _ in 0..2 {
            assert_eq!(index.pointer(pointer).map(drop).err(), parsed.err().filter(|_| is_wrong), "{text} {pointer}");
        }
        assert!(!is_wrong || parsed.is_err(), "{text}");
    }
}

#[test]
fn fields_are_found() {
    let line = concat!(
        r#"{"status":404,"path":"/a","quoted":"\"\u00e9","tags":["x",{"y":[]}],"ratio":-2.50,"wide":18446744073709551616,"#,
        r#""low":-7,"on":true,"none":null,"status":1,"user":{"id":7,"n":"\n"}}"#
    );
    let rows = [
        ("/status", "404"), ("/path", r#""/a""#), ("/quoted", r#""\"é""#), ("/tags", r#"["x",{"y":[]}]"#), ("/ratio", "-2.50"),
        ("/wide", "18446744073709551616"), ("/low", "-7"), ("/on", "true"), ("/none", "null"), ("/absent", ""), ("/user/id", "7"),
        ("/tags/1/y", "[]"), ("/user", r#"{"id":7,"n":"\n"}"#), ("/quoted", r#""\"é""#), ("/path", r#""/a""#), ("/tags/2", ""),
    ];
    let mut fields = Fields::new(rows.map(|row| row.0)).unwrap();
    for _ in 0..2 {
        let found = fields.get(line.as_bytes()).unwrap();
        for (value, (pointer, wanted)) in found.iter().zip(rows) {
            assert_eq!(value.map_or(String::new(), |value| value.to_string()), wanted, "{pointer}");
        }
        let at = |index| found.get(index).unwrap();
        assert!(at(0) == 404 && at(1) == "/a" && at(2) == "\"é" && at(4) == -2.5 && at(7) == true && found.get(16).is_none());
        assert_eq!((at(4).as_decimal(), at(5).as_u128(), at(6).as_i8()), (Some("-2.50"), Some(1 << 64), Some(-7)));
        assert_eq!(at(3).as_array().unwrap().map(|value| value.value_type()).last(), Some(ValueType::Object));
        assert!(at(12).get("n").unwrap() == "\n" && at(3).pointer("/1/y").unwrap().is_some() && at(8).is_null());
        // A string without escapes is in the line.
        assert!(line.as_bytes().as_ptr_range().contains(&at(1).as_str().unwrap().as_ptr()));
        assert_eq!((found.iter().len(), at(1).get("a").is_none(), at(0).pointer("").unwrap().is_some()), (16, true, true));
    }
    // They may be used by another thread, and be of strings that are owned.
    let names: Vec<String> = (0..1000).map(|index| format!("/{}", index % 700)).collect();
    let mut fields = Fields::new(&names).unwrap();
    let text = format!("[{}]", (0..700).map(|n| if n % 3 == 0 { format!("\"\\n{n}\"") } else { n.to_string() }).collect::<Vec<_>>().join(","));
    let sum = move || {
        let text = text.as_bytes();
        (0..2).map(|_| fields.get(text).unwrap().iter().filter(|value| value.unwrap().as_str().is_some()).count()).sum::<usize>()
    };
    assert_eq!(std::thread::spawn(sum).join().unwrap(), 2 * (0..1000).filter(|index| index % 700 % 3 == 0).count());
}

// As by an index: what is absent is none, what is wrong has the error of the input.
#[test]
fn fields_are_those_of_an_index() {
    let texts = [
        r#"{"a":1,"b":tru}"#, r#"{"a":[1,,2],"b":1}"#, r#"{"a":"\q","b":1}"#, r#"{"a":1"#, r#"{"a":1} x"#, "", "nope", "[1,]", "7",
        r#"{"a":1,"b":[1}"#, r#"{"a":1,"b":"\n"} x"#, "{}", r#"{"a":[[[]]]}"#, r#"{"a":[[[[]]]]}"#, "[[[]]]", "[[[[]]]]", "{\"a\":\"\n\"}",
        r#"{"b":{"c":"\u0041"},"a":0.1}"#, "\"\\ud83d\"", "\"\\ud83d\\ude00\"",
    ];
    let pointers = [&["/a", "/b"][..], &[""], &["/a"], &["/b/c", "", "/a"], &[]];
    let mut buffers = Buffers::with_max_depth(3).unwrap();
    for text in texts.map(str::as_bytes) {
        for pointers in pointers {
            let mut fields = Fields::with_max_depth(pointers, 3).unwrap();
            let mut of = |pointer: &&str| Ok(buffers.scan(text)?.pointer(pointer)?.map(|value| value.to_string()));
            let wanted: Result<Vec<_>, simd_json_proved::Error> = pointers.iter().map(&mut of).collect();
            let found = fields.get(text).map(|found| found.iter().map(|value| value.map(|value| value.to_string())).collect());
            if !pointers.is_empty() {
                assert_eq!(found, wanted, "{} {pointers:?}", String::from_utf8_lossy(text));
            }
        }
    }
    assert_eq!(Fields::new([""; 0]).unwrap().get(b"[\"\xff\"]").unwrap_err().error(), ErrorType::InvalidUtf8);
    assert_eq!(Fields::new([""; 0]).unwrap().get(b"[1").unwrap().iter().count(), 0);
    for (pointer, at) in [("a", 0), ("/~", 1), ("/a~2", 2)] {
        assert_eq!(Fields::new(["/a", pointer]).unwrap_err().index(), at);
    }
    let deep = [b"[".repeat(1025), b"]".repeat(1025)].concat();
    let mut root = Fields::new([""]).unwrap();
    assert_eq!(root.get(&deep[1..2049]).unwrap().get(0).unwrap().to_string().len(), 2048);
    assert_eq!(root.get(&deep).unwrap_err().error(), ErrorType::DepthLimitExceeded);
    assert_eq!(Fields::with_max_depth([""], usize::MAX).unwrap().get(&deep).unwrap().get(0).unwrap().as_array().unwrap().len(), 1);
}

#[test]
fn members_are_iterated() {
    let tape = to_owned_tape(r#"{"a":[1,2,3],"b":null}"#).unwrap();
    let object = tape.as_value().as_object().unwrap();
    assert_eq!(object.iter().map(|(key, _)| key).collect::<String>(), "ab");
    let mut array = object.iter().next().unwrap().1.as_array().unwrap();
    assert_eq!(array.iter().filter_map(|value| value.as_u64()).sum::<u64>(), 6);
    array.next();
    assert_eq!((array.iter().len(), array.iter().count(), array.len()), (2, 2, 2));
}

#[test]
fn depth_is_printed() {
    let mut deep = [b"[".repeat(300_000), b"]".repeat(300_000)].concat();
    let text = String::from_utf8(deep.clone()).unwrap();
    let mut buffers = Buffers::with_max_depth(300_000).unwrap();
    assert!(buffers.parse(&mut deep).unwrap().to_string() == text);
}
