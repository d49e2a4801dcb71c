//! Values that a type passes over, reads in part, or of which it keeps an error to itself: reading goes on after them.
#![cfg(feature = "serde")]
use serde::de::{DeserializeOwned, Deserializer, EnumAccess, Error, IgnoredAny, MapAccess, SeqAccess, Visitor};
use serde::Deserialize;
use simd_json_proved::{from_slice, from_slice_mut, from_str, to_owned_tape};
use std::collections::BTreeMap;
use std::fmt::{self, Debug};
use std::marker::PhantomData;

/// How a type is read by a visitor.
trait Read<'de>: Sized {
    fn of_elements<A: SeqAccess<'de>>(_: A) -> Result<Self, A::Error> {
        Err(A::Error::custom("no array is read"))
    }

    fn of_members<A: MapAccess<'de>>(_: A) -> Result<Self, A::Error> {
        Err(A::Error::custom("no object is read"))
    }

    fn of_variant<A: EnumAccess<'de>>(_: A) -> Result<Self, A::Error> {
        Err(A::Error::custom("no variant is read"))
    }
}

struct Reading<T>(PhantomData<T>);

impl<'de, T: Read<'de>> Visitor<'de> for Reading<T> {
    type Value = T;

    fn expecting(&self, f: &mut fmt::Formatter<'_>) -> fmt::Result {
        f.write_str("what the type reads")
    }

    fn visit_seq<A: SeqAccess<'de>>(self, elements: A) -> Result<T, A::Error> {
        T::of_elements(elements)
    }

    fn visit_map<A: MapAccess<'de>>(self, members: A) -> Result<T, A::Error> {
        T::of_members(members)
    }

    fn visit_enum<A: EnumAccess<'de>>(self, variant: A) -> Result<T, A::Error> {
        T::of_variant(variant)
    }
}

/// Each element, or each value of an object, that is a `T`; of the others nothing.
#[derive(Debug, PartialEq)]
struct Lossy<T>(Vec<Option<T>>);

impl<'de, T: Deserialize<'de>> Read<'de> for Lossy<T> {
    fn of_elements<A: SeqAccess<'de>>(mut elements: A) -> Result<Self, A::Error> {
        let mut all = Vec::new();
        loop {
            match elements.next_element() {
                Ok(None) => return Ok(Lossy(all)),
                element => all.push(element.ok().flatten()),
            }
        }
    }

    fn of_members<A: MapAccess<'de>>(mut members: A) -> Result<Self, A::Error> {
        let mut all = Vec::new();
        while let Some(IgnoredAny) = members.next_key()? {
            all.push(members.next_value().ok());
        }
        Ok(Lossy(all))
    }
}

impl<'de, T: Deserialize<'de>> Deserialize<'de> for Lossy<T> {
    fn deserialize<D: Deserializer<'de>>(deserializer: D) -> Result<Self, D::Error> {
        deserializer.deserialize_any(Reading(PhantomData))
    }
}

/// The members whose keys are integers, and those values that are integers too.
#[derive(Debug, PartialEq)]
struct Numbered(Vec<(u8, Option<u8>)>);

impl<'de> Read<'de> for Numbered {
    fn of_members<A: MapAccess<'de>>(mut members: A) -> Result<Self, A::Error> {
        let mut all = Vec::new();
        loop {
            match members.next_key() {
                Ok(Some(key)) => all.push((key, members.next_value().ok())),
                Ok(None) => return Ok(Numbered(all)),
                Err(_) => {}
            }
        }
    }
}

impl<'de> Deserialize<'de> for Numbered {
    fn deserialize<D: Deserializer<'de>>(deserializer: D) -> Result<Self, D::Error> {
        deserializer.deserialize_map(Reading(PhantomData))
    }
}

/// The keys of an object, without a look at the values.
#[derive(Debug, PartialEq)]
struct Keys(Vec<String>);

impl<'de> Read<'de> for Keys {
    fn of_members<A: MapAccess<'de>>(mut members: A) -> Result<Self, A::Error> {
        let mut keys = Vec::new();
        while let Some(key) = members.next_key()? {
            keys.push(key);
        }
        Ok(Keys(keys))
    }
}

impl<'de> Deserialize<'de> for Keys {
    fn deserialize<D: Deserializer<'de>>(deserializer: D) -> Result<Self, D::Error> {
        deserializer.deserialize_map(Reading(PhantomData))
    }
}

/// Whether what is asked out of order was an error: a value before its key, and a value again.
#[derive(Debug, PartialEq)]
struct OutOfOrder(Vec<bool>);

impl<'de> Read<'de> for OutOfOrder {
    fn of_members<A: MapAccess<'de>>(mut members: A) -> Result<Self, A::Error> {
        let mut are_errors = vec![members.next_value::<IgnoredAny>().is_err()];
        while members.next_key::<String>()?.is_some() {
            members.next_value::<IgnoredAny>()?;
            are_errors.push(members.next_value::<IgnoredAny>().is_err());
        }
        are_errors.push(members.next_value::<IgnoredAny>().is_err());
        Ok(OutOfOrder(are_errors))
    }
}

impl<'de> Deserialize<'de> for OutOfOrder {
    fn deserialize<D: Deserializer<'de>>(deserializer: D) -> Result<Self, D::Error> {
        deserializer.deserialize_map(Reading(PhantomData))
    }
}

/// The name of a variant, without a look at its content.
#[derive(Debug, PartialEq)]
struct Variant(String);

impl<'de> Read<'de> for Variant {
    fn of_variant<A: EnumAccess<'de>>(variant: A) -> Result<Self, A::Error> {
        Ok(Variant(variant.variant()?.0))
    }
}

impl<'de> Deserialize<'de> for Variant {
    fn deserialize<D: Deserializer<'de>>(deserializer: D) -> Result<Self, D::Error> {
        deserializer.deserialize_enum("", &[], Reading(PhantomData))
    }
}

/// Any value, without a look at it.
#[derive(Debug, PartialEq)]
struct Passed;

impl<'de> Deserialize<'de> for Passed {
    fn deserialize<D: Deserializer<'de>>(_: D) -> Result<Self, D::Error> {
        Ok(Passed)
    }
}

fn or_none<'de, D: Deserializer<'de>, T: Deserialize<'de>>(deserializer: D) -> Result<Option<T>, D::Error> {
    Ok(T::deserialize(deserializer).ok())
}

#[derive(Debug, Deserialize, PartialEq)]
struct Tolerant {
    #[serde(deserialize_with = "or_none", default)]
    a: Option<u8>,
    #[serde(deserialize_with = "or_none", default)]
    list: Option<Vec<u8>>,
    b: u8,
}

#[derive(Debug, Deserialize, PartialEq)]
#[serde(deny_unknown_fields)]
struct Pair {
    a: u8,
    b: Option<Vec<u8>>,
}

#[derive(Debug, Deserialize, PartialEq)]
enum Shape {
    Dot,
    Line(u8, u8),
    Box { w: u8, h: u8 },
}

fn read<T: DeserializeOwned>(text: &str) -> T {
    from_str(text).unwrap_or_else(|error| panic!("{text}: {error}"))
}

#[test]
fn elements_after_one_that_does_not_fit() {
    let found: Lossy<u8> = read(r#"[1,[2,3],{"a":4,"b":[5]},"x",6,[[7]],null,8]"#);
    assert_eq!(found.0, [Some(1), None, None, None, Some(6), None, None, Some(8)]);
    let found: Lossy<Vec<u8>> = read(r#"[[1],[2,"x",3],[4],{"a":1},5,[[6],7],[8,9]]"#);
    assert_eq!(found.0, [Some(vec![1]), None, Some(vec![4]), None, None, None, Some(vec![8, 9])]);
    // More than there may be, and less.
    let found: Lossy<(u8, u8)> = read("[[1,2],[3,4,5,6],[7],[8,9]]");
    assert_eq!(found.0, [Some((1, 2)), None, None, Some((8, 9))]);
    let found: Lossy<Pair> = read(r#"[{"a":1},{"a":"x","b":[2]},{"c":{"a":3},"a":4},{"b":[5,"x",6],"a":7},{"a":8,"b":[9]}]"#);
    let wanted = [Some(Pair { a: 1, b: None }), None, None, None, Some(Pair { a: 8, b: Some(vec![9]) })];
    assert_eq!(found.0, wanted);
    let found: Lossy<Shape> = read(r#"[{"Line":[1,[2],3]},"Dot",{"Dot":[4]},{"Ring":{"w":5}},{"Box":{"w":6,"h":7}},"dot",{"Line":[8,9]}]"#);
    let wanted = [None, Some(Shape::Dot), None, None, Some(Shape::Box { w: 6, h: 7 }), None, Some(Shape::Line(8, 9))];
    assert_eq!(found.0, wanted);
    // Within each other.
    let found: Lossy<Lossy<Vec<u8>>> = read(r#"[[[1],[2,"x"]],3,{"a":[4,[5]],"b":[6]},[[7]]]"#);
    let wanted = [Some(Lossy(vec![Some(vec![1]), None])), None, Some(Lossy(vec![None, Some(vec![6])])), Some(Lossy(vec![Some(vec![7])]))];
    assert_eq!(found.0, wanted);
}

#[test]
fn members_after_one_that_does_not_fit() {
    let found: Lossy<u8> = read(r#"{"a":[1,{"b":2}],"c":3,"d":{"e":4},"f":5}"#);
    assert_eq!(found.0, [None, Some(3), None, Some(5)]);
    let found: Numbered = read(r#"{"x":{"1":2},"3":[4,5],"6":7,"y":8,"z":[9]}"#);
    assert_eq!(found.0, [(3, None), (6, Some(7))]);
    let found: Vec<Tolerant> = read(r#"[{"a":{"b":1,"a":2},"b":3},{"list":[4,{"b":5},6],"b":7},{"a":8,"list":[9],"b":10}]"#);
    let wanted = [
        Tolerant { a: None, list: None, b: 3 },
        Tolerant { a: None, list: None, b: 7 },
        Tolerant { a: Some(8), list: Some(vec![9]), b: 10 },
    ];
    assert_eq!(found, wanted);
}

#[test]
fn what_is_not_looked_at() {
    let found: Vec<Keys> = read(r#"[{"a":{"b":1},"c":[{"d":2}],"e":18446744073709551615,"f":true},{},{"g":"h"}]"#);
    assert_eq!(found.iter().map(|keys| keys.0.join("")).collect::<Vec<_>>(), ["acef", "", "g"]);
    let found: Vec<Variant> = read(r#"[{"A":[1,{"B":2}]},"C",{"D":{"E":3}},"F"]"#);
    assert_eq!(found.iter().map(|variant| variant.0.as_str()).collect::<String>(), "ACDF");
    assert_eq!(read::<(Passed, u8, Passed, Passed)>(r#"[[1,2],3,{"a":4},5]"#).1, 3);
    assert_eq!(read::<BTreeMap<String, Passed>>(r#"{"a":[1,{"b":2}],"c":3}"#).into_keys().collect::<String>(), "ac");
    assert_eq!(read::<OutOfOrder>(r#"{"a":[1,{"b":2}],"c":{"d":3}}"#).0, [true; 4]);
    assert_eq!(read::<OutOfOrder>("{}").0, [true; 2]);
}

#[test]
fn an_error_that_is_passed_on_has_its_place() {
    let error = from_str::<(Lossy<u8>, Vec<u8>)>("[[[1],\n2], [3,\n[4]]]").unwrap_err();
    assert_eq!((error.path(), error.line(), error.column()), ("/1/1", 3, 1));
    let error = from_str::<BTreeMap<String, (Keys, Passed, u8)>>(r#"{"a":[{"b":[1]},{"c":2},"x"]}"#).unwrap_err();
    assert_eq!((error.path(), error.column()), ("/a/2", 25));
}

// Of each element of each text by itself, of an array and of an object.
fn judge<T: DeserializeOwned + Debug + PartialEq>(texts: &[&str]) {
    let tapes = texts.iter().map(|text| to_owned_tape(*text).unwrap());
    let wanted = Lossy(tapes.map(|tape| T::deserialize(tape.as_value()).ok()).collect());
    let members: Vec<String> = texts.iter().enumerate().map(|(at, text)| format!(r#""{at}":{text}"#)).collect();
    for text in [format!("[{}]", texts.join(",")), format!("{{{}}}", members.join(","))] {
        assert_eq!(from_slice::<Lossy<T>>(text.as_bytes()).unwrap(), wanted, "{text}");
        assert_eq!(from_slice_mut::<Lossy<T>>(&mut text.clone().into_bytes()).unwrap(), wanted, "{text}");
    }
}

#[test]
fn each_value_is_read_as_by_itself() {
    const TEXTS: [&str; 26] = [
        "null", "true", "1", "-1", "256", "1.5", "340282366920938463463374607431768211455", r#""""#, r#""Dot""#, r#""\u0041""#, "[]",
        "{}", "[1]", "[1,2]", "[1,2,3]", r#"[1,"x",[2]]"#, "[[1],[2,[3]]]", r#"{"a":1}"#, r#"{"a":1,"b":[2]}"#, r#"{"a":1,"b":[2,{}]}"#,
        r#"{"a":[1],"c":{"a":2}}"#, r#"{"Line":[1,2]}"#, r#"{"Line":[1,2,3]}"#, r#"{"Box":{"w":1,"h":[2]}}"#, r#"{"Box":{"w":1,"h":2}}"#,
        r#"{"1":2,"x":[3],"4":{"5":6}}"#,
    ];
    // xorshift (G. Marsaglia, "Xorshift RNGs", 2003).
    let mut random = 0x9e37_79b9_7f4a_7c15_u64;
    let mut below = |n: usize| {
        random ^= random << 13;
        random ^= random >> 7;
        random ^= random << 17;
        (random % n as u64) as usize
    };
    for _ in 0..100 {
        let texts: Vec<&str> = (0..below(9)).map(|_| TEXTS[below(TEXTS.len())]).collect();
        judge::<u8>(&texts);
        judge::<String>(&texts);
        judge::<Option<Vec<u8>>>(&texts);
        judge::<(u8, u8)>(&texts);
        judge::<Pair>(&texts);
        judge::<Shape>(&texts);
        judge::<BTreeMap<u8, u8>>(&texts);
        judge::<Lossy<Lossy<u8>>>(&texts);
        judge::<Numbered>(&texts);
        judge::<Keys>(&texts);
        judge::<Variant>(&texts);
        judge::<Tolerant>(&texts);
    }
}
