//! Where an error is: at the value that does not fit, of each kind of type, in each kind of container.
#![cfg(feature = "serde")]
use serde::de::{DeserializeOwned, Error, IgnoredAny};
use serde::{Deserialize, Deserializer};
use simd_json_proved::{from_slice_mut, from_str, to_owned_tape};
use std::collections::BTreeMap;
use std::fmt::Debug;

#[derive(Debug, Deserialize, Eq, Ord, PartialEq, PartialOrd)]
#[serde(try_from = "u32")]
struct Even(u32);

impl TryFrom<u32> for Even {
    type Error = String;

    fn try_from(number: u32) -> Result<Even, String> {
        if number % 2 == 0 { Ok(Even(number)) } else { Err(format!("{number} is odd")) }
    }
}

/// What reads a string, and then a number from it.
#[derive(Debug)]
struct Port;

impl<'de> Deserialize<'de> for Port {
    fn deserialize<D: Deserializer<'de>>(deserializer: D) -> Result<Port, D::Error> {
        port(deserializer).map(|_| Port)
    }
}

fn port<'de, D: Deserializer<'de>>(deserializer: D) -> Result<u16, D::Error> {
    String::deserialize(deserializer)?.parse().map_err(D::Error::custom)
}

/// What rejects a value without a look at it.
#[derive(Debug, Eq, Ord, PartialEq, PartialOrd)]
struct Never;

impl<'de> Deserialize<'de> for Never {
    fn deserialize<D: Deserializer<'de>>(_: D) -> Result<Never, D::Error> {
        Err(D::Error::custom("never"))
    }
}

#[derive(Debug, Deserialize)]
#[serde(deny_unknown_fields)]
#[allow(dead_code)]
struct Server {
    id: u8,
    #[serde(deserialize_with = "port", default)]
    port: u16,
}

#[derive(Debug, Deserialize)]
#[allow(dead_code)]
struct Flat {
    name: String,
    #[serde(flatten)]
    rest: BTreeMap<String, u8>,
}

#[derive(Debug, Deserialize)]
#[serde(tag = "type")]
#[allow(dead_code)]
enum Event {
    Login { user: Even },
    Logout,
}

#[derive(Debug, Deserialize)]
#[serde(tag = "t", content = "c")]
#[allow(dead_code)]
enum Adjacent {
    Login { user: Even },
    Logout,
}

#[derive(Debug, Deserialize)]
#[serde(untagged)]
#[allow(dead_code)]
enum Id {
    Number(u32),
    Name(String),
}

/// An enum that is read as by default; also a container of rows.
#[derive(Debug, Deserialize, Eq, Ord, PartialEq, PartialOrd)]
enum Variant<T> {
    Nothing,
    One(T),
    Two(u8, T),
    Named { value: T },
}

#[derive(Debug, Deserialize)]
#[allow(dead_code)]
struct Holder<T> {
    name: String,
    value: T,
}

// One text, of which a value does not fit: there is a `^` before what is wrong, which has this path.
fn judge_text<T: DeserializeOwned + Debug>(marked: &str, path: &str) {
    let (before, after) = marked.split_once('^').unwrap();
    let text = format!("{before}{after}");
    let error = from_str::<T>(&text).unwrap_err();
    let line = before.split('\n').count();
    let column = before.rsplit('\n').next().unwrap().chars().count() + 1;
    let found = (error.path(), error.line(), error.column(), error.location().unwrap().byte());
    assert_eq!(found, (path, line, column, before.len()), "{text}: {error}");
    assert_eq!(from_slice_mut::<T>(&mut text.clone().into_bytes()).unwrap_err().path(), path, "{text}");
    let tape = to_owned_tape(text.clone()).unwrap();
    assert_eq!(T::deserialize(tape.as_value()).unwrap_err().path(), path, "{text}");
}

// By itself, and in each kind of container.
fn judge<T: DeserializeOwned + Debug>(marked: &str, path: &str) {
    judge_text::<T>(marked, path);
    judge_text::<Box<Option<T>>>(marked, path);
    judge_text::<(IgnoredAny, T)>(&format!("[[\"]\"], {marked} ]"), &format!("/1{path}"));
    judge_text::<Vec<Vec<T>>>(&format!("[[],\n[{marked},7]]"), &format!("/1/0{path}"));
    judge_text::<Vec<Holder<T>>>(&format!(r#"[{{"name":"é","value":{marked},"x":[]}}]"#), &format!("/0/value{path}"));
    judge_text::<BTreeMap<String, T>>(&format!(r#"{{"a/b":{marked},"c":null}}"#), &format!("/a~1b{path}"));
    judge_text::<Vec<Variant<T>>>(&format!(r#"["Nothing",{{"One":{marked}}}]"#), &format!("/1/One{path}"));
    judge_text::<Vec<Variant<T>>>(&format!(r#"[{{"Two":[1,{marked}]}}]"#), &format!("/0/Two/1{path}"));
    judge_text::<Variant<T>>(&format!(r#"{{"Named":{{"value":{marked}}}}}"#), &format!("/Named/value{path}"));
}

#[test]
fn values_that_do_not_fit() {
    judge::<u8>("^500", "");
    judge::<u8>("^\"\\n\"", "");
    judge::<char>("^\"ab\"", "");
    judge::<f32>("^[]", "");
    judge::<(u8, u8)>("^[1]", "");
    judge::<(u8, u8)>("^[1,2,3]", "");
    judge::<[Option<u8>; 3]>("[1,null,^{}]", "/2");
}

#[test]
fn values_that_are_rejected_once_read() {
    judge::<Even>("^5", "");
    judge::<Vec<Even>>("[2,4,^5]", "/2");
    judge::<Port>("^\"x\"", "");
    judge::<Never>("^[1,{\"a\":2}]", "");
    judge::<Server>(r#"{"id":1,"port":^"x"}"#, "/port");
    judge::<Variant<u8>>("{\"Nothing\":^5}", "/Nothing");
    judge::<Variant<u8>>("{\"One\":^[]}", "/One");
    judge::<Variant<u8>>("{\"Two\":^[1]}", "/Two");
    judge::<Variant<u8>>("{\"Named\":{^}}", "/Named");
    judge::<Variant<u8>>("^{}", "");
    judge::<Variant<u8>>("^\"Other\"", "");
}

// What `serde` buffers has no places of its own.
#[test]
fn values_that_are_buffered() {
    judge::<Event>(r#"^{"type":"Login","user":5}"#, "");
    judge::<Event>(r#"{"user":5,"type":^"Other"}"#, "/type");
    judge::<Event>(r#"{"user":4,"type":^0}"#, "/type");
    judge::<Adjacent>(r#"{"t":^1}"#, "/t");
    judge::<Event>(r#"{"user":{"}":"]"} ^}"#, "");
    judge::<Event>(r#"{"type":"Login","id":[]^}"#, "");
    judge::<Event>(r#"{"type":"Login","user":[^340282366920938463463374607431768211455]}"#, "/user/0");
    judge::<Adjacent>(r#"{"t":"Login","c":{"user":^5}}"#, "/c/user");
    judge::<Adjacent>(r#"^{"c":{"user":5},"t":"Login"}"#, "");
    judge::<Id>("^true", "");
    judge::<Vec<Id>>("[1,\"x\",^-1]", "/2");
    judge::<Flat>(r#"^{"name":"a","b":256}"#, "");
    judge::<Flat>(r#"{"name":^1,"b":256}"#, "/name");
}

// A key that is wrong has the path of its object; a field that is missing is missing at the end of it.
#[test]
fn keys() {
    judge::<BTreeMap<Even, u8>>(r#"{"4":1,^"5":1}"#, "");
    judge::<BTreeMap<Never, u8>>(r#"{^"x":{"y":2}}"#, "");
    judge::<BTreeMap<bool, u8>>(r#"{^"x":1}"#, "");
    judge::<BTreeMap<Variant<u8>, u8>>(r#"{^"Other":1}"#, "");
    judge::<Variant<u8>>(r#"{^"Other":1}"#, "");
    judge::<Server>(r#"{"id":1,^"x":2}"#, "");
    judge::<Server>(r#"{"id":1,"port":"1",^"id":[2]}"#, "");
    judge::<Event>(r#"{"type":"Login","user":2,^"type":"Logout"}"#, "");
    judge::<Server>("{^}", "");
    judge::<Server>("{\"port\":\"1\",\n ^\"port\":2}", "");
    judge::<Server>(r#"{"port":"1"^}"#, "");
    judge::<Holder<u8>>(r#"{"x":[{"}\"\\":"{"},[],"\\"] , "name" : "\"}" ^}"#, "");
    judge::<Holder<u8>>("{\"name\":\"é\",\n\"x\":{}\n ^}", "");
    let deep = format!(r#"{{"x":{}7{},"name":""^}}"#, "[".repeat(100), "]".repeat(100));
    judge::<Holder<u8>>(&deep, "");
}
