//! Values written by any serializer of `serde`.
use crate::value::{Tape, Value, ValueType};
use serde::ser::{Serialize, Serializer};

/// Integers as they are, of up to 128 bits; a number with a fraction or an exponent as the nearest `f64`. It takes
/// stack for each container that is open, of which there are at most as many as the `Buffers` allow.
impl Serialize for Value<'_> {
    fn serialize<S: Serializer>(&self, serializer: S) -> Result<S::Ok, S::Error> {
        match self.value_type() {
            ValueType::Bool => serializer.serialize_bool(self.as_bool().unwrap_or_default()),
            ValueType::I64 => serializer.serialize_i64(self.as_i64().unwrap_or_default()),
            ValueType::U64 => serializer.serialize_u64(self.as_u64().unwrap_or_default()),
            ValueType::I128 => serializer.serialize_i128(self.as_i128().unwrap_or_default()),
            ValueType::U128 => serializer.serialize_u128(self.as_u128().unwrap_or_default()),
            ValueType::Decimal => serializer.serialize_f64(self.as_f64().unwrap_or_default()),
            ValueType::String => serializer.serialize_str(self.as_str().unwrap_or_default()),
            ValueType::Array => serializer.collect_seq(self.as_array().into_iter().flatten()),
            ValueType::Object => serializer.collect_map(self.as_object().into_iter().flatten()),
            ValueType::Null => serializer.serialize_unit(),
        }
    }
}

/// The document.
impl Serialize for Tape<'_> {
    fn serialize<S: Serializer>(&self, serializer: S) -> Result<S::Ok, S::Error> {
        self.as_value().serialize(serializer)
    }
}
