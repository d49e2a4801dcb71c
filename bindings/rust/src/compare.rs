//! Values compared with scalars.
use crate::value::Value;

macro_rules! equal {
    ($($doc:literal $($type:ty),+: |$value:ident, $other:ident| $is_equal:expr;)*) => {$($(
        #[doc = $doc]
        impl PartialEq<$type> for Value<'_> {
            fn eq(&self, other: &$type) -> bool {
                let ($value, $other) = (*self, other);
                $is_equal
            }
        }

        impl PartialEq<Value<'_>> for $type {
            fn eq(&self, other: &Value<'_>) -> bool {
                other == self
            }
        }
    )+)*};
}

equal! {
    "Whether it is the truth value." bool: |value, other| value.as_bool() == Some(*other);
    "Whether it is the string, with its escapes decoded." str: |value, other| value.as_str() == Some(other);
    "Whether it is the string, with its escapes decoded." &str, String: |value, other| value == **other;
    "Whether it is a number whose nearest float this is." f32: |value, other| value.as_f32() == Some(*other);
    "Whether it is a number whose nearest float this is." f64: |value, other| value.as_f64() == Some(*other);
    "Whether it is the integer." u128: |value, other| value.as_u128() == Some(*other);
    "Whether it is the integer." i128: |value, other| value.as_i128() == Some(*other);
    "Whether it is the integer." i8, i16, i32, i64, isize, u8, u16, u32, u64, usize:
        |value, other| value.as_i128() == Some(*other as i128);
}
