//! The entries through which the benchmark times serde_json and this project's crate.
mod typed;

/// Reads a text as a `Value`, which is let go again. Negative where it was rejected.
///
/// # Safety
///
/// `text` has `len` bytes.
#[no_mangle]
pub unsafe extern "C" fn serde_json_value(text: *const u8, len: usize) -> i64 {
    let text = std::slice::from_raw_parts(text, len);
    match serde_json::from_slice::<serde_json::Value>(text) {
        Ok(_) => 0,
        Err(_) => -1,
    }
}

/// Reads texts one after another as values, each of which is let go again. Negative where one was rejected.
///
/// # Safety
///
/// `texts` has `len` bytes.
#[no_mangle]
pub unsafe extern "C" fn serde_json_stream(texts: *const u8, len: usize) -> i64 {
    let texts = std::slice::from_raw_parts(texts, len);
    for value in serde_json::Deserializer::from_slice(texts).into_iter::<serde_json::Value>() {
        if value.is_err() {
            return -1;
        }
    }
    0
}
