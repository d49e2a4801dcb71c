//! Typed reading, of the types and with the sums of crates/simd_json_typed_bench.
use serde::Deserialize;
use simd_json_proved::{from_slice_mut_with, Buffers};

#[derive(Deserialize)]
pub struct Line<S> {
    time: u64,
    level: S,
    host: S,
    path: S,
    status: u16,
    ms: f64,
    user: Option<u64>,
    retry: bool,
    text: S,
}

#[derive(Deserialize)]
pub struct Timeline<S> {
    statuses: Vec<Tweet<S>>,
}

#[derive(Deserialize)]
struct Tweet<S> {
    id: u64,
    text: S,
    user: User<S>,
    retweet_count: u32,
    favorite_count: u32,
}

#[derive(Deserialize)]
struct User<S> {
    id: u64,
    name: S,
    screen_name: S,
    followers_count: u32,
}

#[derive(Deserialize)]
pub struct Map {
    features: Vec<Feature>,
}

#[derive(Deserialize)]
struct Feature {
    geometry: Geometry,
}

#[derive(Deserialize)]
struct Geometry {
    coordinates: Vec<Vec<(f64, f64)>>,
}

pub trait Sum {
    fn sum(&self) -> u64;
}

// All sums are modulo 2^64.
fn total(parts: impl IntoIterator<Item = u64>) -> u64 {
    parts.into_iter().fold(0, u64::wrapping_add)
}

fn mark(text: &impl AsRef<str>) -> u64 {
    let bytes = text.as_ref().as_bytes();
    let ends = [bytes.first(), bytes.last()];
    total([
        bytes.len() as u64 * 1_000_003,
        total(ends.map(|byte| u64::from(*byte.unwrap_or(&0)))),
    ])
}

impl<S: AsRef<str>> Sum for Line<S> {
    fn sum(&self) -> u64 {
        total([
            self.time,
            mark(&self.level),
            mark(&self.host),
            mark(&self.path),
            u64::from(self.status),
            u64::from(self.ms > 500.0),
            self.user.unwrap_or(0),
            u64::from(self.retry),
            mark(&self.text),
        ])
    }
}

impl<S: AsRef<str>> Sum for Timeline<S> {
    fn sum(&self) -> u64 {
        total(self.statuses.iter().map(|tweet| {
            total([
                tweet.id,
                mark(&tweet.text),
                tweet.user.id,
                mark(&tweet.user.name),
                mark(&tweet.user.screen_name),
                u64::from(tweet.user.followers_count),
                u64::from(tweet.retweet_count),
                u64::from(tweet.favorite_count),
            ])
        }))
    }
}

impl Sum for Map {
    fn sum(&self) -> u64 {
        let rings = self
            .features
            .iter()
            .flat_map(|feature| &feature.geometry.coordinates);
        total(rings.map(|ring| {
            let sides = ring
                .iter()
                .map(|(x, y)| u64::from(*x > -100.0) + u64::from(*y > 60.0));
            ring.len() as u64 + total(sides)
        }))
    }
}

// Of each text, at the front of its slot; 2^64 - 1 where one was rejected.
fn all<'t>(
    slots: &'t mut [u8],
    stride: usize,
    len: usize,
    mut sum_of: impl FnMut(&'t mut [u8]) -> Option<u64>,
) -> u64 {
    let mut sums = slots.chunks_exact_mut(stride).map(|slot| sum_of(&mut slot[..len]));
    sums.try_fold(0u64, |sum, one| Some(sum.wrapping_add(one?))).unwrap_or(u64::MAX)
}

fn by_serde_json<'t, T: Deserialize<'t> + Sum>(_: &mut Buffers, text: &'t mut [u8]) -> Option<u64> {
    serde_json::from_slice::<T>(text).ok().map(|value| value.sum())
}

fn by_crate<'t, T: Deserialize<'t> + Sum>(buffers: &mut Buffers, text: &'t mut [u8]) -> Option<u64> {
    from_slice_mut_with::<T>(buffers, text).ok().map(|value| value.sum())
}

// Exports a function for types with such strings.
macro_rules! export {
    ($name:ident, $read:ident, $text:ty) => {
        /// Reads texts of `len` bytes, one at the front of each `stride`. Returns the sum, or 2^64 - 1 where one was rejected.
        ///
        /// # Safety
        ///
        /// `texts` has `size` bytes, which may be written, and `stride` is at least `len` and not 0.
        #[no_mangle]
        pub unsafe extern "C" fn $name(texts: *mut u8, size: usize, stride: usize, len: usize, form: u32) -> u64 {
            let texts = std::slice::from_raw_parts_mut(texts, size);
            let mut buffers = Buffers::default();
            match form {
                0 => all(texts, stride, len, |text| $read::<Line<$text>>(&mut buffers, text)),
                1 => all(texts, stride, len, |text| $read::<Timeline<$text>>(&mut buffers, text)),
                _ => all(texts, stride, len, |text| $read::<Map>(&mut buffers, text)),
            }
        }
    };
}

export!(serde_json_typed_owned, by_serde_json, String);
export!(serde_json_typed_borrowed, by_serde_json, &str);
export!(crate_typed_owned, by_crate, String);
export!(crate_typed_borrowed, by_crate, &str);
