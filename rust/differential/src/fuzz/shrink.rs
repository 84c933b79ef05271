//! Makes an input that disagrees smaller, as long as it still does.

use std::ops::Range;
use std::time::Instant;

use crate::support::Check;

/// An input of a comparison.
pub trait Input: Sized {
    /// Agreement, or the disagreement.
    fn check(&self) -> Check;

    /// Smaller inputs, those that lack most first. No chain of them goes on for ever.
    fn smaller(&self) -> Box<dyn Iterator<Item = Self> + '_>;

    /// The input for a reader.
    fn shown(&self) -> String;
}

/// The smallest input that is found before that time and still fails.
pub fn smallest<I: Input>(mut input: I, until: Instant, fails: impl Fn(&I) -> bool) -> I {
    loop {
        let in_time = |_: &I| Instant::now() < until;
        let next = input.smaller().take_while(in_time).find(&fails);
        match next {
            Some(next) => input = next,
            None => return input,
        }
    }
}

/// Lower numbers: 0 first, then ever nearer.
pub fn lower(n: u64) -> impl Iterator<Item = u64> {
    let steps = (0..64).map(move |k| n >> k).take_while(|step| *step > 0);
    steps.map(move |step| n - step)
}

/// Parts of so many things: all, the halves, the quarters, down to single ones.
pub fn parts(len: usize) -> impl Iterator<Item = Range<usize>> {
    let sizes = (0..usize::BITS).map(move |k| len >> k);
    let sizes = sizes.take_while(|size| *size > 0);
    sizes.flat_map(move |size| {
        let starts = (0..len).step_by(size);
        starts.map(move |start| start..len.min(start + size))
    })
}

/// The list without each of its parts.
pub fn without<T: Clone>(list: &[T]) -> impl Iterator<Item = Vec<T>> + '_ {
    parts(list.len()).map(|part| [&list[..part.start], &list[part.end..]].concat())
}

/// The bytes with each of their parts zero, then with each byte lower.
pub fn lower_bytes(bytes: &[u8]) -> impl Iterator<Item = Vec<u8>> + '_ {
    let zeroed = parts(bytes.len())
        .filter(|part| bytes[part.clone()].iter().any(|byte| *byte > 0))
        .map(|part| {
            let mut other = bytes.to_vec();
            other[part].fill(0);
            other
        });
    let lowered = (0..bytes.len()).flat_map(move |at| {
        lower(bytes[at].into()).map(move |byte| {
            let mut other = bytes.to_vec();
            other[at] = byte as u8;
            other
        })
    });
    zeroed.chain(lowered)
}

/// Fewer bytes, then lower ones.
pub fn smaller_bytes(bytes: &[u8]) -> impl Iterator<Item = Vec<u8>> + '_ {
    without(bytes).chain(lower_bytes(bytes))
}

pub fn hex(bytes: &[u8]) -> String {
    let bytes: Vec<String> = bytes.iter().map(|byte| format!("{byte:02x}")).collect();
    bytes.join(" ")
}
