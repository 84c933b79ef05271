//! Numbers that the port reads, beside the original: an overlong one is 30, and the original is not asked; of any other it
//! answers what the original does. What is read is what the original's writer makes of the value.

use cuwelfra_sys::{self as sys, NumberRead, Told};

use crate::census::Forms;
use crate::leb128::{self, Read, OVERLONG};
use crate::original;
use crate::support::{agree, refused, Check, Refusing};

/// A read of a number: the harness's own, the original's and the port's.
struct Reads {
    name: &'static str,
    own: fn(&[u8]) -> Read,
    original: fn(&[u8], usize) -> NumberRead,
    port: fn(&[u8], usize) -> NumberRead,
}

const VARINT: Reads = Reads {
    name: "get_varint",
    own: leb128::read,
    original: original::get_varint,
    port: sys::get_varint,
};
const U32: Reads = Reads {
    name: "get_u32",
    own: leb128::read_u32,
    original: original::get_u32,
    port: sys::get_u32,
};

/// The varint at `at`. Gives the number of its refusal, 0 where it is read.
pub fn same_varint(forms: &mut Forms, s: &[u8], at: usize) -> Result<u64, String> {
    VARINT.same(forms, s, at)
}

/// The same of at most 32 bits.
pub fn same_u32(forms: &mut Forms, s: &[u8], at: usize) -> Result<u64, String> {
    U32.same(forms, s, at)
}

impl Reads {
    fn same(&self, forms: &mut Forms, s: &[u8], at: usize) -> Result<u64, String> {
        let inputs = || format!("{} of {s:02x?} at {at}", self.name);
        let own = (self.own)(left(s, at));
        let wanted = forms.wanted(own == Err(OVERLONG), || (self.original)(s, at));
        same_number(own, &wanted, s, at, inputs)?;
        agree(&(self.port)(s, at), &wanted, inputs)?;
        Ok(wanted.told.number)
    }
}

/// The count at `at`, and the part whose length it is.
pub fn same_sizes(forms: &mut Forms, s: &[u8], at: usize, max: u64) -> Check {
    let inputs = |what: &'static str| move || format!("{what} of {s:02x?} at {at}, max {max}");
    let overlong = is_overlong(s, at);
    let count = forms.wanted(overlong, || original::get_count(s, at, max));
    agree(&sys::get_count(s, at, max), &count, inputs("get_count"))?;
    let part = forms.wanted(overlong, || original::get_bytes(s, at, max));
    agree(&sys::get_bytes(s, at, max), &part, inputs("get_bytes"))
}

/// Whether the number at `at` is in more bytes than it needs.
fn is_overlong(s: &[u8], at: usize) -> bool {
    leb128::read(left(s, at)) == Err(OVERLONG)
}

/// The bytes from `at` on, none past the end.
pub fn left(s: &[u8], at: usize) -> &[u8] {
    s.get(at..).unwrap_or(&[])
}

/// Requires that the harness's reader answers the same, and that a number has one spelling: the original's.
fn same_number(
    own: Read,
    wanted: &NumberRead,
    s: &[u8],
    at: usize,
    inputs: impl Fn() -> String,
) -> Check {
    let answer = match own {
        Ok((value, len)) => NumberRead {
            told: Told::default(),
            value,
            next: (at + len) as u64,
        },
        Err(number) => NumberRead::refusing(refused(number)),
    };
    agree(&answer, wanted, || format!("the own reader's {}", inputs()))?;
    if let Ok((value, len)) = own {
        let written = original::written(|w| w.varint(value));
        agree(&&s[at..at + len], &&written[..], || {
            format!("the spelling, {}", inputs())
        })?;
    }
    Ok(())
}
