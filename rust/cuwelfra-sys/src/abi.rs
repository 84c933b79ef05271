//! The number of the library's binary interface, and the one that this crate was made for.

use crate::ffi::cuwelfra_abi_4;

/// The number that these declarations were made for. The library raises its own at each change of a signature, a
/// struct, an area's layout or a size.
pub const ABI: u64 = 4;

/// The name has the number in it: a program does not link with a library of another one.
#[used]
static LINKED: unsafe extern "C" fn() -> u64 = cuwelfra_abi_4;

/// The number of the linked library.
pub fn abi() -> u64 {
    lend!(cuwelfra_abi())
}

/// Whether the linked library is one that this crate was made for.
pub fn fits() -> bool {
    abi() == ABI
}
