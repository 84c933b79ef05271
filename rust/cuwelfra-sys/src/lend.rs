//! How lent areas go over.

/// Makes an exported call. Behind `read` and `write` stands a slice, which goes over as its pointer and its length; behind
/// `store` the three areas of a store that is read; all else is a number.
macro_rules! lend {
    ($call:ident($($lent:tt)*)) => {
        lend!(@ $call () $($lent)*,)
    };
    // All is lent.
    (@ $call:ident ($($over:expr,)*) $(,)?) => {
        // SAFETY: the contract of `ffi`. Each pointer and the length behind it are those of one slice, which is borrowed
        // up to here, and mutably where the pointer is `*mut`: no slice would be accepted twice beside a mutable one.
        unsafe { $crate::ffi::$call($($over),*) }
    };
    (@ $call:ident ($($over:expr,)*) read $area:expr, $($rest:tt)*) => {{
        let area: &[u8] = $area;
        lend!(@ $call ($($over,)* area.as_ptr(), area.len(),) $($rest)*)
    }};
    (@ $call:ident ($($over:expr,)*) write $area:expr, $($rest:tt)*) => {{
        let area: &mut [u8] = $area;
        lend!(@ $call ($($over,)* area.as_mut_ptr(), area.len(),) $($rest)*)
    }};
    (@ $call:ident ($($over:expr,)*) store $store:expr, $($rest:tt)*) => {{
        let $crate::Areas { log, held, head } = $store;
        lend!(@ $call ($($over,)*) read log, read held, read head, $($rest)*)
    }};
    (@ $call:ident ($($over:expr,)*) $number:expr, $($rest:tt)*) => {{
        let number = $number;
        lend!(@ $call ($($over,)* number,) $($rest)*)
    }};
}
