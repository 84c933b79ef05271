//! Numbers as bytes, by the one reader that the suites have: unsigned LEB128 as DWARF 5 defines it (section 7.6), of at most
//! ten bytes and 64 bits, in its shortest form alone. Where it does not say 30, the original must read the same.

/// Value and length, or the refusal's number.
pub type Read = Result<(u64, usize), u64>;

/// A number in more bytes than it needs.
pub const OVERLONG: u64 = 30;

/// The most bytes that a number has.
const MOST: usize = 10;

/// The number at the start of the bytes.
pub fn read(bytes: &[u8]) -> Read {
    read_up_to(u64::MAX, bytes)
}

/// The same, of at most 32 bits.
pub fn read_u32(bytes: &[u8]) -> Read {
    read_up_to(u64::from(u32::MAX), bytes)
}

/// 02: "30 when a varint of two or more bytes ends in a zero byte, after 22 and 23."
fn read_up_to(greatest: u64, bytes: &[u8]) -> Read {
    let (value, len) = read_any(bytes)?;
    if value > greatest {
        return Err(23);
    }
    if len >= 2 && bytes[len - 1] == 0 {
        return Err(OVERLONG);
    }
    Ok((value, len))
}

/// The number in whatever form: a byte has seven bits of it, the lowest first, and its high bit says that another byte
/// follows. 23 where it has more bits or bytes than there may be, else 22 where its last byte is missing.
pub fn read_any(bytes: &[u8]) -> Read {
    let first = &bytes[..bytes.len().min(MOST)];
    let last = first.iter().position(|byte| *byte < 0x80);
    let groups = &first[..last.map_or(first.len(), |last| last + 1)];
    let value = groups
        .iter()
        .rev()
        .fold(0u128, |value, byte| value << 7 | u128::from(byte & 0x7f));
    let eleventh = last.is_none() && bytes.len() > MOST;
    match u64::try_from(value) {
        Ok(value) if !eleventh => last.map(|last| (value, last + 1)).ok_or(22),
        _ => Err(23),
    }
}

/// Writes the shortest form: as many bytes as the number's bits need, at least one.
pub fn put(out: &mut Vec<u8>, number: u64) {
    let bits = 64 - (number | 1).leading_zeros();
    let last = (bits - 1) / 7;
    let sevens = (0..=last).map(|i| (number >> (7 * i)) as u8 & 0x7f);
    out.extend(sevens.zip(0..).map(|(byte, i)| match i < last {
        true => byte | 0x80,
        false => byte,
    }));
}

/// Gives the number at the end of the bytes so many bytes more, which add nothing to its value.
pub fn lengthen(out: &mut Vec<u8>, more: usize) {
    for _ in 0..more {
        if let Some(last) = out.last_mut() {
            *last |= 0x80;
        }
        out.push(0);
    }
}

/// Gives the number at the start of the bytes one byte more.
pub fn lengthen_first(bytes: &mut Vec<u8>) {
    if let Some(last) = bytes.iter().position(|byte| *byte < 0x80) {
        let behind = bytes.split_off(last + 1);
        lengthen(bytes, 1);
        bytes.extend(behind);
    }
}

/// The number in so many bytes more than it needs, however many these are.
pub fn longer(number: u64, more: usize) -> Vec<u8> {
    let mut bytes = Vec::new();
    put(&mut bytes, number);
    lengthen(&mut bytes, more);
    bytes
}

#[cfg(test)]
mod tests {
    use super::*;

    /// So many bytes of a kind, then others.
    fn run(byte: u8, times: usize, then: &[u8]) -> Vec<u8> {
        [&vec![byte; times][..], then].concat()
    }

    #[test]
    fn numbers_go_round() {
        for power in 0..64 {
            for number in [(1 << power) - 1, 1 << power, u64::MAX >> power] {
                let mut out = Vec::new();
                put(&mut out, number);
                assert_eq!(read(&out), Ok((number, out.len())));
                assert_eq!(read(&out[..out.len() - 1]), Err(22));
                assert_eq!(longer(number, 0), out);
                for more in 1..=MOST {
                    let long = longer(number, more);
                    assert_eq!(long.len(), out.len() + more);
                    let fits = long.len() <= MOST;
                    assert_eq!(read(&long), Err(if fits { OVERLONG } else { 23 }));
                }
            }
        }
    }

    /// The bytes that the ticket's order of refusals turns on.
    #[test]
    fn forms_at_the_edges() {
        let forms = [
            (vec![0], Ok((0, 1))),
            (vec![0x80, 1], Ok((128, 2))),
            (vec![0x7f, 0], Ok((127, 1))),
            (run(0x80, 9, &[1]), Ok((1 << 63, 10))),
            (run(0xff, 9, &[1]), Ok((u64::MAX, 10))),
            (vec![0x80, 0], Err(30)),
            (vec![0x82, 0x80, 0], Err(30)),
            (run(0x80, 9, &[0]), Err(30)),
            (run(0xff, 9, &[0]), Err(30)),
            (vec![], Err(22)),
            (vec![0x80], Err(22)),
            (run(0x80, 10, &[]), Err(22)),
            (run(0x80, 9, &[0x81]), Err(22)),
            (run(0x80, 9, &[2]), Err(23)),
            (run(0x80, 9, &[0x82]), Err(23)),
            (run(0x80, 10, &[0]), Err(23)),
            (run(0xff, 9, &[0x81, 0]), Err(23)),
        ];
        for (bytes, wanted) in forms {
            assert_eq!(read(&bytes), wanted, "{bytes:02x?}");
        }
    }

    #[test]
    fn the_first_number_is_lengthened() {
        let mut bytes = vec![0xac, 2, 7];
        lengthen_first(&mut bytes);
        assert_eq!(bytes, [0xac, 0x82, 0, 7]);
        let mut cut = vec![0x80];
        lengthen_first(&mut cut);
        assert_eq!(cut, [0x80]);
    }

    #[test]
    fn a_number_of_32_bits() {
        assert_eq!(read_u32(&run(0xff, 4, &[0x0f])), Ok((u32::MAX.into(), 5)));
        assert_eq!(read_u32(&run(0xff, 4, &[0x8f, 0])), Err(30));
        // Too wide, and overlong besides.
        for more in 0..=MOST {
            assert_eq!(read_u32(&longer(1 << 32, more)), Err(23));
        }
        assert_eq!(read_u32(&[0x80]), Err(22));
    }
}
