//! Two-byte numbers, low byte first, as sheets and reports have them.

/// The first `N` numbers of these bytes, if there are as many.
pub(crate) fn words<const N: usize>(bytes: &[u8]) -> Option<[usize; N]> {
    let mut pairs = bytes.chunks_exact(2);
    let mut numbers = [0; N];
    for number in &mut numbers {
        let pair = pairs.next()?.try_into().ok()?;
        *number = usize::from(u16::from_le_bytes(pair));
    }
    Some(numbers)
}

pub(crate) fn push_words(out: &mut Vec<u8>, numbers: &[u16]) {
    out.extend(numbers.iter().flat_map(|number| number.to_le_bytes()));
}

/// The first `length` bytes and the rest, if there are as many.
pub(crate) fn split(bytes: &[u8], length: usize) -> Option<(&[u8], &[u8])> {
    Some((bytes.get(..length)?, bytes.get(length..)?))
}
