//! Numbers as bytes, for the comparison and for the benchmark.

/// Seven bits to a byte, the lowest first, 0x80 set on each byte but the last.
pub fn put_number(n: u32, out: &mut Vec<u8>) {
    let mut rest = n;
    while rest >= 0x80 {
        out.push((rest & 0x7F) as u8 | 0x80);
        rest >>= 7;
    }
    out.push(rest as u8);
}
