//! An input's bytes, read by the layout of register and file, without the second implementation.

/// The bytes of a body.
pub const WIDTH: usize = 16;

/// The parts of an input that is not refused.
pub struct Parts<'a> {
    pub register: &'a [u8],
    pub isins: &'a [u8],
    pub kinds: &'a [u8],
    pub bodies: &'a [u8],
}

pub fn parts(input: &[u8]) -> Parts<'_> {
    let securities = usize::from(input[0]);
    let (register, file) = input.split_at(2 + 13 * securities);
    let (kinds, bodies) = file[4..].split_at(usize::from(word(file)));
    Parts { register, isins: &register[2 + securities..], kinds, bodies }
}

/// The input with its first events alone.
pub fn first_events(input: &[u8], count: usize) -> Vec<u8> {
    let Parts { register, kinds, bodies, .. } = parts(input);
    let header = [count as u16, WIDTH as u16].map(u16::to_le_bytes).concat();
    [register, &header, &kinds[..count], &bodies[..WIDTH * count]].concat()
}

pub fn word(bytes: &[u8]) -> u16 {
    u16::from_le_bytes([bytes[0], bytes[1]])
}

/// Bytes 4 to 7 of a body.
pub fn quantity(body: &[u8]) -> u64 {
    double_word(&body[4..])
}

/// Bytes 8 to 11 of a body.
pub fn price(body: &[u8]) -> u64 {
    double_word(&body[8..])
}

fn double_word(bytes: &[u8]) -> u64 {
    u64::from(word(bytes)) + 65_536 * u64::from(word(&bytes[2..]))
}
