//! Taking a list of cases apart and putting one together: little-endian
//! numbers, lengths before their bytes, and PackBits.

/// A read position in the bytes of a case.
pub struct Cursor<'a>(pub &'a [u8]);

impl<'a> Cursor<'a> {
    pub fn take(&mut self, count: usize) -> &'a [u8] {
        let (front, rest) = self.0.split_at(count);
        self.0 = rest;
        front
    }

    pub fn u8(&mut self) -> u8 {
        self.take(1)[0]
    }

    pub fn u16(&mut self) -> u16 {
        u16::from_le_bytes(self.take(2).try_into().unwrap())
    }

    pub fn i16(&mut self) -> i16 {
        self.u16() as i16
    }

    pub fn colour(&mut self) -> [u8; 3] {
        self.take(3).try_into().unwrap()
    }
}

/// The cases of a list, each behind its length.
pub fn cases(list: &[u8]) -> Vec<&[u8]> {
    let mut cursor = Cursor(list);
    let mut found = Vec::new();
    while !cursor.0.is_empty() {
        let length = cursor.u16();
        found.push(cursor.take(length.into()));
    }
    found
}

pub fn put_u16(out: &mut Vec<u8>, value: usize) {
    let value = u16::try_from(value).expect("a number of 16 bits");
    out.extend_from_slice(&value.to_le_bytes());
}

pub fn put_u32(out: &mut Vec<u8>, value: usize) {
    let value = u32::try_from(value).expect("a number of 32 bits");
    out.extend_from_slice(&value.to_le_bytes());
}

pub fn put_i16(out: &mut Vec<u8>, value: i32) {
    let value = i16::try_from(value).expect("a number of 16 bits");
    out.extend_from_slice(&value.to_le_bytes());
}

/// Bytes behind a length of one byte.
pub fn put_short(out: &mut Vec<u8>, bytes: &[u8]) {
    out.push(u8::try_from(bytes.len()).expect("at most 255 bytes"));
    out.extend_from_slice(bytes);
}

/// Bytes behind a length of two bytes.
pub fn put_long(out: &mut Vec<u8>, bytes: &[u8]) {
    put_u16(out, bytes.len());
    out.extend_from_slice(bytes);
}

/// PackBits: runs of three and more bytes are packed.
pub fn pack(bytes: &[u8]) -> Vec<u8> {
    let mut out = Vec::new();
    let mut plain = 0; // literal bytes waiting end at `at`
    let mut at = 0;
    while at < bytes.len() {
        let same = |&&byte: &&u8| byte == bytes[at];
        let run = bytes[at..].iter().take(128).take_while(same).count();
        if run < 3 {
            at += 1;
            continue;
        }
        literal(&mut out, &bytes[plain..at]);
        out.extend_from_slice(&[(257 - run) as u8, bytes[at]]);
        at += run;
        plain = at;
    }
    literal(&mut out, &bytes[plain..]);
    out
}

fn literal(out: &mut Vec<u8>, bytes: &[u8]) {
    for part in bytes.chunks(128) {
        out.push((part.len() - 1) as u8);
        out.extend_from_slice(part);
    }
}

pub fn unpack(packed: &[u8]) -> Vec<u8> {
    let mut cursor = Cursor(packed);
    let mut out = Vec::new();
    while !cursor.0.is_empty() {
        let control = usize::from(cursor.u8());
        if control < 128 {
            out.extend_from_slice(cursor.take(control + 1));
        } else {
            let byte = cursor.u8();
            out.resize(out.len() + 257 - control, byte);
        }
    }
    out
}
