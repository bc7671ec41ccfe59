//! CRC-32 (IEEE, as in zip), eight bytes at a time.

/// Table k gives the effect of a byte that k bytes follow.
const TABLES: [[u32; 256]; 8] = tables();

/// The tables.
const fn tables() -> [[u32; 256]; 8] {
    let mut t = [[0u32; 256]; 8];
    let mut i = 0;
    while i < 256 {
        let mut c = i as u32;
        let mut bit = 0;
        while bit < 8 {
            c = if c & 1 == 1 { c >> 1 ^ 0xEDB88320 } else { c >> 1 };
            bit += 1;
        }
        t[0][i] = c;
        i += 1;
    }
    let mut n = 256;
    while n < 2048 {
        let before = t[n / 256 - 1][n % 256];
        t[n / 256][n % 256] = before >> 8 ^ t[0][(before & 255) as usize];
        n += 1;
    }
    t
}

/// The checksum of the bytes.
pub fn crc32(bytes: &[u8]) -> u32 {
    let (words, rest) = bytes.as_chunks::<8>();
    let mut c = u32::MAX;
    for w in words {
        let x = u64::from_le_bytes(*w) ^ u64::from(c);
        c = (0..8).fold(0, |sum, i| sum ^ TABLES[7 - i][(x >> (8 * i) & 255) as usize]);
    }
    for &b in rest {
        c = c >> 8 ^ TABLES[0][((c ^ u32::from(b)) & 255) as usize];
    }
    !c
}
