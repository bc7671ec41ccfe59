//! CRC-32 (IEEE, reflected polynomial EDB88320), eight bytes at a time.

/// Table k holds the sum of a byte followed by k zero bytes.
const TABLES: [[u32; 256]; 8] = tables();

/// The tables of the sum.
const fn tables() -> [[u32; 256]; 8] {
    let mut tables = [[0u32; 256]; 8];
    let mut byte = 0;
    while byte < 256 {
        let mut sum = byte as u32;
        let mut bit = 0;
        while bit < 8 {
            sum = if sum & 1 == 1 { (sum >> 1) ^ 0xEDB8_8320 } else { sum >> 1 };
            bit += 1;
        }
        tables[0][byte] = sum;
        byte += 1;
    }
    let mut k = 1;
    while k < 8 {
        let mut byte = 0;
        while byte < 256 {
            let before = tables[k - 1][byte];
            tables[k][byte] = (before >> 8) ^ tables[0][(before & 255) as usize];
            byte += 1;
        }
        k += 1;
    }
    tables
}

/// The CRC-32 of bytes.
pub fn crc32(bytes: &[u8]) -> u32 {
    let mut sum = u32::MAX;
    let mut parts = bytes.chunks_exact(8);
    for part in &mut parts {
        let low = sum ^ u32::from_le_bytes([part[0], part[1], part[2], part[3]]);
        sum = 0;
        for (i, byte) in low.to_le_bytes().iter().chain(&part[4..]).enumerate() {
            sum ^= TABLES[7 - i][*byte as usize];
        }
    }
    for byte in parts.remainder() {
        sum = (sum >> 8) ^ TABLES[0][((sum ^ *byte as u32) & 255) as usize];
    }
    !sum
}
