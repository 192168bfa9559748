//! The two checksums of the files that are written: CRC-32 of list files and PNG, Adler-32 of zlib.

/// The CRC-32 of each byte alone, by the polynomial of PNG with its bits reversed.
const OF_BYTE: [u32; 256] = {
    let mut table = [0; 256];
    let mut byte = 0;
    while byte < 256 {
        let mut rest = byte as u32;
        let mut bit = 0;
        while bit < 8 {
            rest = (rest >> 1) ^ (0xEDB8_8320 * (rest & 1));
            bit += 1;
        }
        table[byte] = rest;
        byte += 1;
    }
    table
};

/// The CRC-32 of some bytes, given one after another in parts.
pub fn crc32(parts: &[&[u8]]) -> u32 {
    let bytes = parts.iter().flat_map(|part| part.iter());
    !bytes.fold(u32::MAX, |crc, byte| (crc >> 8) ^ OF_BYTE[(crc as u8 ^ byte) as usize])
}

/// The largest prime below 65,536, by which Adler-32 takes remainders.
const ADLER: u32 = 65_521;

/// So many bytes can be added up before a sum of Adler-32 leaves 32 bits.
const BEFORE_OVERFLOW: usize = 5_552;

/// The Adler-32 of some bytes.
pub fn adler32(bytes: &[u8]) -> u32 {
    let (mut sum, mut of_sums) = (1, 0);
    for part in bytes.chunks(BEFORE_OVERFLOW) {
        for byte in part {
            sum += u32::from(*byte);
            of_sums += sum;
        }
        sum %= ADLER;
        of_sums %= ADLER;
    }
    (of_sums << 16) | sum
}

#[cfg(test)]
mod tests {
    use super::*;

    #[test]
    fn the_published_check_values() {
        assert_eq!(crc32(&[b"12345", b"6789"]), 0xCBF4_3926);
        assert_eq!(adler32(b"Wikipedia"), 0x11E6_0398);
        assert_eq!(adler32(&[255; 1 << 20]), (255 * (1 << 20) % ADLER + 1) | (of_ones(1 << 20) << 16));
    }

    /// The second sum of Adler-32 for so many bytes of 255, by the closed form.
    fn of_ones(count: u64) -> u32 {
        ((count + 255 * (count * (count + 1) / 2)) % u64::from(ADLER)) as u32
    }
}
