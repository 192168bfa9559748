//! The list file: docs/COMMAND.md has its layout.

use crate::checksum::crc32;
use crate::map::Owned;

/// What a list file begins with.
pub const MAGIC: &[u8; 8] = b"OBOELIST";

const WORD: usize = 8;
const HEAD: usize = 3 * WORD;
const CHECKSUM: usize = 4;

/// The words that some bytes are, eight bytes each.
fn words(bytes: &[u8]) -> impl Iterator<Item = u64> + '_ {
    bytes.chunks_exact(WORD).map(|word| u64::from_le_bytes(word.try_into().expect("a chunk has eight bytes")))
}

/// The map that a list file holds, as it stands: whether its list is well formed is for the library to judge. Or why it is none.
pub fn read(bytes: &[u8]) -> Result<Owned, String> {
    if bytes.len() < HEAD + CHECKSUM {
        return Err("a list file that is cut short".into());
    }
    let head: Vec<u64> = words(&bytes[WORD..HEAD]).collect();
    let (size, leaves) = (head[0], head[1]);
    let (body, sum) = bytes.split_at(bytes.len() - CHECKSUM);
    let there = (body.len() - HEAD) as u64;
    match leaves.checked_mul(WORD as u64) {
        Some(needed) if needed == there => {}
        Some(needed) if needed < there => return Err("a list file that goes on after its last leaf".into()),
        _ => return Err("a list file that is cut short".into()),
    }
    if crc32(&[body]).to_le_bytes() != *sum {
        return Err("a list file whose checksum is wrong: some of it was changed".into());
    }
    Ok(Owned { size, list: words(&body[HEAD..]).collect() })
}

/// The bytes of a map's list file.
pub fn bytes(map: &Owned) -> Vec<u8> {
    let mut bytes = Vec::with_capacity(HEAD + map.list.len() * WORD + CHECKSUM);
    bytes.extend_from_slice(MAGIC);
    for word in [map.size, map.list.len() as u64].iter().chain(&map.list) {
        bytes.extend_from_slice(&word.to_le_bytes());
    }
    let sum = crc32(&[&bytes]);
    bytes.extend_from_slice(&sum.to_le_bytes());
    bytes
}
