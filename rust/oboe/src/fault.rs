//! What is wrong with a list, in words. That something is wrong, and where, the library says.

use crate::map::Owned;
use crate::trouble::Trouble;
use crate::words::{counted, number};
use oboeridge::Refusal;
use std::path::Path;

/// A refusal, with a word on the list at fault if it is one of these: the first map's for No. 3, the second's for No. 4.
pub fn explained(refusal: Refusal, maps: &[(&Path, &Owned)]) -> Trouble {
    let at_fault = refusal.rule.checked_sub(3).and_then(|place| maps.get(place as usize));
    match at_fault {
        Some((path, map)) => Trouble::Explained(refusal, format!("{}: {}", path.display(), fault(map, refusal.number as usize))),
        None => Trouble::Refused(refusal),
    }
}

/// Where an entry ends, if its level is one that a block can have.
fn end(leaf: u64) -> Option<u64> {
    let level = leaf >> 8 & 255;
    let area = 1u64.checked_shl(2 * level as u32)?;
    (leaf >> 16).checked_add(area)
}

/// What is wrong with an entry, all before it being right; or that the list ends before it.
fn fault(map: &Owned, entry: usize) -> String {
    let before = map.list[..entry].last().and_then(|leaf| end(*leaf)).unwrap_or(0);
    let Some(leaf) = map.list.get(entry) else {
        let entries = counted(entry as u64, "entry", "entries");
        return format!("its {entries} end at code {}, and the map at {}", number(before), number(1 << (2 * map.size)));
    };
    let (code, level) = (leaf >> 16, leaf >> 8 & 255);
    if level > map.size {
        format!("that entry has level {level}, above the map's size {}", map.size)
    } else if code != before {
        format!("that entry begins at code {}, but the entries before it end at {}", number(code), number(before))
    } else if code >> (2 * map.size) > 0 {
        "that entry lies past the end of the map".to_string()
    } else {
        format!("that entry begins at code {}, where no block of level {level} begins", number(code))
    }
}

#[cfg(test)]
mod tests {
    use super::*;

    #[test]
    fn each_fault_is_named() {
        let said = |size, list: &[u64], entry| fault(&Owned { size, list: list.to_vec() }, entry);
        assert_eq!(said(1, &[0, 65_536, 131_072], 3), "its 3 entries end at code 3, and the map at 4");
        assert_eq!(said(1, &[], 0), "its 0 entries end at code 0, and the map at 4");
        assert_eq!(said(1, &[512], 0), "that entry has level 2, above the map's size 1");
        assert_eq!(said(2, &[0, 65_792], 1), "that entry begins at code 1, where no block of level 1 begins");
        assert_eq!(said(1, &[0, 131_072], 1), "that entry begins at code 2, but the entries before it end at 1");
        assert_eq!(said(0, &[0, 65_536], 1), "that entry lies past the end of the map");
    }
}
