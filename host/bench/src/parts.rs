//! The parts that libraries hold and boards place: the same number always names the same part.

/// Footprints that many parts share, and the letter of their references.
const PACKAGES: [(&str, char); 16] = [
    ("R0402", 'R'),
    ("R0603", 'R'),
    ("R1206", 'R'),
    ("C0402", 'C'),
    ("C0603", 'C'),
    ("C_TANT_D", 'C'),
    ("SOT23", 'Q'),
    ("SOIC8", 'U'),
    ("TSSOP20", 'U'),
    ("QFP100_14X14", 'U'),
    ("BGA256_17X17", 'U'),
    ("DO214AC", 'D'),
    ("SMA_L1008", 'L'),
    ("XTAL_HC49", 'Y'),
    ("HDR_2X10_254", 'J'),
    ("DSUB9_RA", 'J'),
];

/// How many parts there are.
pub const MOST: usize = 1 << 20;

/// One part; no two share both package and number.
#[derive(Debug, Clone, PartialEq, Eq)]
pub struct Part {
    /// Its footprint.
    pub package: &'static str,
    /// Its part number.
    pub number: String,
    /// The letter of its references; a mechanical part has none.
    pub letter: Option<char>,
}

/// A part by its place among all; part numbers come in no order, as in a library that has grown.
pub fn part(place: usize) -> Part {
    let mixed = place.wrapping_mul(0x9E3B1) % MOST;
    let (package, letter) = PACKAGES[mixed % PACKAGES.len()];
    if place % 8 == 3 {
        let number = format!("SCREW_M3-{mixed:07}");
        return Part { package: "STANDOFF", number, letter: None };
    }
    Part { package, number: format!("{letter}C{:02}-{mixed:07}", place % 89), letter: Some(letter) }
}

#[cfg(test)]
mod tests {
    use super::*;
    use std::collections::HashSet;

    #[test]
    fn no_two_parts_are_the_same() {
        let names: HashSet<String> = (0..60_000).map(|place| part(place).number).collect();
        assert_eq!(names.len(), 60_000);
    }
}
