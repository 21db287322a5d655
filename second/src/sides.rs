//! Which side.

#[derive(Clone, Copy, Debug, PartialEq, Eq)]
pub enum Side {
    Cell,
    Plant,
}

/// An entry of a side list: address and prefix length, 0 to 32.
pub type Entry = (u32, u32);

pub struct Sides {
    pub cell: &'static [Entry],
    pub plant: &'static [Entry],
}

/// The entry that decided to which side an address belongs.
#[derive(Clone, Copy, Debug, PartialEq, Eq)]
pub struct Decided {
    pub side: Side,
    /// Its number in the side's list, from 1.
    pub number: usize,
    pub entry: Entry,
}

/// "Address bits beyond the prefix are ignored."
fn holds((prefix, length): Entry, address: u32) -> bool {
    u64::from(prefix ^ address) >> (32 - length.min(32)) == 0
}

impl Sides {
    /// The printing program's: "cell 10.0.0.0/8, plant 192.168.0.0/16,"
    pub const PROGRAM: Sides = Sides { cell: &[(0x0A00_0000, 8)], plant: &[(0xC0A8_0000, 16)] };

    /// "An address belongs to the list with the longest prefix that holds it; at equal length the
    /// cell list wins".
    pub fn side_of(&self, address: u32) -> Option<Side> {
        self.decided(address).map(|decided| decided.side)
    }

    /// The entry that says so: "inside a list the first such entry".
    pub fn decided(&self, address: u32) -> Option<Decided> {
        for length in (0..=32).rev() {
            let first = |side, list: &[Entry]| {
                let index = list.iter().position(|e| e.1 == length && holds(*e, address))?;
                Some(Decided { side, number: index + 1, entry: list[index] })
            };
            let found = first(Side::Cell, self.cell).or_else(|| first(Side::Plant, self.plant));
            if found.is_some() {
                return found;
            }
        }
        None
    }
}

#[cfg(test)]
mod tests {
    use super::*;

    #[test]
    fn the_edges_of_the_program_s_sides() {
        let sides = Sides::PROGRAM;
        assert_eq!(sides.side_of(0x09FF_FFFF), None);
        assert_eq!(sides.side_of(0x0A00_0000), Some(Side::Cell));
        assert_eq!(sides.side_of(0x0AFF_FFFF), Some(Side::Cell));
        assert_eq!(sides.side_of(0x0B00_0000), None);
        assert_eq!(sides.side_of(0xC0A7_FFFF), None);
        assert_eq!(sides.side_of(0xC0A8_0000), Some(Side::Plant));
        assert_eq!(sides.side_of(0xC0A8_FFFF), Some(Side::Plant));
        assert_eq!(sides.side_of(0xC0A9_0000), None);
    }

    #[test]
    fn longest_prefix_then_the_cell_list() {
        let sides = Sides {
            cell: &[(0x0A00_0000, 8), (0x0A01_0203, 32), (0x0B00_00FF, 24)],
            plant: &[(0, 0), (0x0A01_0200, 24), (0x0B00_0000, 24)],
        };
        assert_eq!(sides.side_of(0x0A00_0001), Some(Side::Cell));
        assert_eq!(sides.side_of(0x0A01_0204), Some(Side::Plant));
        assert_eq!(sides.side_of(0x0A01_0203), Some(Side::Cell));
        assert_eq!(sides.side_of(0x0B00_0001), Some(Side::Cell));
        assert_eq!(sides.side_of(0xFFFF_FFFF), Some(Side::Plant));
    }
    #[test]
    fn the_first_entry_of_the_longest_prefix_decides() {
        let sides = Sides {
            cell: &[(0x0A00_0000, 8), (0x0A01_02FF, 24), (0x0A01_0200, 24), (0x0A01_0203, 32)],
            plant: &[(0, 0), (0x0A01_0200, 24), (0xC0A8_0000, 16), (0xC0A8_0000, 16)],
        };
        let told = |address| sides.decided(address).map(|d| (d.side, d.number, d.entry));
        assert_eq!(told(0x0A00_0001), Some((Side::Cell, 1, (0x0A00_0000, 8))));
        assert_eq!(told(0x0A01_0201), Some((Side::Cell, 2, (0x0A01_02FF, 24))));
        assert_eq!(told(0x0A01_0203), Some((Side::Cell, 4, (0x0A01_0203, 32))));
        assert_eq!(told(0x0B00_0000), Some((Side::Plant, 1, (0, 0))));
        assert_eq!(told(0xC0A8_0001), Some((Side::Plant, 3, (0xC0A8_0000, 16))));
        assert_eq!(Sides::PROGRAM.decided(0x0B00_0000), None);
    }
}
