//! The tables of SWITCH and SWITCH_X. Distances are unsigned halfwords from the opcode's place.

use crate::bytes::{halfword, word};

/// Where a switch instruction and its table stand.
#[derive(Clone, Copy, Debug, PartialEq, Eq)]
pub struct SwitchTable {
    pub place: usize,
    /// The operand n: SWITCH has n+1 branches, SWITCH_X has n ranges.
    pub entries: u32,
    /// SWITCH_X
    pub ranges: bool,
}

impl SwitchTable {
    /// Length of the whole instruction: 9+2n for SWITCH, 7+10n for SWITCH_X.
    #[inline(always)]
    pub fn length(self) -> usize {
        let entries = self.entries as usize;
        if self.ranges {
            7 + 10 * entries
        } else {
            9 + 2 * entries
        }
    }

    fn target(self, code: &[u8], at: usize) -> u32 {
        self.place as u32 + halfword(code, at)
    }

    /// The label: where LEAVE goes. The word that the switch pushes.
    #[inline(always)]
    pub fn exit(self, code: &[u8]) -> u32 {
        self.target(code, self.place + 3)
    }

    /// The ELSE branch.
    #[inline(always)]
    pub fn otherwise(self, code: &[u8]) -> u32 {
        self.target(code, self.place + 5)
    }

    /// Target of one table entry. A distance of 0 in SWITCH_X means ELSE.
    #[inline(always)]
    fn entry(self, code: &[u8], index: u32) -> u32 {
        let table = self.place + 7;
        if !self.ranges {
            return self.target(code, table + 2 * index as usize);
        }
        let at = table + 10 * index as usize + 8;
        if halfword(code, at) == 0 {
            self.otherwise(code)
        } else {
            self.target(code, at)
        }
    }

    /// Where the switch goes for a selector.
    #[inline(always)]
    pub fn select(self, code: &[u8], selector: u32) -> u32 {
        if !self.ranges {
            // A negative selector is a large unsigned number: ELSE.
            return if selector > self.entries {
                self.otherwise(code)
            } else {
                self.entry(code, selector)
            };
        }
        let selector = selector as i32;
        let mut found = (0..self.entries).filter(|&index| {
            let at = self.place + 7 + 10 * index as usize;
            word(code, at) as i32 <= selector && selector <= word(code, at + 4) as i32
        });
        match found.next() {
            Some(index) => self.entry(code, index),
            None => self.otherwise(code),
        }
    }

    /// Every place that the switch may go to: ELSE and the whole table.
    pub fn targets(self, code: &[u8]) -> impl Iterator<Item = u32> + '_ {
        let count = if self.ranges { self.entries } else { self.entries + 1 };
        let entries = (0..count).map(move |index| self.entry(code, index));
        [self.otherwise(code)].into_iter().chain(entries)
    }
}
