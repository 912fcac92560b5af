//! Made cases, seeded: tables, readings, updates and reading lists, right ones and damaged ones.

use std::io::{self, Write};

use crate::answer::{MOST_TOKENS, ROOM_WORDS, TREE_WORDS};
use crate::sheet::{read_sheet, Sheet};
use crate::tools::case::{Case, Edited, Lent, MOST_CODES, MOST_ROOM_WORDS, MOST_TREE_WORDS};
use crate::tools::edit_lists::{damage_edits, words_of, EditMaker, EditWords};
use crate::tools::pool::{varied, widened, Pool};
use crate::tools::random::Random;
use crate::tools::spoil::spoiled_table;
use crate::tools::texts::{damage_code, damage_text, Derivations, Spare, Wanted};
use crate::tools::trees::{damage_row, fresh_row, renumber, row_too_large, updated_row};
use crate::tree::tree_in_order;

/// Writes so many cases; the tables given are used beside made ones.
pub fn write_cases(
    seed: u64,
    count: usize,
    given: Vec<Vec<u8>>,
    output: &mut impl Write,
) -> io::Result<()> {
    let mut maker = CaseMaker::new(seed, given);
    for _ in 0..count {
        maker.case().write(output)?;
    }
    Ok(())
}

pub struct CaseMaker {
    random: Random,
    tables: Pool,
}

impl CaseMaker {
    pub fn new(seed: u64, given: Vec<Vec<u8>>) -> CaseMaker {
        CaseMaker { random: Random::new(seed), tables: Pool::new(given) }
    }

    /// The next case that the judge takes.
    pub fn case(&mut self) -> Case {
        loop {
            let case = match self.random.below(20) {
                0..=5 => self.table_case(),
                6..=10 => self.read_case(),
                11..=18 => {
                    let edited = self.edited();
                    Case::Update { edited, lent: self.lent(), times: self.times() }
                }
                _ => Case::List { edited: self.edited() },
            };
            if case.is_within_limits() {
                return case;
            }
        }
    }

    fn table_case(&mut self) -> Case {
        let random = &mut self.random;
        let mut table = self.tables.accepted_table(random);
        match random.below(20) {
            0..=2 => {}
            3..=4 => table = varied(&table, random),
            5 => table = widened(&table, random),
            6 => {
                let once = spoiled_table(&table, random);
                table = spoiled_table(&once, random);
            }
            _ => table = spoiled_table(&table, random),
        }
        Case::Table { table }
    }

    fn read_case(&mut self) -> Case {
        let table = self.tables.accepted_table(&mut self.random);
        let codes = match read_sheet(&table) {
            Some(sheet) => self.codes(&sheet),
            None => Vec::new(),
        };
        let first = self.first_number(&table, &codes);
        let (lent, times) = (self.lent(), self.times());
        Case::Read { table: self.sometimes_spoiled(table), codes, first, lent, times }
    }

    /// Table, old tree and edits of an update.
    fn edited(&mut self) -> Edited {
        loop {
            let table = self.tables.accepted_table(&mut self.random);
            let Some(sheet) = read_sheet(&table) else {
                continue;
            };
            let derivations = Derivations::of(&sheet);
            let codes = self.old_text(&sheet, &derivations);
            let Some(mut row) = fresh_row(&table, &codes) else {
                continue;
            };
            if codes.is_empty() && self.random.chance(70) {
                continue;
            }
            let updated = self.random.chance(45);
            if updated {
                self.update_in_turn(&table, &sheet, &derivations, &mut row);
            }
            let mut edits = self.edits(&sheet, &derivations, &row);
            if self.random.chance(14) {
                let tokens = row[2..].iter().step_by(3).filter(|&&kind| kind < 256).count();
                damage_edits(&mut edits, sheet.terminals, tokens, &mut self.random);
            }
            let row = self.old_row(&table, &sheet, row, &edits, updated);
            let EditWords { words, put } = edits;
            return Edited { table: self.sometimes_spoiled(table), row, edits: words, put };
        }
    }

    /// Updates the tree some times, so that its numbers are those that updates leave behind.
    fn update_in_turn(
        &mut self,
        table: &[u8],
        sheet: &Sheet,
        derivations: &Derivations,
        row: &mut Vec<u32>,
    ) {
        for _ in 0..*self.random.pick(&[1, 1, 2, 3, 5]) {
            let edits = self.edits(sheet, derivations, row);
            if let Some(new) = updated_row(table, row, &edits) {
                *row = new;
            }
        }
    }

    /// Edits within the rules for the tree of a row.
    fn edits(&mut self, sheet: &Sheet, derivations: &Derivations, row: &[u32]) -> EditWords {
        let Some(old) = tree_in_order(sheet, row) else {
            return words_of(&[]);
        };
        words_of(&EditMaker { sheet, old: &old, derivations }.edits(&mut self.random))
    }

    fn sometimes_spoiled(&mut self, table: Vec<u8>) -> Vec<u8> {
        match self.random.chance(6) {
            true => spoiled_table(&table, &mut self.random),
            false => table,
        }
    }

    /// A text of the start symbol; now and then a long one near 2,048 nodes.
    fn derived_text(&mut self, sheet: &Sheet, derivations: &Derivations) -> Vec<u32> {
        let random = &mut self.random;
        let (nodes, eager) = match random.below(40) {
            0 => (random.between(2_036, 2_060), 100),
            1 => (random.between(2_047, 2_050), 100),
            2 => (random.between(1_500, 2_300), 99),
            3 => (1, 50),
            4..=12 => (random.between(60, 400), 97),
            _ => (random.between(5, 60), 85),
        };
        let spare =
            *random.pick(&[Spare::First, Spare::Last, Spare::Any, Spare::Shared, Spare::Shared]);
        derivations.text(sheet.start(), Wanted { nodes, spare, eager }, random)
    }

    /// A text for an old tree: often a larger one, so that edits leave much of it clean.
    fn old_text(&mut self, sheet: &Sheet, derivations: &Derivations) -> Vec<u32> {
        let random = &mut self.random;
        let nodes = match random.below(40) {
            0..=1 => random.between(1_960, 2_048),
            2 => random.between(2_046, 2_048),
            3..=20 => random.between(60, 400),
            _ => return self.derived_text(sheet, derivations),
        };
        let spare = *random.pick(&[Spare::First, Spare::Last, Spare::Any, Spare::Shared]);
        derivations.text(sheet.start(), Wanted { nodes, spare, eager: 100 }, random)
    }

    fn codes(&mut self, sheet: &Sheet) -> Vec<u32> {
        let mut codes = self.derived_text(sheet, &Derivations::of(sheet));
        let random = &mut self.random;
        match random.below(20) {
            0..=9 => {}
            10..=15 => damage_text(&mut codes, sheet.terminals, random),
            16 => damage_code(&mut codes, sheet.terminals, random),
            17 => {
                let count = random.between(1, 12);
                codes = (0..count).map(|_| random.below(sheet.terminals).max(1) as u32).collect();
            }
            18 => {
                let count = random.between(MOST_TOKENS - 2, MOST_TOKENS + 2);
                let code = random.below(sheet.terminals).max(1) as u32;
                codes = vec![code; count];
            }
            _ => codes.clear(),
        }
        codes.truncate(MOST_CODES);
        codes
    }

    /// Mostly 1, else 0, any number, or one near the end of 32 bits for the tree that is read.
    fn first_number(&mut self, table: &[u8], codes: &[u32]) -> u32 {
        match self.random.below(20) {
            0 => 0,
            1..=3 => self.random.word() as u32,
            4..=7 => {
                let nodes = fresh_row(table, codes).map_or(3, |row| row[0]);
                (u32::MAX - nodes - 2).saturating_add(self.random.below(5) as u32)
            }
            _ => 1,
        }
    }

    /// The old tree: as it stands, with other numbers, near the end of 32 bits, or damaged.
    fn old_row(
        &mut self,
        table: &[u8],
        sheet: &Sheet,
        mut row: Vec<u32>,
        edits: &EditWords,
        updated: bool,
    ) -> Vec<u32> {
        match self.random.below(20) {
            0..=5 => {}
            6..=8 => row[1] = self.near_the_end(table, &row, edits),
            _ if updated => {}
            _ => renumber(&mut row, &mut self.random),
        }
        match self.random.below(100) {
            0..=14 => damage_row(&mut row, sheet, &mut self.random),
            15 => row = row_too_large(sheet, &mut self.random).unwrap_or(row),
            _ => {}
        }
        if self.random.chance(20) {
            row.extend((0..self.random.between(1, 9)).map(|word| word as u32));
        }
        row
    }

    /// A next number about as high as the update's new numbers allow.
    fn near_the_end(&mut self, table: &[u8], row: &[u32], edits: &EditWords) -> u32 {
        let added = updated_row(table, row, edits).map_or(0, |new| new[1] - row[1]);
        (u32::MAX - added - 2).saturating_add(self.random.below(5) as u32)
    }

    fn lent(&mut self) -> Lent {
        let random = &mut self.random;
        match random.below(50) {
            0..=1 => Lent { tree: TREE_WORDS - 1, room: ROOM_WORDS },
            2..=3 => Lent { tree: TREE_WORDS, room: ROOM_WORDS - 1 },
            4 => Lent { tree: random.below(MOST_TREE_WORDS), room: random.below(MOST_ROOM_WORDS) },
            5 => Lent {
                tree: *random.pick(&[0, 1, MOST_TREE_WORDS]),
                room: *random.pick(&[0, 1, ROOM_WORDS]),
            },
            6..=29 => Lent { tree: TREE_WORDS, room: ROOM_WORDS },
            _ => Lent {
                tree: random.between(TREE_WORDS, MOST_TREE_WORDS),
                room: random.between(ROOM_WORDS, MOST_ROOM_WORDS),
            },
        }
    }

    /// How often the call is made over the same rows; mostly once.
    fn times(&mut self) -> u32 {
        1 + u32::from(self.random.chance(5))
    }
}
