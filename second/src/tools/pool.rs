//! Tables for made cases: accepted ones, given and made, and changes of them.

use crate::sheet::{read_sheet, Sheet};
use crate::tools::case::MOST_TABLE_BYTES;
use crate::tools::grammars::{random_plan, vary_plan};
use crate::tools::plan::Plan;
use crate::tools::random::Random;
use crate::tools::texts::Derivations;
use crate::tools::vary::copy_to_limits;
use crate::{check, Check};

/// How many made tables are kept for more cases.
const KEPT: usize = 64;

pub struct Pool {
    /// Accepted tables that were given.
    given: Vec<Vec<u8>>,
    /// Accepted tables that were made.
    made: Vec<Vec<u8>>,
}

impl Pool {
    pub fn new(mut given: Vec<Vec<u8>>) -> Pool {
        given.retain(|table| table.len() <= MOST_TABLE_BYTES && check(table) == Check::Yes);
        Pool { given, made: Vec::new() }
    }

    pub fn accepted_table(&mut self, random: &mut Random) -> Vec<u8> {
        if !self.given.is_empty() && random.chance(40) {
            let table = random.pick(&self.given).clone();
            if table.len() < 20_000 || random.chance(10) {
                return table;
            }
        }
        if self.made.len() < 8 || random.chance(30) {
            return self.made_table(random);
        }
        random.pick(&self.made).clone()
    }

    /// A new made table, which takes a place in the pool.
    fn made_table(&mut self, random: &mut Random) -> Vec<u8> {
        loop {
            let plan = random_plan(random);
            let Some(table) = plan.bytes() else { continue };
            let grows = read_sheet(&table).is_some_and(|sheet| start_grows(&sheet));
            if !grows && random.chance(80) {
                continue;
            }
            if self.made.len() < KEPT {
                self.made.push(table.clone());
            } else {
                let at = random.below(KEPT);
                self.made[at] = table.clone();
            }
            return table;
        }
    }
}

/// The table changed in ways that keep the conditions.
pub fn varied(table: &[u8], random: &mut Random) -> Vec<u8> {
    let Some(sheet) = read_sheet(table) else {
        return table.to_vec();
    };
    let mut plan = Plan::of_sheet(&sheet);
    vary_plan(&mut plan, random);
    plan.bytes().unwrap_or_else(|| table.to_vec())
}

/// The table with states copied up to the limits or one beyond, where its bytes allow.
pub fn widened(table: &[u8], random: &mut Random) -> Vec<u8> {
    let Some(sheet) = read_sheet(table) else {
        return table.to_vec();
    };
    let mut plan = Plan::of_sheet(&sheet);
    copy_to_limits(&mut plan, random);
    match plan.actions() {
        Some(actions) => plan.bytes_with(&actions),
        None => table.to_vec(),
    }
}

fn start_grows(sheet: &Sheet) -> bool {
    Derivations::of(sheet).grows(sheet.start())
}
