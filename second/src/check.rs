//! The table check: layout and range, then the grammar rules, then the state conditions.

use crate::conditions;
use crate::grammar;
use crate::sheet::{read_sheet, Sheet};

#[derive(Clone, PartialEq, Eq, Debug)]
pub enum Check {
    Yes,
    /// Refusal 2.
    LayoutWrong,
    /// Refusal 3.
    GrammarWrong,
    /// Refusal 4, with the numbers of all broken state conditions, rising.
    StatesWrong(Vec<u8>),
}

impl Check {
    /// 0 for yes, else the number of refusal.
    pub fn number(&self) -> u32 {
        match self {
            Check::Yes => 0,
            Check::LayoutWrong => 2,
            Check::GrammarWrong => 3,
            Check::StatesWrong(_) => 4,
        }
    }
}

/// Checks a table alone.
pub fn check(table: &[u8]) -> Check {
    let Some(sheet) = read_sheet(table) else {
        return Check::LayoutWrong;
    };
    if !grammar::rules_hold(&sheet) {
        return Check::GrammarWrong;
    }
    let broken: Vec<u8> = conditions::broken(&sheet).collect();
    if broken.is_empty() {
        Check::Yes
    } else {
        Check::StatesWrong(broken)
    }
}

/// The sheet of a table that passes the check, or the number of refusal; the search stops at the
/// first broken condition.
pub fn accepted_sheet(table: &[u8]) -> Result<Sheet, u32> {
    let sheet = read_sheet(table).ok_or(2u32)?;
    if !grammar::rules_hold(&sheet) {
        return Err(3);
    }
    let first_broken = conditions::broken(&sheet).next();
    if first_broken.is_some() {
        return Err(4);
    }
    Ok(sheet)
}
