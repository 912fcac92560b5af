//! What a call answers: document 01's numbers of refusal as types, and the five counts of an accepted call.

use std::fmt;

/// The five counts of an accepted reading or update.
#[derive(Clone, Copy, PartialEq, Eq, Debug, Default)]
pub struct Counts {
    /// Pieces whose children replaced them in the reading list.
    pub left_breaks: u32,
    /// Nodes taken off or replaced after a whole shift.
    pub right_breaks: u32,
    /// Nonterminals shifted whole.
    pub whole_shifts: u32,
    /// Tokens shifted.
    pub token_shifts: u32,
    /// Reductions made.
    pub reductions: u32,
}

/// Why a reading or an update was refused. The tree to write is then as it was lent.
#[derive(Clone, Copy, PartialEq, Eq, Debug)]
pub enum Refusal {
    /// 1: the tree to write is below 6,146 words, or the room below 16,384.
    Small,
    /// 2: table layout or range wrong.
    Layout,
    /// 3: a grammar rule broken.
    Grammar,
    /// 4: a state condition broken. [`crate::check`] names one.
    States,
    /// 5: the old tree is not in order.
    OldTree,
    /// 6: codes, first number or edits break their rules.
    Text,
    /// 7: no text of the grammar goes on so.
    NoAction {
        /// How many tokens were shifted before.
        place: u32,
    },
    /// 8: the tree would have more than 2,048 nodes.
    NoRoom,
    /// 9: the numbers run out at 4,294,967,295.
    NoNumber,
    /// 10: never answered, as a table that is taken gives no cause for it.
    NoGoto,
}

impl Refusal {
    /// Document 01's number.
    pub fn number(self) -> u32 {
        match self {
            Refusal::Small => 1,
            Refusal::Layout => 2,
            Refusal::Grammar => 3,
            Refusal::States => 4,
            Refusal::OldTree => 5,
            Refusal::Text => 6,
            Refusal::NoAction { .. } => 7,
            Refusal::NoRoom => 8,
            Refusal::NoNumber => 9,
            Refusal::NoGoto => 10,
        }
    }

    /// Document 01's place: 0 but for refusal 7.
    pub fn place(self) -> u32 {
        match self {
            Refusal::NoAction { place } => place,
            _ => 0,
        }
    }
}

impl fmt::Display for Refusal {
    fn fmt(&self, f: &mut fmt::Formatter<'_>) -> fmt::Result {
        let why = match self {
            Refusal::Small => "the tree to write or the room is too small",
            Refusal::Layout => "the table's layout or a range in it is wrong",
            Refusal::Grammar => "the table breaks a grammar rule",
            Refusal::States => "the table breaks a state condition",
            Refusal::OldTree => "the old tree is not in order",
            Refusal::Text => "the codes, the first number or the edits break their rules",
            Refusal::NoAction { .. } => "no text of the grammar goes on so",
            Refusal::NoRoom => "the tree would have more than 2,048 nodes",
            Refusal::NoNumber => "the numbers run out",
            Refusal::NoGoto => "a reduction finds no goto",
        };
        write!(f, "refusal {} at {}: {why}", self.number(), self.place())
    }
}

impl std::error::Error for Refusal {}

/// Why the table check refused a table.
#[derive(Clone, Copy, PartialEq, Eq, Debug)]
pub enum TableRefusal {
    /// 2: table layout or range wrong.
    Layout,
    /// 3: a grammar rule broken.
    Grammar,
    /// 4: a state condition broken. Where several are, any of them may be named.
    States {
        /// Which of the seven.
        condition: u32,
        /// A state where it is broken.
        state: u32,
    },
}

impl TableRefusal {
    /// Document 01's number.
    pub fn number(self) -> u32 {
        match self {
            TableRefusal::Layout => 2,
            TableRefusal::Grammar => 3,
            TableRefusal::States { .. } => 4,
        }
    }
}

impl fmt::Display for TableRefusal {
    fn fmt(&self, f: &mut fmt::Formatter<'_>) -> fmt::Result {
        match self {
            TableRefusal::Layout => {
                write!(f, "refusal 2: the table's layout or a range in it is wrong")
            }
            TableRefusal::Grammar => write!(f, "refusal 3: the table breaks a grammar rule"),
            TableRefusal::States { condition, state } => {
                write!(f, "refusal 4: state condition {condition} is broken at state {state}")
            }
        }
    }
}

impl std::error::Error for TableRefusal {}

/// The answer of a reading or an update from its number, place and counts.
pub(crate) fn answer(number: u32, told: [u32; 6]) -> Result<Counts, Refusal> {
    let [place, left_breaks, right_breaks, whole_shifts, token_shifts, reductions] = told;
    Err(match number {
        0 => {
            return Ok(Counts { left_breaks, right_breaks, whole_shifts, token_shifts, reductions })
        }
        1 => Refusal::Small,
        2 => Refusal::Layout,
        3 => Refusal::Grammar,
        4 => Refusal::States,
        5 => Refusal::OldTree,
        6 => Refusal::Text,
        7 => Refusal::NoAction { place },
        8 => Refusal::NoRoom,
        9 => Refusal::NoNumber,
        10 => Refusal::NoGoto,
        _ => unreachable!("the boundary answers 0 to 10"),
    })
}

/// The answer of the table check from its number and what it names.
pub(crate) fn table_answer(number: u32, broken: [u32; 2]) -> Result<(), TableRefusal> {
    match number {
        0 => Ok(()),
        2 => Err(TableRefusal::Layout),
        3 => Err(TableRefusal::Grammar),
        4 => Err(TableRefusal::States { condition: broken[0], state: broken[1] }),
        _ => unreachable!("the table check answers 0, 2, 3 or 4"),
    }
}
