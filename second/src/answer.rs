//! What a call answers, and what it does to the lent buffers: the tree to write and the working room.

/// The least words of a tree to write.
pub const TREE_WORDS: usize = 6146;
/// The least words of working room.
pub const ROOM_WORDS: usize = 16384;
pub const MOST_NODES: usize = 2048;
pub const MOST_TOKENS: usize = 2048;

/// The five counts of an accepted call.
#[derive(Clone, Copy, PartialEq, Eq, Debug, Default)]
pub struct Counts {
    pub left_breaks: u32,
    pub right_breaks: u32,
    pub whole_shifts: u32,
    pub token_shifts: u32,
    pub reductions: u32,
}

impl Counts {
    /// In the order of the document: left, right, whole, token, reductions.
    pub fn in_order(&self) -> [u32; 5] {
        [self.left_breaks, self.right_breaks, self.whole_shifts, self.token_shifts, self.reductions]
    }
}

/// Number 0 is acceptance, any other the number of refusal.
#[derive(Clone, Copy, PartialEq, Eq, Debug)]
pub struct Answer {
    pub number: u32,
    pub place: u32,
    pub counts: Counts,
}

#[derive(Clone, Copy, PartialEq, Eq, Debug)]
pub struct Refusal {
    pub number: u32,
    pub place: u32,
}

impl Refusal {
    pub fn at(number: u32, place: u32) -> Refusal {
        Refusal { number, place }
    }
}

impl From<u32> for Refusal {
    fn from(number: u32) -> Refusal {
        Refusal { number, place: 0 }
    }
}

/// The row that an accepted call writes, with its counts.
pub struct Accepted {
    pub row: Vec<u32>,
    pub counts: Counts,
}

/// Makes a call with the lent buffers: judges their lengths, zeroes the room, and writes the tree
/// only on acceptance.
pub fn answer_into(
    tree: &mut [u32],
    room: &mut [u32],
    call: impl FnOnce() -> Result<Accepted, Refusal>,
) -> Answer {
    if tree.len() < TREE_WORDS || room.len() < ROOM_WORDS {
        return refused(Refusal::from(1));
    }
    room[..ROOM_WORDS].fill(0);
    match call() {
        Ok(Accepted { row, counts }) => {
            tree[..row.len()].copy_from_slice(&row);
            Answer { number: 0, place: 0, counts }
        }
        Err(refusal) => refused(refusal),
    }
}

fn refused(refusal: Refusal) -> Answer {
    Answer { number: refusal.number, place: refusal.place, counts: Counts::default() }
}
