//! Cases in the judge protocol: one byte for the kind, then fields; numbers are four bytes, high first.

use std::io::{self, BufRead, Read, Write};

pub const MOST_TABLE_BYTES: usize = 66_000;
pub const MOST_ROW_WORDS: usize = 8_200;
pub const MOST_EDIT_WORDS: usize = 12_300;
pub const MOST_CODES: usize = 2_200;
pub const MOST_TREE_WORDS: usize = 6_400;
pub const MOST_ROOM_WORDS: usize = 16_640;

/// The words of tree and of room that a case lends.
#[derive(Clone, Copy, PartialEq, Eq, Debug)]
pub struct Lent {
    pub tree: usize,
    pub room: usize,
}

impl Lent {
    fn is_within_limits(&self) -> bool {
        self.tree <= MOST_TREE_WORDS && self.room <= MOST_ROOM_WORDS
    }
}

/// What an update is made of: the table, the old row, the edit words and the inserted codes.
#[derive(Clone, PartialEq, Eq, Debug)]
pub struct Edited {
    pub table: Vec<u8>,
    pub row: Vec<u32>,
    pub edits: Vec<u32>,
    pub put: Vec<u32>,
}

/// A case. `times` is how often the call is made over the same buffers; more than once serves to
/// time it. A list is the reading list of an update, which is not read.
#[derive(Clone, PartialEq, Eq, Debug)]
pub enum Case {
    Table { table: Vec<u8> },
    Read { table: Vec<u8>, codes: Vec<u32>, first: u32, lent: Lent, times: u32 },
    Update { edited: Edited, lent: Lent, times: u32 },
    List { edited: Edited },
}

impl Edited {
    fn write(&self, output: &mut impl Write) -> io::Result<()> {
        write_bytes(output, &self.table)?;
        write_words(output, &self.row)?;
        write_words(output, &self.edits)?;
        write_words(output, &self.put)
    }

    fn read(input: &mut impl Read) -> io::Result<Edited> {
        let table = read_table(input)?;
        let row = read_words(input, MOST_ROW_WORDS)?;
        let edits = read_words(input, MOST_EDIT_WORDS)?;
        let put = read_words(input, MOST_CODES)?;
        Ok(Edited { table, row, edits, put })
    }

    fn is_within_limits(&self) -> bool {
        self.table.len() <= MOST_TABLE_BYTES
            && self.row.len() <= MOST_ROW_WORDS
            && self.edits.len() <= MOST_EDIT_WORDS
            && self.put.len() <= MOST_CODES
    }
}

impl Case {
    pub fn write(&self, output: &mut impl Write) -> io::Result<()> {
        match self {
            Case::Table { table } => {
                output.write_all(b"T")?;
                write_bytes(output, table)
            }
            Case::Read { table, codes, first, lent, times } => {
                write_kind(output, b"R", b"N", *times)?;
                write_bytes(output, table)?;
                write_words(output, codes)?;
                write_number(output, *first)?;
                write_lent(output, *lent)
            }
            Case::Update { edited, lent, times } => {
                write_kind(output, b"U", b"V", *times)?;
                edited.write(output)?;
                write_lent(output, *lent)
            }
            Case::List { edited } => {
                output.write_all(b"L")?;
                edited.write(output)
            }
        }
    }

    /// Whether the judge takes the case.
    pub fn is_within_limits(&self) -> bool {
        match self {
            Case::Table { table } => table.len() <= MOST_TABLE_BYTES,
            Case::Read { table, codes, lent, .. } => {
                table.len() <= MOST_TABLE_BYTES
                    && codes.len() <= MOST_CODES
                    && lent.is_within_limits()
            }
            Case::Update { edited, lent, .. } => {
                edited.is_within_limits() && lent.is_within_limits()
            }
            Case::List { edited } => edited.is_within_limits(),
        }
    }

    /// Reads the next case; `Ok(None)` at the input's end, an error for malformed input.
    pub fn read(input: &mut impl BufRead) -> io::Result<Option<Case>> {
        if input.fill_buf()?.is_empty() {
            return Ok(None);
        }
        match read_bytes(input, 1)?[0] {
            b'T' => Ok(Some(Case::Table { table: read_table(input)? })),
            b'R' => Case::read_read(input, 1).map(Some),
            b'N' => {
                let times = read_number(input)?;
                Case::read_read(input, times).map(Some)
            }
            b'U' => Case::read_update(input, 1).map(Some),
            b'V' => {
                let times = read_number(input)?;
                Case::read_update(input, times).map(Some)
            }
            b'L' => Ok(Some(Case::List { edited: Edited::read(input)? })),
            _ => Err(malformed()),
        }
    }

    fn read_read(input: &mut impl Read, times: u32) -> io::Result<Case> {
        let table = read_table(input)?;
        let codes = read_words(input, MOST_CODES)?;
        let first = read_number(input)?;
        let lent = read_lent(input)?;
        Ok(Case::Read { table, codes, first, lent, times })
    }

    fn read_update(input: &mut impl Read, times: u32) -> io::Result<Case> {
        let edited = Edited::read(input)?;
        let lent = read_lent(input)?;
        Ok(Case::Update { edited, lent, times })
    }
}

/// The letter of a call made once, or that of one made many times and their number.
fn write_kind(output: &mut impl Write, once: &[u8], many: &[u8], times: u32) -> io::Result<()> {
    if times == 1 {
        return output.write_all(once);
    }
    output.write_all(many)?;
    write_number(output, times)
}

fn write_number(output: &mut impl Write, number: u32) -> io::Result<()> {
    output.write_all(&number.to_be_bytes())
}

fn write_bytes(output: &mut impl Write, bytes: &[u8]) -> io::Result<()> {
    write_number(output, bytes.len() as u32)?;
    output.write_all(bytes)
}

fn write_words(output: &mut impl Write, words: &[u32]) -> io::Result<()> {
    write_number(output, words.len() as u32)?;
    let bytes: Vec<u8> = words.iter().flat_map(|word| word.to_be_bytes()).collect();
    output.write_all(&bytes)
}

fn write_lent(output: &mut impl Write, lent: Lent) -> io::Result<()> {
    write_number(output, lent.tree as u32)?;
    write_number(output, lent.room as u32)
}

fn malformed() -> io::Error {
    io::Error::from(io::ErrorKind::InvalidData)
}

fn read_number(input: &mut impl Read) -> io::Result<u32> {
    let mut bytes = [0; 4];
    input.read_exact(&mut bytes)?;
    Ok(u32::from_be_bytes(bytes))
}

/// A number that counts something and may not exceed the limit.
fn read_count(input: &mut impl Read, most: usize) -> io::Result<usize> {
    let count = read_number(input)? as usize;
    if count > most {
        return Err(malformed());
    }
    Ok(count)
}

fn read_bytes(input: &mut impl Read, count: usize) -> io::Result<Vec<u8>> {
    let mut bytes = vec![0; count];
    input.read_exact(&mut bytes)?;
    Ok(bytes)
}

fn read_table(input: &mut impl Read) -> io::Result<Vec<u8>> {
    let count = read_count(input, MOST_TABLE_BYTES)?;
    read_bytes(input, count)
}

fn read_words(input: &mut impl Read, most: usize) -> io::Result<Vec<u32>> {
    let count = read_count(input, most)?;
    let bytes = read_bytes(input, 4 * count)?;
    let words = bytes.chunks_exact(4);
    Ok(words.map(|word| u32::from_be_bytes([word[0], word[1], word[2], word[3]])).collect())
}

fn read_lent(input: &mut impl Read) -> io::Result<Lent> {
    let tree = read_count(input, MOST_TREE_WORDS)?;
    let room = read_count(input, MOST_ROOM_WORDS)?;
    Ok(Lent { tree, room })
}
