//! A fleet file: document 01's records one after another, the words little-endian, with nothing before or after them.
use crate::record::{Record, Refusal, WORDS};

/// The bytes of a record.
pub const RECORD: usize = 4 * WORDS;
/// The most that a file may have.
pub const MOST_RECORDS: usize = 64;

/// The bytes of words.
pub fn little_endian(words: &[u32]) -> Vec<u8> {
    words.iter().flat_map(|word| word.to_le_bytes()).collect()
}

/// The words of whole ones among the bytes.
pub fn words(bytes: &[u8]) -> Vec<u32> {
    let word = |four: &[u8]| u32::from_le_bytes(four.try_into().expect("four bytes"));
    bytes.chunks_exact(4).map(word).collect()
}

/// The file of a fleet.
pub fn of(records: &[Record]) -> Vec<u8> {
    records
        .iter()
        .flat_map(|record| little_endian(&record.words))
        .collect()
}

/// The records as they stand, no more than their number looked at.
fn standing(file: &[u8]) -> Result<Vec<Record>, Refusal> {
    if file.len() % RECORD != 0 || file.len() > RECORD * MOST_RECORDS {
        return Err((14, file.len()));
    }
    let record = |bytes: &[u8]| Record {
        words: words(bytes).try_into().expect("a record's words"),
    };
    Ok(file.chunks_exact(RECORD).map(record).collect())
}

/// A record that a table takes; places count on from file to record.
fn accepted(index: usize, record: Record) -> Result<Record, Refusal> {
    match record.refusal() {
        None => Ok(record),
        Some((number, place)) => Err((number, WORDS * index + place)),
    }
}

/// The fleet of a file that is loaded: the first bad record decides.
pub fn loaded(file: &[u8]) -> Result<Vec<Record>, Refusal> {
    let records = standing(file)?.into_iter().enumerate();
    records
        .map(|(index, record)| accepted(index, record))
        .collect()
}

/// What the reader hands out: the others are not checked.
pub fn read(file: &[u8], index: usize) -> Result<Record, Refusal> {
    let record = standing(file)?.get(index).copied();
    record
        .ok_or((8, index))
        .and_then(|record| accepted(index, record))
}
