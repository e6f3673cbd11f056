//! What is asked of a message: a row's number, an atom's text and its mark. Each takes "message and
//! atom list, no table", so the message is judged with 8,192 rows (OP-43). A word is asked of the
//! message's atom list alone (#107).

use crate::terms::{self, Form};
use crate::text::{self, AtomList};
use crate::{refusal, Connection, Refusal, ROWS_MAX};

/// "a row answers a whole number, a float or neither". A float is told by its 64 bits.
#[derive(Clone, Copy, Debug, PartialEq, Eq)]
pub enum Number {
    Whole(i64),
    Float(u64),
    Neither,
}

/// "a stretch of the message or of the atom list". `start` in the list counts along its 255 places of
/// 32 bytes (OP-34).
#[derive(Clone, Copy, Debug, PartialEq, Eq)]
pub enum Stretch {
    Message { start: usize, length: usize },
    List { start: usize, length: usize },
    Empty,
}

/// "the mark, Latin-1 or UTF-8". An 82's is UTF-8 (OP-45).
#[derive(Clone, Copy, Debug, PartialEq, Eq)]
pub enum Mark {
    Latin1,
    Utf8,
}

/// "A reference index counts along one header": counted from 0 (OP-29).
#[derive(Clone, Copy, Debug, PartialEq, Eq)]
pub struct Index(pub u64);

/// "whole where an integer lies in -2^63 .. 2^63-1, a float for tag 70, otherwise neither, also where
/// no such row is (they count from 0). [...] a refused message gives its refusal."
pub fn number(
    connection: Connection,
    form: Form,
    message: &[u8],
    list: &AtomList,
    row: u64,
) -> Result<Number, Refusal> {
    let reading = terms::read(connection, form, message, list, ROWS_MAX)?;
    let row = usize::try_from(row).ok().and_then(|row| reading.rows.get(row));
    Ok(row.map_or(Number::Neither, |row| row.number))
}

/// The text's stretch and mark of the atom whose tag stands at `offset`: "the refusal: the message's
/// own, or 4 at the offset asked for where none of its atoms' tags stands".
fn atom_at(
    connection: Connection,
    form: Form,
    message: &[u8],
    list: &AtomList,
    offset: u64,
) -> Result<(Stretch, Mark), Refusal> {
    let reading = terms::read(connection, form, message, list, ROWS_MAX)?;
    let asked = reading.rows.iter().find(|row| row.text.is_some() && row.offset as u64 == offset);
    asked.and_then(|row| row.text).ok_or(Refusal { number: 4, place: offset })
}

/// "An atom's text, asked for by its term's offset, is answered as a stretch of the message or of the
/// atom list, empty where refused." An empty atom's is empty too (OP-44).
pub fn text(connection: Connection, form: Form, message: &[u8], list: &AtomList, offset: u64) -> Stretch {
    match atom_at(connection, form, message, list, offset) {
        Ok((Stretch::Message { length: 0, .. } | Stretch::List { length: 0, .. }, _)) => Stretch::Empty,
        Ok((stretch, _)) => stretch,
        Err(_) => Stretch::Empty,
    }
}

/// "A second call on the same input answers the mark, Latin-1 or UTF-8, or the refusal".
pub fn mark(
    connection: Connection,
    form: Form,
    message: &[u8],
    list: &AtomList,
    offset: u64,
) -> Result<Mark, Refusal> {
    Ok(atom_at(connection, form, message, list, offset)?.1)
}

/// #107: "given a message's atom list and a reference index, answer the text. [...] Refusals: 13 on the
/// list, 6, 14, place 0." The connection's 14 stands between 13 and 6 (#109). Places that are not asked
/// for are not judged (OP-22).
pub fn word(connection: Connection, list: &AtomList, index: Index) -> Result<String, Refusal> {
    // 13: "a cache, list or gather buffer not of its stated size"
    if !list.is_of_its_stated_size() {
        return Err(refusal(13, 0));
    }
    connection.judge()?;
    // 6: "reference index not below n"
    if index.0 >= u64::from(list.n) {
        return Err(refusal(6, 0));
    }
    // 14: "a length over 32 [...] of a place whose text is wanted, or that text not UTF-8"
    text::stored(list.texts, list.lengths, index.0 as usize).ok_or(refusal(14, 0))
}
