//! One message through reading, writing and asking, in both implementations.

use crate::flags;
use crate::generate::Fault;
use crate::lists::ListTwin;
use crate::random::Random;
use crate::tally::{hex, Call, Tally};
use crate::twin::Twin;
use border::{Form, MarkReply, NumberReply, ReadReply, TextReply, WordReply, WriteReply};
use second::looks::{self, Stretch};
use second::terms::Reading;
use second::text::AtomList;
use second::{canon, terms, Connection, Refusal};

const MESSAGE_MOST: usize = 65_536;
const ROWS_MOST: usize = 8_192;
/// Most words of a lent table, and most bytes of a lent output.
const TABLE_MOST: usize = 10_000;
const OUTPUT_MOST: usize = 300_000;
/// A longer refused message is not searched for the rows that it needs.
const SEARCHED_MOST: usize = 2_000;

/// What a message was made to be.
#[derive(Default)]
pub struct Made {
    /// how many rows it has
    pub rows: usize,
    pub faults: Vec<Fault>,
}

impl Made {
    /// The refusal and its place; 0 and 0 where it is accepted.
    fn answer(&self, flags: u8) -> (u64, u64) {
        if !flags::is_known(flags) {
            return (14, 0);
        }
        let refused = self.faults.iter().find_map(|fault| match *fault {
            Fault::Newer(at) => (!flags::is_v4_nc(flags)).then_some((4, at as u64)),
            Fault::EqualKey(at) => Some((7, at as u64)),
        });
        refused.unwrap_or_default()
    }
}

/// The connection's flags, a message and an atom list, as each implementation is lent them.
#[derive(Clone, Copy)]
pub struct Input<'a> {
    pub flags: u8,
    pub form: Form,
    pub message: &'a Twin<u8>,
    pub list: ListTwin<'a>,
    /// where it was not damaged
    pub made: Option<&'a Made>,
}

impl<'a> Input<'a> {
    /// As the proved calls take it.
    fn guarded(&self) -> (u8, Form, &'a [u8], border::AtomList<'a>) {
        (self.flags, self.form, self.message.guarded(), self.list.guarded())
    }

    /// As the second implementation takes it.
    fn other(&self) -> (Connection, terms::Form, &'a [u8], AtomList<'a>) {
        let form = match self.form {
            Form::Standalone => terms::Form::Standalone,
            Form::Payload => terms::Form::Payload,
        };
        (Connection { flags: self.flags }, form, self.message.other(), self.list.other())
    }

    /// Read by the second implementation with so many rows.
    fn reading(&self, rows: usize) -> Result<Reading, Refusal> {
        let (connection, form, message, list) = self.other();
        terms::read(connection, form, message, &list, rows)
    }

    /// The input in words, for a disagreement.
    fn told(&self) -> String {
        format!("flags {} {:?} message {} {}", self.flags, self.form, hex(self.message.other()), self.list.told())
    }
}

/// The lent memory that is written.
pub struct Room {
    table: Twin<u64>,
    output: Twin<u8>,
    /// as much as any message needs
    most_rows: Vec<u64>,
    most_output: Vec<u8>,
}

impl Room {
    pub fn new() -> Room {
        Room {
            table: Twin::new(TABLE_MOST),
            output: Twin::new(OUTPUT_MOST),
            most_rows: vec![0; ROWS_MOST],
            most_output: vec![0; OUTPUT_MOST],
        }
    }
}

/// How many rows a table has: enough, one fewer, few, many.
fn table_length(r: &mut Random, needed: usize) -> usize {
    match r.below(24) {
        0..=8 => needed,
        9 | 10 => needed.saturating_sub(1),
        11 | 12 => r.below(needed + 1),
        13 => 0,
        14 => r.pick(&[ROWS_MOST - 1, ROWS_MOST, ROWS_MOST + 1, TABLE_MOST]),
        15 => r.between(ROWS_MOST, TABLE_MOST),
        _ => needed + r.below(30),
    }
}

/// How many bytes an output has.
fn output_length(r: &mut Random, needed: usize) -> usize {
    match r.below(12) {
        0..=3 => needed,
        4 | 5 => needed.saturating_sub(1),
        6 => r.below(needed + 1),
        7 => 0,
        8 if r.one_in(10) => OUTPUT_MOST,
        _ => needed + r.below(40),
    }
}

/// The fewest rows with which a message gives its answer: those of its terms, or those before its refusal.
fn rows_needed(input: &Input, reading: &Result<Reading, Refusal>) -> usize {
    let refused = match reading {
        Ok(reading) => return reading.rows.len(),
        Err(refused) => refused,
    };
    let (mut fewest, mut enough) = (0, input.message.other().len().min(ROWS_MOST));
    if enough > SEARCHED_MOST {
        return enough;
    }
    while fewest < enough {
        let rows = (fewest + enough) / 2;
        if input.reading(rows).is_err_and(|other| other == *refused) {
            enough = rows;
        } else {
            fewest = rows + 1;
        }
    }
    fewest
}

/// A message answers what it was made to answer.
fn as_made(input: &Input, made: &Made, reading: &Result<Reading, Refusal>, tally: &mut Tally) {
    let answer = made.answer(input.flags);
    let newer = made.faults.iter().any(|fault| matches!(fault, Fault::Newer(_)));
    tally.met_made(newer, answer.0);
    let same = match reading {
        Ok(reading) => answer == (0, 0) && reading.rows.len() == made.rows,
        Err(refused) => answer == (refused.number.into(), refused.place),
    };
    tally.check(Call::Read, same, || format!("made to give {answer:?} and {} rows; {}", made.rows, input.told()));
}

/// Compares every call on the input.
pub fn compare(r: &mut Random, input: &Input, room: &mut Room, tally: &mut Tally) {
    let reading = input.reading(ROWS_MOST);
    let rows = rows_needed(input, &reading);
    if let Some(made) = input.made {
        as_made(input, made, &reading, tally);
    }
    let table = table_length(r, rows);
    read(r, input, table, room, tally);
    let scratch = if r.one_in(4) { table_length(r, rows) } else { rows + r.below(3) };
    write(r, input, scratch, room, tally);
    let asked = if rows > 1000 { 1 } else { 2 };
    for _ in 0..asked {
        number(input, row_to_ask(r, rows), tally);
        let offset = offset_to_ask(r, &reading, input.message.other().len());
        text_and_mark(input, &reading, offset, tally);
    }
    input.list.words(r, input.flags, tally);
    let kept = input.message.guarded() == input.message.other() && input.list.is_kept();
    tally.check(Call::Read, kept, || format!("a message or list changed: {}", input.told()));
}

/// Reading: the answer and every word of the table.
fn read(r: &mut Random, input: &Input, rows: usize, room: &mut Room, tally: &mut Tally) {
    room.table.garbage(r, rows);
    let (flags, form, message, list) = input.guarded();
    let got = border::read(flags, form, message, &list, room.table.guarded_mut());
    let (connection, form, message, list) = input.other();
    let expected = match terms::read_into(connection, form, message, &list, room.table.other_mut()) {
        Ok((terms, rows)) => ReadReply { terms: terms as u64, rows: rows as u64, ..ReadReply::default() },
        Err(Refusal { number, place }) => ReadReply { refusal: number.into(), place, ..ReadReply::default() },
    };
    tally.met(Call::Read, flags, expected.refusal);
    tally.check(Call::Read, got == expected, || format!("table {rows}: {got:?}, not {expected:?}; {}", input.told()));
    let same = room.table.same();
    tally.check(Call::Read, same, || format!("table {rows} differs, {expected:?}; {}", input.told()));
}

/// Writing: the answer, every byte of the output, every word of the scratch table.
fn write(r: &mut Random, input: &Input, rows: usize, room: &mut Room, tally: &mut Tally) {
    let (connection, other_form, other_message, other_list) = input.other();
    let whole = canon::canonical(connection, other_form, other_message, &other_list, rows);
    let length = output_length(r, whole.as_ref().map_or(30, Vec::len)).min(OUTPUT_MOST);
    room.table.garbage(r, rows);
    room.output.garbage(r, length);
    let (flags, form, message, list) = input.guarded();
    let got = border::write(flags, form, message, &list, room.table.guarded_mut(), room.output.guarded_mut());
    let (table, output) = (room.table.other_mut(), room.output.other_mut());
    let expected = match canon::write_into(connection, other_form, other_message, &other_list, table, output) {
        Ok(length) => WriteReply { terms: terms_of(input), length: length as u64, ..WriteReply::default() },
        Err(Refusal { number, place }) => WriteReply { refusal: number.into(), place, ..WriteReply::default() },
    };
    tally.met(Call::Write, flags, expected.refusal);
    let told = |what: &str| format!("{what}, scratch {rows} output {length}: {got:?}, {expected:?} expected; {}", input.told());
    tally.check(Call::Write, got == expected, || told("answer"));
    let same = (room.table.same(), room.output.same());
    tally.check(Call::Write, same.0, || told("scratch differs"));
    tally.check(Call::Write, same.1, || told("output differs"));
}

/// The rows and the canonical form that the proved calls find, if they accept; written again, the form stays.
pub fn whole(input: &Input, room: &mut Room, tally: &mut Tally) -> Option<(u64, Vec<u8>)> {
    let (flags, form, message, list) = input.guarded();
    let (rows, output) = (&mut room.most_rows[..], &mut room.most_output[..]);
    let read = border::read(flags, form, message, &list, rows);
    let written = border::write(flags, form, message, &list, rows, output);
    if written.refusal != 0 {
        return None;
    }
    let canonical = output[..written.length as usize].to_vec();
    if written.terms == 1 && canonical.len() <= MESSAGE_MOST {
        let again = border::write(flags, Form::Standalone, &canonical, &list, rows, output);
        let same = again == written && output[..canonical.len()] == canonical[..];
        tally.check(Call::Write, same, || format!("{again:?}, not as it was: {}", hex(&canonical)));
    }
    Some((read.rows, canonical))
}

/// How many terms an accepted message has.
fn terms_of(input: &Input) -> u64 {
    input.reading(ROWS_MOST).map_or(0, |reading| reading.terms.len() as u64)
}

fn row_to_ask(r: &mut Random, rows: usize) -> usize {
    match r.below(16) {
        0 => rows,
        1 => rows + 1,
        2 => r.pick(&[ROWS_MOST - 1, ROWS_MOST, ROWS_MOST + 1, usize::MAX, 1 << 32]),
        _ => r.below(rows.max(1)),
    }
}

fn number(input: &Input, row: usize, tally: &mut Tally) {
    let (flags, form, message, list) = input.guarded();
    let got = border::number(flags, form, message, &list, row);
    let (connection, form, message, list) = input.other();
    let expected = match looks::number(connection, form, message, &list, row as u64) {
        Ok(looks::Number::Whole(integer)) => NumberReply { kind: 1, integer, ..NumberReply::default() },
        Ok(looks::Number::Float(bits)) => NumberReply { kind: 2, real: f64::from_bits(bits), ..NumberReply::default() },
        Ok(looks::Number::Neither) => NumberReply::default(),
        Err(Refusal { number, place }) => NumberReply { refusal: number.into(), place, ..NumberReply::default() },
    };
    tally.met(Call::Number, flags, expected.refusal);
    tally.check(Call::Number, got == expected, || format!("row {row}: {got:?}, not {expected:?}; {}", input.told()));
}

/// The offset of an atom's tag mostly, or one beside it, or any.
fn offset_to_ask(r: &mut Random, reading: &Result<Reading, Refusal>, length: usize) -> usize {
    let rows = reading.as_ref().map_or(&[][..], |reading| &reading.rows);
    let first = if rows.is_empty() { 0 } else { r.below(rows.len()) };
    let atom = rows[first..].iter().chain(&rows[..first]).find(|row| row.text.is_some());
    match (r.below(8), atom) {
        (0..=4, Some(row)) => row.offset,
        (5, Some(row)) => row.offset + 1,
        (6, _) => r.pick(&[0, 1, length, length + 1, 65_536, usize::MAX]),
        _ => r.below(length + 1),
    }
}

/// Where the text of an accepted message's atom stands, the empty one's too (ikparumo.h).
fn stretch(reading: &Result<Reading, Refusal>, offset: usize) -> TextReply {
    let rows = reading.as_ref().map_or(&[][..], |reading| &reading.rows);
    match rows.iter().find(|row| row.offset == offset && row.text.is_some()).and_then(|row| row.text) {
        Some((Stretch::Message { start, length }, _)) => TextReply { from: 1, start: start as u64, length: length as u64 },
        Some((Stretch::List { start, length }, _)) => TextReply { from: 2, start: start as u64, length: length as u64 },
        _ => TextReply::default(),
    }
}

/// The word of an atom reference is where its text is.
fn same_word(input: &Input, index: u8, text: TextReply, tally: &mut Tally) {
    let word = border::word(input.flags, &input.list.guarded(), index.into());
    let expected = WordReply { start: text.start, length: text.length, ..WordReply::default() };
    tally.check(Call::Word, word == expected, || format!("index {index}: {word:?}, not {expected:?}; {}", input.told()));
}

fn text_and_mark(input: &Input, reading: &Result<Reading, Refusal>, offset: usize, tally: &mut Tally) {
    let (flags, form, message, list) = input.guarded();
    let (got_text, got) = (border::text(flags, form, message, &list, offset), border::mark(flags, form, message, &list, offset));
    let (connection, form, message, list) = input.other();
    let expected = match looks::mark(connection, form, message, &list, offset as u64) {
        Ok(looks::Mark::Latin1) => MarkReply { mark: 1, ..MarkReply::default() },
        Ok(looks::Mark::Utf8) => MarkReply { mark: 2, ..MarkReply::default() },
        Err(Refusal { number, place }) => MarkReply { refusal: number.into(), place, ..MarkReply::default() },
    };
    tally.met(Call::Mark, flags, expected.refusal);
    tally.check(Call::Mark, got == expected, || format!("offset {offset}: {got:?}, not {expected:?}; {}", input.told()));
    let expected = stretch(reading, offset);
    let other = looks::text(connection, form, message, &list, offset as u64);
    let agrees = match other {
        Stretch::Empty => got_text.length == 0,
        Stretch::Message { start, length } => got_text == TextReply { from: 1, start: start as u64, length: length as u64 },
        Stretch::List { start, length } => got_text == TextReply { from: 2, start: start as u64, length: length as u64 },
    };
    tally.met(Call::Text, flags, if expected.from == 0 { got.refusal } else { 0 });
    if got_text.from == 2 {
        same_word(input, message[offset + 1], got_text, tally);
    }
    let same = agrees && got_text == expected;
    tally.check(Call::Text, same, || format!("offset {offset}: {got_text:?}, not {expected:?} ({other:?}); {}", input.told()));
}
