//! The text protocol of DRIVE.md over this implementation: one command a line, one answer a line.

use crate::looks::{self, Index, Mark, Number, Stretch};
use crate::packets::{self, Answer, Cache, Lent, ListOut, Record};
use crate::terms::{self, Form};
use crate::text::{self, AtomList};
use crate::{canon, Connection, Refusal, CACHE_PLACES, EMPTY, LIST_PLACES, MESSAGE_MAX, PLACE_BYTES, ROWS_MAX};

/// The names of the memory, in the order of DRIVE.md's table.
pub const NAMES: [&str; 12] = [
    "cache",
    "lengths",
    "plain-count",
    "plain-texts",
    "plain-lengths",
    "pending-count",
    "pending-texts",
    "pending-lengths",
    "record",
    "gather",
    "table",
    "output",
];

/// More elements than this are not lent (DRIVE.md names no bound; the memory must exist).
const LEND_MAX: u64 = 1 << 24;

/// "1 at the start"
const AT_THE_START: Connection = Connection { flags: 1 };

/// Why a line is no command: the word after `? `.
type NoCommand = &'static str;

#[derive(Clone, Debug)]
struct List {
    n: u8,
    texts: Vec<u8>,
    lengths: Vec<u16>,
}

impl List {
    fn new() -> List {
        List { n: 0, texts: vec![0; LIST_PLACES * PLACE_BYTES], lengths: vec![0; LIST_PLACES] }
    }

    fn lent(&self) -> AtomList<'_> {
        AtomList { n: self.n, texts: &self.texts, lengths: &self.lengths }
    }

    fn lent_out(&mut self) -> ListOut<'_> {
        ListOut { n: &mut self.n, texts: &mut self.texts, lengths: &mut self.lengths }
    }
}

/// The memory that the firmware would lend.
#[derive(Clone, Debug)]
struct Memory {
    cache: Vec<u8>,
    lengths: Vec<u16>,
    plain: List,
    pending: List,
    record: Record,
    gather: Vec<u8>,
    table: Vec<u64>,
    output: Vec<u8>,
}

/// One driver: its memory, the connection record handed to the calls (no part of the memory), and the
/// memory's forms at the last `same` (at the start, the first ones).
#[derive(Clone, Debug)]
pub struct Driver {
    memory: Memory,
    connection: Connection,
    same: Vec<Vec<u8>>,
}

fn numbers_16(numbers: &[u16]) -> Vec<u8> {
    numbers.iter().flat_map(|number| number.to_be_bytes()).collect()
}

fn numbers_64(numbers: &[u64]) -> Vec<u8> {
    numbers.iter().flat_map(|number| number.to_be_bytes()).collect()
}

fn big_endian(bytes: &[u8]) -> u64 {
    bytes.iter().fold(0, |sum, byte| sum << 8 | u64::from(*byte))
}

fn to_16(form: &[u8]) -> Vec<u16> {
    form.chunks(2).map(|bytes| big_endian(bytes) as u16).collect()
}

fn to_64(form: &[u8]) -> Vec<u64> {
    form.chunks(8).map(big_endian).collect()
}

/// "bytes in lower-case hex (`-` for no bytes, in answers too)"
pub fn hex(bytes: &[u8]) -> String {
    if bytes.is_empty() {
        return "-".to_string();
    }
    let digit = |half: u8| char::from(if half < 10 { b'0' + half } else { b'a' + half - 10 });
    bytes.iter().flat_map(|byte| [digit(byte >> 4), digit(byte & 15)]).collect()
}

fn hex_digit(character: u8) -> Option<u8> {
    match character {
        b'0'..=b'9' => Some(character - b'0'),
        b'a'..=b'f' => Some(character - b'a' + 10),
        _ => None,
    }
}

/// Bytes from a word: `-`, or pairs of lower-case hex digits, at least one.
pub fn unhex(word: &[u8]) -> Option<Vec<u8>> {
    if word == b"-" {
        return Some(Vec::new());
    }
    if word.is_empty() || word.len() % 2 != 0 {
        return None;
    }
    word.chunks(2)
        .map(|pair| match pair {
            [high, low] => Some(hex_digit(*high)? << 4 | hex_digit(*low)?),
            _ => None,
        })
        .collect()
}

fn bytes(word: &[u8]) -> Result<Vec<u8>, NoCommand> {
    unhex(word).ok_or("hex")
}

/// "any number up to 2^32 - 1", in decimal digits.
fn number(word: &[u8]) -> Result<u64, NoCommand> {
    if word.is_empty() {
        return Err("number");
    }
    let mut value = 0u64;
    for digit in word {
        if !digit.is_ascii_digit() {
            return Err("number");
        }
        value = value * 10 + u64::from(digit - b'0');
        if value > u64::from(u32::MAX) {
            return Err("number");
        }
    }
    Ok(value)
}

fn form(word: &[u8]) -> Result<Form, NoCommand> {
    match word {
        b"standalone" => Ok(Form::Standalone),
        b"payload" => Ok(Form::Payload),
        _ => Err("form"),
    }
}

/// "the connection byte (0 to 255)"
fn flags(word: &[u8]) -> Result<u8, NoCommand> {
    u8::try_from(number(word)?).map_err(|_| "flags")
}

fn name(word: &[u8]) -> Result<&'static str, NoCommand> {
    NAMES.iter().find(|name| name.as_bytes() == word).copied().ok_or("name")
}

fn refused(refusal: Refusal) -> String {
    format!("refused {} {}", refusal.number, refusal.place)
}

/// The name of a kind as the accessors tell it: "list also for the empty and the improper one".
fn kind_name(kind: u64) -> Option<&'static str> {
    Some(match kind {
        1 | 14 => "integer",
        2 => "float",
        3 => "atom",
        4 => "tuple",
        5 | 6 => "list",
        7 => "binary",
        8 => "bitstring",
        9 => "map",
        10 => "pid",
        11 => "port",
        12 => "reference",
        13 => "export",
        _ => return None,
    })
}

impl Memory {
    /// "At the start: all zero, but the cache's lengths 65,535; table 8,192 rows; output 65,536 bytes."
    fn new() -> Memory {
        Memory {
            cache: vec![0; CACHE_PLACES * PLACE_BYTES],
            lengths: vec![EMPTY; CACHE_PLACES],
            plain: List::new(),
            pending: List::new(),
            record: Record::default(),
            gather: vec![0; MESSAGE_MAX],
            table: vec![0; ROWS_MAX],
            output: vec![0; MESSAGE_MAX],
        }
    }

    /// A part of the memory in its form of bytes.
    fn form(&self, name: &str) -> Vec<u8> {
        match name {
            "cache" => self.cache.clone(),
            "lengths" => numbers_16(&self.lengths),
            "plain-count" => vec![self.plain.n],
            "plain-texts" => self.plain.texts.clone(),
            "plain-lengths" => numbers_16(&self.plain.lengths),
            "pending-count" => vec![self.pending.n],
            "pending-texts" => self.pending.texts.clone(),
            "pending-lengths" => numbers_16(&self.pending.lengths),
            "record" => numbers_64(&[self.record.sequence, self.record.due, self.record.gathered]),
            "gather" => self.gather.clone(),
            "table" => numbers_64(&self.table),
            "output" => self.output.clone(),
            _ => Vec::new(),
        }
    }

    /// The reverse of `form`.
    fn set_form(&mut self, name: &str, form: &[u8]) {
        let first = form.first().copied().unwrap_or(0);
        match name {
            "cache" => self.cache = form.to_vec(),
            "lengths" => self.lengths = to_16(form),
            "plain-count" => self.plain.n = first,
            "plain-texts" => self.plain.texts = form.to_vec(),
            "plain-lengths" => self.plain.lengths = to_16(form),
            "pending-count" => self.pending.n = first,
            "pending-texts" => self.pending.texts = form.to_vec(),
            "pending-lengths" => self.pending.lengths = to_16(form),
            "record" => {
                if let [sequence, due, gathered] = to_64(form)[..] {
                    self.record = Record { sequence, due, gathered };
                }
            }
            "gather" => self.gather = form.to_vec(),
            "table" => self.table = to_64(form),
            "output" => self.output = form.to_vec(),
            _ => {}
        }
    }

    /// LIST is `plain` or `pending` (that atom list), or `empty`.
    fn list(&self, word: &[u8]) -> Result<AtomList<'_>, NoCommand> {
        match word {
            b"plain" => Ok(self.plain.lent()),
            b"pending" => Ok(self.pending.lent()),
            b"empty" => Ok(text::empty_list()),
            _ => Err("list"),
        }
    }
}

impl Default for Driver {
    fn default() -> Driver {
        Driver::new()
    }
}

impl Driver {
    pub fn new() -> Driver {
        let memory = Memory::new();
        let same = NAMES.iter().map(|name| memory.form(name)).collect();
        Driver { memory, connection: AT_THE_START, same }
    }

    /// The answer to one line (without its newline).
    pub fn answer(&mut self, line: &[u8]) -> String {
        let words: Vec<&[u8]> = line.split(|byte| *byte == b' ').collect();
        self.command(&words).unwrap_or_else(|why| format!("? {why}"))
    }

    fn command(&mut self, words: &[&[u8]]) -> Result<String, NoCommand> {
        let memory = &mut self.memory;
        let connection = self.connection;
        match words {
            [b"set", part, offset, hex] => {
                let (part, offset, new) = (name(part)?, number(offset)?, bytes(hex)?);
                let mut form = memory.form(part);
                let start = usize::try_from(offset).map_err(|_| "offset")?;
                let end = start.checked_add(new.len()).ok_or("past")?;
                form.get_mut(start..end).ok_or("past")?.copy_from_slice(&new);
                memory.set_form(part, &form);
                Ok("ok".to_string())
            }
            [b"fill", part, hex] => {
                let (part, new) = (name(part)?, bytes(hex)?);
                let [byte] = new[..] else { return Err("hex") };
                let mut form = memory.form(part);
                form.fill(byte);
                memory.set_form(part, &form);
                Ok("ok".to_string())
            }
            [b"lend", part, count] => {
                let (part, count) = (name(part)?, number(count)?);
                if count > LEND_MAX {
                    return Err("count");
                }
                let count = count as usize;
                match part {
                    "cache" => memory.cache.resize(count, 0),
                    "lengths" => memory.lengths.resize(count, 0),
                    "plain-texts" => memory.plain.texts.resize(count, 0),
                    "plain-lengths" => memory.plain.lengths.resize(count, 0),
                    "pending-texts" => memory.pending.texts.resize(count, 0),
                    "pending-lengths" => memory.pending.lengths.resize(count, 0),
                    "gather" => memory.gather.resize(count, 0),
                    "table" => memory.table.resize(count, 0),
                    "output" => memory.output.resize(count, 0),
                    // "Not for the two counts and the record."
                    _ => return Err("name"),
                }
                Ok("ok".to_string())
            }
            [b"get", part] => Ok(hex(&memory.form(name(part)?))),
            [b"same"] => {
                self.same = NAMES.iter().map(|name| memory.form(name)).collect();
                Ok("ok".to_string())
            }
            [b"changed"] => {
                let differs = |(name, was): &(&&str, &Vec<u8>)| memory.form(name) != **was;
                let names: Vec<&str> =
                    NAMES.iter().zip(&self.same).filter(differs).map(|(name, _)| *name).collect();
                Ok(if names.is_empty() { "-".to_string() } else { names.join(" ") })
            }
            // "sets the connection byte (0 to 255) handed to every later call but `reset`"
            [b"flags", n] => {
                self.connection = Connection { flags: flags(n)? };
                Ok("ok".to_string())
            }
            [b"read", f, l, m] => {
                let (f, m) = (form(f)?, bytes(m)?);
                let mut table = memory.table.clone();
                let answer = terms::read_into(connection, f, &m, &memory.list(l)?, &mut table);
                memory.table = table;
                Ok(answer.map_or_else(refused, |(terms, rows)| format!("ok {terms} {rows}")))
            }
            [b"kind", row] => {
                let row = usize::try_from(number(row)?).unwrap_or(usize::MAX);
                let word = memory.table.get(row).copied().unwrap_or(0);
                Ok(match kind_name(word & 0xf) {
                    None => "- - -".to_string(),
                    Some(kind) => {
                        let whole = match word >> 20 & 0x3fff {
                            0 => "-".to_string(),
                            plus_1 => (plus_1 - 1).to_string(),
                        };
                        format!("{kind} {} {whole}", word >> 4 & 0xffff)
                    }
                })
            }
            [b"write", f, l, m] => {
                let (f, m) = (form(f)?, bytes(m)?);
                let (mut table, mut output) = (memory.table.clone(), memory.output.clone());
                let answer = canon::write_into(connection, f, &m, &memory.list(l)?, &mut table, &mut output);
                memory.table = table;
                memory.output = output;
                Ok(answer.map_or_else(refused, |length| format!("ok {length}")))
            }
            [b"number", f, l, row, m] => {
                let (f, row, m) = (form(f)?, number(row)?, bytes(m)?);
                Ok(match looks::number(connection, f, &m, &memory.list(l)?, row) {
                    Ok(Number::Whole(value)) => format!("whole {value}"),
                    Ok(Number::Float(bits)) => format!("float {bits}"),
                    Ok(Number::Neither) => "neither".to_string(),
                    Err(refusal) => refused(refusal),
                })
            }
            [b"text", f, l, offset, m] => {
                let (f, offset, m) = (form(f)?, number(offset)?, bytes(m)?);
                Ok(match looks::text(connection, f, &m, &memory.list(l)?, offset) {
                    Stretch::Message { start, length } => format!("message {start} {length}"),
                    Stretch::List { start, length } => format!("list {start} {length}"),
                    Stretch::Empty => "empty".to_string(),
                })
            }
            [b"mark", f, l, offset, m] => {
                let (f, offset, m) = (form(f)?, number(offset)?, bytes(m)?);
                Ok(match looks::mark(connection, f, &m, &memory.list(l)?, offset) {
                    Ok(Mark::Latin1) => "latin1".to_string(),
                    Ok(Mark::Utf8) => "utf8".to_string(),
                    Err(refusal) => refused(refusal),
                })
            }
            [b"packet", packet] => {
                let packet = bytes(packet)?;
                let mut lent = Lent {
                    cache: Cache { texts: &mut memory.cache, lengths: &mut memory.lengths },
                    plain: memory.plain.lent_out(),
                    pending: memory.pending.lent_out(),
                    record: &mut memory.record,
                    gather: &mut memory.gather,
                };
                Ok(match packets::packet(connection, &mut lent, &packet) {
                    Ok(Answer::Plain { offset, length }) => format!("plain {offset} {length}"),
                    Ok(Answer::Pending { due, gathered }) => format!("pending {due} {gathered}"),
                    Ok(Answer::Complete { gathered }) => format!("complete {gathered}"),
                    Err(refusal) => refused(refusal),
                })
            }
            [b"drop"] => {
                let answer = packets::drop_pending(connection, &mut memory.record);
                Ok(answer.map_or_else(refused, |()| "ok".to_string()))
            }
            [b"reset"] => {
                let mut cache = Cache { texts: &mut memory.cache, lengths: &mut memory.lengths };
                let answer = packets::reset(&mut cache, &mut memory.record);
                Ok(answer.map_or_else(refused, |()| "ok".to_string()))
            }
            [b"word", l, i] => {
                let answer = looks::word(connection, &memory.list(l)?, Index(number(i)?));
                Ok(answer.map_or_else(refused, |text| format!("text {}", hex(text.as_bytes()))))
            }
            [b""] => Err("empty"),
            [b"set" | b"fill" | b"lend" | b"get" | b"same" | b"changed" | b"read" | b"kind" | b"write"
            | b"number" | b"text" | b"mark" | b"packet" | b"drop" | b"reset" | b"word" | b"flags", ..] => Err("words"),
            _ => Err("command"),
        }
    }
}
