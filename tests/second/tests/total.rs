//! Damaged and made-up input in quantity: nothing panics, and what document 01 says of every answer
//! holds (a refused reading leaves the table zero, the canonical form is its own canonical form, rows
//! fit together, refusals of packets change nothing, a word is what its list's bytes say, a packet
//! changes the words of its own list alone, 5 stands at the bad byte of a text, flags change no
//! answer but where #109 says so, and maps whose pairs stand in another order mean the same).

mod model;

use model::bad_byte;
use second::drive::{hex, unhex, Driver};

struct Random(u64);

impl Random {
    fn next(&mut self) -> u64 {
        self.0 ^= self.0 << 13;
        self.0 ^= self.0 >> 7;
        self.0 ^= self.0 << 17;
        self.0
    }
    fn below(&mut self, n: u64) -> u64 {
        (self.next() >> 11) % n.max(1)
    }
    fn byte(&mut self) -> u8 {
        match self.below(4) {
            0 => self.below(4) as u8,
            1 => [255, 128, 127, 131, 68, 69, 70, 107, 108, 106][self.below(10) as usize],
            _ => self.next() as u8,
        }
    }
}

fn ask(driver: &mut Driver, line: &str) -> String {
    driver.answer(line.as_bytes())
}

fn get(driver: &mut Driver, name: &str) -> Vec<u8> {
    unhex(ask(driver, &format!("get {name}")).as_bytes()).expect("hex")
}

/// Sets the flags of the connection record.
fn connect(driver: &mut Driver, flags: u8) {
    assert_eq!(ask(driver, &format!("flags {flags}")), "ok");
}

/// Flags, mostly known ones.
fn some_flags(r: &mut Random) -> u8 {
    if r.below(12) == 0 {
        r.next() as u8
    } else {
        r.below(4) as u8
    }
}

fn text(r: &mut Random, out: &mut Vec<u8>) {
    let count = r.below(4);
    for _ in 0..count {
        let character = ["a", "\u{e9}", "\u{20ac}", "\u{1f600}"][r.below(4) as usize];
        out.extend_from_slice(character.as_bytes());
    }
}

fn atom(r: &mut Random, out: &mut Vec<u8>) {
    let mut t = Vec::new();
    text(r, &mut t);
    match r.below(5) {
        0 => return out.extend([82, r.below(5) as u8]),
        1 => out.extend([100, 0, t.len() as u8]),
        2 => out.extend([115, t.len() as u8]),
        3 => out.extend([118, 0, t.len() as u8]),
        _ => out.extend([119, t.len() as u8]),
    }
    out.extend(t);
}

fn bytes(r: &mut Random, out: &mut Vec<u8>, count: u64) {
    for _ in 0..count {
        let byte = r.byte();
        out.push(byte);
    }
}

/// A term, mostly a good one.
fn term(r: &mut Random, out: &mut Vec<u8>, depth: u32) {
    let kinds = if depth == 0 { 12 } else { 20 };
    match r.below(kinds) {
        0 => out.extend([97, r.below(3) as u8]),
        1 => out.extend([98, 0, 0, 0, r.below(3) as u8]),
        2 => {
            let n = r.below(11) as u8;
            out.extend([110, n, r.below(2) as u8]);
            bytes(r, out, u64::from(n));
        }
        3 => {
            out.push(70);
            bytes(r, out, 8);
        }
        4 => atom(r, out),
        5 => out.push(106),
        6 => {
            let n = r.below(4) as u8;
            out.extend([107, 0, n]);
            bytes(r, out, u64::from(n));
        }
        7 => {
            let n = r.below(3) as u8;
            out.extend([109, 0, 0, 0, n]);
            bytes(r, out, u64::from(n));
        }
        8 => {
            let n = r.below(3) as u8;
            out.extend([77, 0, 0, 0, n, if n == 0 { 0 } else { 1 + r.below(8) as u8 }]);
            bytes(r, out, u64::from(n));
        }
        9 => {
            let new = r.below(2) == 0;
            out.push(if new { 88 } else { 103 });
            atom(r, out);
            let wide = if r.below(4) == 0 { [r.byte(), r.byte(), r.byte(), r.byte()] } else { [0, 0, 127, 31] };
            out.extend([wide[0], 0, wide[2], 1, 0, wide[1], wide[3], 1]);
            out.extend(if new { &[0, 0, 0, 2][..] } else { &[2] });
        }
        10 => {
            let tag = [89, 102, 120][r.below(3) as usize];
            out.push(tag);
            atom(r, out);
            if tag == 120 {
                out.extend([0, 0, 0, 0]);
            }
            out.extend([r.below(16) as u8, 0, 0, 1]);
            out.extend(if tag == 102 { &[2][..] } else { &[0, 0, 0, 2] });
        }
        11 => {
            let tag = [90, 114, 101][r.below(3) as usize];
            let words = if tag == 101 { 1 } else { [1, 2, 3, 1 + r.below(6)][r.below(4) as usize] };
            out.push(tag);
            if tag != 101 {
                out.extend([0, words as u8]);
            }
            atom(r, out);
            match tag {
                90 => out.extend([0, 0, 0, 1]),
                114 => out.push(1),
                _ => {}
            }
            for _ in 0..words {
                out.extend([0, r.below(4) as u8, 0, 1]);
            }
            if tag == 101 {
                out.push(1);
            }
        }
        12 => {
            out.push(113);
            atom(r, out);
            atom(r, out);
            out.extend([97, 3]);
        }
        13 | 14 => {
            let n = r.below(4) as u8;
            out.extend([104, n]);
            for _ in 0..n {
                term(r, out, depth - 1);
            }
        }
        15 => {
            let n = r.below(4) as u8;
            out.extend([116, 0, 0, 0, n]);
            for _ in 0..2 * n {
                term(r, out, depth - 1);
            }
        }
        _ => {
            let n = r.below(4) as u8;
            out.extend([108, 0, 0, 0, n]);
            for _ in 0..n {
                term(r, out, depth - 1);
            }
            if r.below(2) == 0 {
                out.push(106);
            } else {
                term(r, out, depth - 1);
            }
        }
    }
}

fn damage(r: &mut Random, message: &mut Vec<u8>) {
    for _ in 0..r.below(3) {
        let at = r.below(message.len() as u64) as usize;
        match r.below(4) {
            0 => message.truncate(at),
            1 => message.insert(at, r.byte()),
            2 if at < message.len() => {
                message.remove(at);
            }
            _ => {
                if let Some(byte) = message.get_mut(at) {
                    *byte = r.byte();
                }
            }
        }
    }
}

/// kind, offset, whole plus 1, parts, rows
fn fields(word: u64) -> [usize; 5] {
    [word & 15, word >> 4 & 0xffff, word >> 20 & 0x3fff, word >> 34 & 0x1fff, word >> 47].map(|f| f as usize)
}

fn rows_fit_together(table: &[u8], used: usize) {
    let words: Vec<[usize; 5]> =
        table.chunks(8).map(|b| fields(b.iter().fold(0, |sum, byte| sum << 8 | u64::from(*byte)))).collect();
    assert!(words.iter().skip(used).all(|w| *w == [0; 5]));
    let mut parts = vec![0; used];
    let mut rows = vec![1; used];
    // In reading order, as the bytes came.
    assert!(words[..used].windows(2).all(|two| two[0][1] < two[1][1]));
    for (i, [kind, offset, whole, _, _]) in words.iter().take(used).enumerate().rev() {
        assert!((1..=14).contains(kind));
        if *whole > 0 {
            assert!(*whole <= i && words[*whole - 1][1] < *offset);
            parts[*whole - 1] += 1;
            rows[*whole - 1] += rows[i];
        }
    }
    for (i, word) in words.iter().take(used).enumerate() {
        assert_eq!([word[3], word[4]], [parts[i], rows[i]]);
    }
}

/// The numbers of so many rows, in the order of their own; a row's place is the bytes' and may differ (OQ-103-6).
fn numbers(driver: &mut Driver, rows: usize, form: &str, word: &str) -> Vec<String> {
    let mut numbers: Vec<String> =
        (0..rows).map(|row| ask(driver, &format!("number {form} plain {row} {word}"))).collect();
    numbers.sort();
    numbers
}

/// The end of the term in canonical form that begins here. The keys of each map in it rise.
fn keys_rise(form: &[u8], at: usize) -> usize {
    let number = |at: usize, width: usize| {
        form[at..at + width].iter().fold(0, |sum, byte| sum << 8 | usize::from(*byte))
    };
    let parts = |count: usize, from: usize| (0..count).fold(from, |at, _| keys_rise(form, at));
    match form[at] {
        70 => at + 9,
        77 => at + 6 + number(at + 1, 4),
        88 => parts(1, at + 1) + 12,
        89 => parts(1, at + 1) + 8,
        90 => parts(1, at + 3) + 4 + 4 * number(at + 1, 2),
        97 => at + 2,
        98 => at + 5,
        104 => parts(number(at + 1, 1), at + 2),
        105 => parts(number(at + 1, 4), at + 5),
        106 => at + 1,
        107 => at + 3 + number(at + 1, 2),
        108 => parts(number(at + 1, 4) + 1, at + 5),
        109 => at + 5 + number(at + 1, 4),
        110 => at + 3 + number(at + 1, 1),
        111 => at + 6 + number(at + 1, 4),
        113 => parts(3, at + 1),
        118 => at + 3 + number(at + 1, 2),
        119 => at + 2 + number(at + 1, 1),
        120 => parts(1, at + 1) + 12,
        116 => {
            let mut end = at + 5;
            let mut before: Option<&[u8]> = None;
            for _ in 0..number(at + 1, 4) {
                let value = keys_rise(form, end);
                let key = &form[end..value];
                assert!(before.is_none_or(|before| before < key), "{}", hex(form));
                before = Some(key);
                end = keys_rise(form, value);
            }
            end
        }
        tag => panic!("{tag} in a canonical form"),
    }
}

/// The text that stands at this offset after its length of `width` bytes, if all of it is there.
fn text_at(bytes: &[u8], at: usize, width: usize) -> Option<&[u8]> {
    let length = bytes[at.checked_sub(width)?..at].iter().fold(0, |sum, byte| sum << 8 | usize::from(*byte));
    bytes.get(at..at + length)
}

/// Where 5 stands in a text, if it is due.
fn bad_in(text: &[u8], utf8: bool) -> Option<usize> {
    if utf8 {
        bad_byte(text)
    } else {
        Some(255).filter(|bad| *bad < text.len())
    }
}

/// Some atom of this message has its bad byte at this place.
fn an_atom_is_bad_at(message: &[u8], place: usize) -> bool {
    (0..place).any(|tag_at| {
        let (width, utf8) = match message[tag_at] {
            100 => (2, false),
            118 => (2, true),
            119 => (1, true),
            _ => return false,
        };
        let at = tag_at + 1 + width;
        at <= place && text_at(message, at, width).and_then(|text| bad_in(text, utf8)) == Some(place - at)
    })
}

/// Some new reference of this packet may have its bad byte at this place.
fn a_reference_is_bad_at(packet: &[u8], place: usize, utf8: bool) -> bool {
    (0..=place).any(|at| {
        [1, 2].iter().any(|width| text_at(packet, at, *width).and_then(|text| bad_in(text, utf8)) == Some(place - at))
    })
}

/// The reader's answer and the writer's with its output, with these flags.
fn both_answers(driver: &mut Driver, flags: u8, message: &str) -> [String; 2] {
    connect(driver, flags);
    ask(driver, "fill output 5a");
    let written = ask(driver, &format!("write {message}"));
    [ask(driver, &format!("read {message}")), written + " " + &ask(driver, "get output")]
}

/// Whether V4_NC takes what is refused without it. Bit 0 changes nothing, an unknown flag is 14, what is
/// taken without V4_NC is the same with it, and what else V4_NC changes was 4 at an 88 or a 90.
fn flags_of_a_reading(r: &mut Random, driver: &mut Driver, form: &str, message: &[u8]) -> bool {
    let line = format!("{form} plain {}", hex(message));
    let [off, utf8, v4_nc, both] = [0, 1, 2, 3].map(|flags| both_answers(driver, flags, &line));
    assert_eq!(off, utf8, "{line}");
    assert_eq!(v4_nc, both, "{line}");
    let [read, written] = both_answers(driver, 4 + r.below(252) as u8, &line);
    assert!(read == "refused 14 0" && written.starts_with("refused 14 0"), "{line}");
    if off == v4_nc {
        return false;
    }
    let place: usize = off[0].strip_prefix("refused 4 ").expect("a 4").parse().expect("a number");
    assert!([88, 90].contains(&message[place]), "{} {line}", off[0]);
    v4_nc[0].starts_with("ok")
}

#[test]
fn made_up_messages() {
    let mut r = Random(0x9e37_79b9_7f4a_7c15);
    let mut driver = Driver::new();
    ask(&mut driver, "set plain-count 0 04");
    ask(&mut driver, "set plain-texts 0 61");
    ask(&mut driver, "set plain-texts 32 c3a9");
    ask(&mut driver, "set plain-texts 64 ff");
    ask(&mut driver, "set plain-lengths 0 0001000200010000");
    ask(&mut driver, "lend table 40");
    ask(&mut driver, "lend output 300");
    let (mut accepted, mut refused, mut fives, mut wide) = (0, 0, 0, 0);
    for round in 0..40_000 {
        let mut message = Vec::new();
        let form = if r.below(2) == 0 { "standalone" } else { "payload" };
        if form == "standalone" {
            message.push(131);
        }
        term(&mut r, &mut message, 5);
        if form == "payload" && r.below(2) == 0 {
            term(&mut r, &mut message, 3);
        }
        if round % 2 == 0 {
            damage(&mut r, &mut message);
        }
        wide += usize::from(flags_of_a_reading(&mut r, &mut driver, form, &message));
        // Everything else here is under the same flags.
        connect(&mut driver, r.below(4) as u8);
        let word = hex(&message);
        ask(&mut driver, "fill table 5a");
        ask(&mut driver, "same");
        let answer = ask(&mut driver, &format!("read {form} plain {word}"));
        assert!(["table", "-"].contains(&ask(&mut driver, "changed").as_str()));
        let table = get(&mut driver, "table");
        let counts: Vec<usize> = answer.split(' ').skip(1).map(|n| n.parse().expect("numbers")).collect();
        ask(&mut driver, "fill output 5a");
        ask(&mut driver, "fill table 5a");
        let written = ask(&mut driver, &format!("write {form} plain {word}"));
        assert!(get(&mut driver, "table").iter().all(|byte| *byte == 0));
        let output = get(&mut driver, "output");
        let length = if written.starts_with("ok") { written[3..].parse().expect("a number") } else { 0 };
        assert!(output[length..].iter().all(|byte| *byte == 0x5a));
        if answer.starts_with("refused") {
            refused += 1;
            assert_eq!(written, answer);
            assert!(table.iter().all(|byte| *byte == 0));
            // 10 and 14 aside, a refusal's place is an offset of the message, or its end.
            assert!(counts[1] <= message.len());
            if counts[0] == 5 {
                assert!(an_atom_is_bad_at(&message, counts[1]), "{answer} {word}");
                fives += 1;
            }
            if counts[0] != 9 {
                assert_eq!(ask(&mut driver, &format!("number {form} plain 0 {word}")), answer);
                assert_eq!(ask(&mut driver, &format!("mark {form} plain 0 {word}")), answer);
                assert_eq!(ask(&mut driver, &format!("text {form} plain 0 {word}")), "empty");
            }
            continue;
        }
        accepted += 1;
        rows_fit_together(&table, counts[1]);
        if length == 0 {
            assert_eq!(written, "refused 11 0");
            continue;
        }
        // The canonical form of each term has as many rows and is its own canonical form; its keys rise.
        let canonical = output[..length].to_vec();
        let mut end = 0;
        while end < length {
            assert_eq!(canonical[end], 131);
            end = keys_rise(&canonical, end + 1);
        }
        if counts[0] == 1 {
            let again = hex(&canonical);
            assert_eq!(ask(&mut driver, &format!("read standalone empty {again}")), answer);
            assert_eq!(ask(&mut driver, &format!("write standalone empty {again}")), written);
            assert_eq!(get(&mut driver, "output")[..length], canonical);
            if counts[1] <= 12 {
                let came = numbers(&mut driver, counts[1], form, &word);
                assert_eq!(numbers(&mut driver, counts[1], "standalone", &again), came);
            }
        }
        // Each atom's text and mark, asked for by its row's offset.
        for row in 0..counts[1].min(8) {
            let [kind, offset, ..] =
                fields(table[8 * row..8 * row + 8].iter().fold(0, |sum, byte| sum << 8 | u64::from(*byte)));
            let mark = ask(&mut driver, &format!("mark {form} plain {offset} {word}"));
            assert_eq!(mark.starts_with("refused"), kind != 3);
        }
    }
    let counts = [accepted, refused, fives, wide];
    assert!(accepted > 10_000 && refused > 5_000 && fives > 200 && wide > 500, "{counts:?}");
}

/// A term made up as a tree, so that the pairs of its maps can be put in another order.
#[derive(Clone)]
enum Made {
    /// a term without maps: as given, as written, and its rows
    Leaf(Vec<u8>, Vec<u8>, usize),
    /// behind a 108 of length 0
    Wrapped(Box<Made>),
    Tuple(Vec<Made>),
    /// one element or more, and an improper tail
    List(Vec<Made>, Option<Box<Made>>),
    Map(Vec<(Made, Made)>),
}

/// The writer's answer, its output in place of its length.
fn write(driver: &mut Driver, message: &[u8]) -> Result<Vec<u8>, String> {
    let answer = ask(driver, &format!("write payload plain {}", hex(message)));
    let length: usize = answer.strip_prefix("ok ").ok_or(answer.clone())?.parse().expect("a number");
    Ok(get(driver, "output")[..length].to_vec())
}

/// A leaf that is accepted alone.
fn leaf(r: &mut Random, driver: &mut Driver) -> Made {
    loop {
        let mut given = Vec::new();
        term(r, &mut given, 0);
        if let Ok(written) = write(driver, &given) {
            let read = ask(driver, &format!("read payload plain {}", hex(&given)));
            let rows = read.strip_prefix("ok 1 ").expect("one term").parse().expect("a number");
            return Made::Leaf(given, written[1..].to_vec(), rows);
        }
    }
}

fn made(r: &mut Random, leaves: &[Made], depth: u32) -> Made {
    let leaf = leaves[r.below(leaves.len() as u64) as usize].clone();
    if depth == 0 {
        return leaf;
    }
    let some = |r: &mut Random, least: u64| -> Vec<Made> {
        (0..least + r.below(3)).map(|_| made(r, leaves, depth - 1)).collect()
    };
    match r.below(9) {
        0 => Made::Wrapped(Box::new(made(r, leaves, depth - 1))),
        1 => Made::Tuple(some(r, 0)),
        2 => Made::List(some(r, 1), None),
        3 => {
            let tail = made(r, leaves, depth - 1);
            let is_list = matches!(judged(&tail, &mut 0), Ok(form) if (106..=108).contains(&form[0]));
            Made::List(some(r, 1), Some(Box::new(tail)).filter(|_| !is_list))
        }
        4..=6 => {
            let mut pairs: Vec<(Made, Made)> = Vec::new();
            for _ in 0..r.below(4) {
                let key = match pairs.first() {
                    Some((earlier, _)) if r.below(8) == 0 => turned(r, earlier),
                    _ => made(r, leaves, depth - 1),
                };
                pairs.push((key, made(r, leaves, depth - 1)));
            }
            Made::Map(pairs)
        }
        _ => leaf,
    }
}

/// The same with the pairs of every map in another order.
fn turned(r: &mut Random, term: &Made) -> Made {
    let each = |r: &mut Random, parts: &[Made]| parts.iter().map(|part| turned(r, part)).collect();
    match term {
        Made::Leaf(..) => term.clone(),
        Made::Wrapped(inner) => Made::Wrapped(Box::new(turned(r, inner))),
        Made::Tuple(parts) => Made::Tuple(each(r, parts)),
        Made::List(parts, tail) => {
            Made::List(each(r, parts), tail.as_ref().map(|tail| Box::new(turned(r, tail))))
        }
        Made::Map(pairs) => {
            let mut left: Vec<(Made, Made)> =
                pairs.iter().map(|(key, value)| (turned(r, key), turned(r, value))).collect();
            let mut mixed = Vec::new();
            while !left.is_empty() {
                mixed.push(left.remove(r.below(left.len() as u64) as usize));
            }
            Made::Map(mixed)
        }
    }
}

/// The bytes of a tree, pairs in its order.
fn given(term: &Made) -> Vec<u8> {
    let each = |parts: &[Made]| parts.iter().flat_map(given).collect::<Vec<u8>>();
    match term {
        Made::Leaf(given, ..) => given.clone(),
        Made::Wrapped(inner) => [vec![108, 0, 0, 0, 0], given(inner)].concat(),
        Made::Tuple(parts) => [vec![104, parts.len() as u8], each(parts)].concat(),
        Made::List(parts, tail) => {
            let tail = tail.as_ref().map_or(vec![106], |tail| given(tail));
            [vec![108, 0, 0, 0, parts.len() as u8], each(parts), tail].concat()
        }
        Made::Map(pairs) => {
            let pairs_bytes = pairs.iter().flat_map(|(key, value)| [given(key), given(value)].concat());
            [vec![116, 0, 0, 0, pairs.len() as u8], pairs_bytes.collect()].concat()
        }
    }
}

/// How many rows a tree has.
fn rows(term: &Made) -> usize {
    match term {
        Made::Leaf(_, _, rows) => *rows,
        Made::Wrapped(inner) => rows(inner),
        Made::Tuple(parts) => 1 + parts.iter().map(rows).sum::<usize>(),
        Made::List(parts, tail) => 1 + parts.iter().chain(tail.as_deref()).map(rows).sum::<usize>(),
        Made::Map(pairs) => 1 + pairs.iter().map(|(key, value)| rows(key) + rows(value)).sum::<usize>(),
    }
}

/// The canonical form of a tree whose bytes begin at `at`, or where 7 stands: keys are equal where their forms are.
fn judged(term: &Made, at: &mut usize) -> Result<Vec<u8>, usize> {
    match term {
        Made::Leaf(given, written, _) => {
            *at += given.len();
            Ok(written.clone())
        }
        Made::Wrapped(inner) => {
            *at += 5;
            judged(inner, at)
        }
        Made::Tuple(parts) => {
            *at += 2;
            let mut form = vec![104, parts.len() as u8];
            for part in parts {
                form.extend(judged(part, at)?);
            }
            Ok(form)
        }
        Made::List(parts, tail) => {
            *at += 5;
            let mut forms = Vec::new();
            for part in parts {
                forms.push(judged(part, at)?);
            }
            let end = match tail {
                Some(tail) => judged(tail, at)?,
                None => {
                    *at += 1;
                    vec![106]
                }
            };
            if tail.is_none() && forms.iter().all(|form| form[0] == 97) {
                return Ok([vec![107, 0, parts.len() as u8], forms.iter().map(|form| form[1]).collect()].concat());
            }
            Ok([vec![108, 0, 0, 0, parts.len() as u8], forms.concat(), end].concat())
        }
        Made::Map(pairs) => {
            *at += 5;
            let mut forms: Vec<[Vec<u8>; 2]> = Vec::new();
            for (key, value) in pairs {
                let key_at = *at;
                let key = judged(key, at)?;
                if forms.iter().any(|[earlier, _]| *earlier == key) {
                    return Err(key_at);
                }
                forms.push([key, judged(value, at)?]);
            }
            forms.sort();
            Ok([vec![116, 0, 0, 0, pairs.len() as u8], forms.concat().concat()].concat())
        }
    }
}

/// The reader and the writer answer for this tree as the model has it; what is written, or None for 7.
fn as_judged(driver: &mut Driver, term: &Made) -> Option<Vec<u8>> {
    let message = given(term);
    let read = ask(driver, &format!("read payload plain {}", hex(&message)));
    let table = get(driver, "table");
    let written = write(driver, &message);
    match judged(term, &mut 0) {
        Ok(form) => {
            assert_eq!(read, format!("ok 1 {}", rows(term)), "{}", hex(&message));
            rows_fit_together(&table, rows(term));
            let form = [vec![131], form].concat();
            assert_eq!(written, Ok(form.clone()), "{}", hex(&message));
            assert_eq!(keys_rise(&form, 1), form.len());
            // Written again it stays.
            assert_eq!(write(driver, &form[1..]), Ok(form.clone()));
            Some(form)
        }
        Err(place) => {
            assert_eq!(read, format!("refused 7 {place}"), "{}", hex(&message));
            assert_eq!(written, Err(read), "{}", hex(&message));
            None
        }
    }
}

#[test]
fn made_up_maps() {
    let mut r = Random(0x0103_0103_0103_0103);
    let mut driver = Driver::new();
    connect(&mut driver, 3);
    ask(&mut driver, "set plain-count 0 05");
    ask(&mut driver, "set plain-texts 0 61");
    ask(&mut driver, "set plain-texts 32 c3a9");
    ask(&mut driver, "set plain-texts 64 6161");
    ask(&mut driver, "set plain-lengths 0 00010002000200000000");
    ask(&mut driver, "lend table 200");
    ask(&mut driver, "lend output 3000");
    let (mut accepted, mut sevens, mut moved) = (0, 0, 0);
    for _ in 0..10_000 {
        let leaves: Vec<Made> = (0..6).map(|_| leaf(&mut r, &mut driver)).collect();
        let depth = 1 + r.below(5) as u32;
        let pairs = (0..1 + r.below(3)).map(|_| (made(&mut r, &leaves, depth), made(&mut r, &leaves, 2))).collect();
        let term = Made::Map(pairs);
        if rows(&term) > 80 || given(&term).len() > 1_000 {
            continue;
        }
        let other = turned(&mut r, &term);
        moved += usize::from(given(&other) != given(&term));
        let written = as_judged(&mut driver, &term);
        assert_eq!(as_judged(&mut driver, &other), written);
        if written.is_none() {
            sevens += 1;
            continue;
        }
        accepted += 1;
        // Both as keys of one map, or within its keys: 7 at the later one.
        let nil = || Made::Leaf(vec![106], vec![106], 1);
        let around = |inner: Made, way: u64| match way {
            0 => inner,
            1 => Made::Tuple(vec![nil(), inner]),
            2 => Made::List(vec![inner], None),
            3 => Made::List(vec![nil()], Some(Box::new(inner))),
            4 => Made::Map(vec![(inner, nil())]),
            5 => Made::Map(vec![(nil(), inner)]),
            _ => Made::Wrapped(Box::new(inner)),
        };
        let way = r.below(7);
        let first = around(term, way);
        let place = 5 + given(&first).len() + 1;
        let both = Made::Map(vec![(first, nil()), (around(other, way), nil())]);
        assert_eq!(judged(&both, &mut 0), Err(place));
        assert_eq!(as_judged(&mut driver, &both), None);
    }
    let counts = [accepted, sevens, moved];
    assert!(accepted > 4_000 && sevens > 1_000 && moved > 4_000, "{counts:?}");
}

#[test]
fn made_up_packets() {
    let mut r = Random(0x1234_5678_9abc_def1);
    let mut driver = Driver::new();
    let mut unknown = 0;
    let mut counts = std::collections::BTreeMap::new();
    for _ in 0..15_000 {
        let mut packet = vec![131, [68, 69, 70][r.below(3) as usize]];
        if packet[1] != 68 {
            packet.extend((r.below(2)).to_be_bytes());
            packet.extend((r.below(4)).to_be_bytes());
        }
        if packet[1] != 70 {
            let n = r.below(5) as usize;
            packet.push(n as u8);
            let halves: Vec<u8> = (0..2 * (n / 2 + 1)).map(|_| (r.below(2) * 8 + r.below(2)) as u8).collect();
            if n > 0 {
                packet.extend(halves.chunks(2).map(|h| h[0] | h[1] << 4));
            }
            for half in halves.iter().take(n) {
                packet.push(r.below(6) as u8);
                if half & 8 != 0 {
                    let mut t = Vec::new();
                    text(&mut r, &mut t);
                    if r.below(20) == 0 {
                        t = vec![b'x'; 32 + r.below(2) as usize];
                    }
                    if halves[n] & 1 == 1 {
                        packet.push(0);
                    }
                    packet.push(t.len() as u8);
                    packet.extend(t);
                }
            }
        }
        term(&mut r, &mut packet, 1);
        if r.below(3) == 0 {
            damage(&mut r, &mut packet);
        }
        if r.below(40) == 0 {
            let (place, length) = (r.below(6) * 2, 31 + r.below(3));
            ask(&mut driver, &format!("set lengths {place} {}", hex(&(length as u16).to_be_bytes())));
        }
        let command = match r.below(30) {
            0 => "drop".to_string(),
            1 if r.below(5) == 0 => "reset".to_string(),
            _ => format!("packet {}", hex(&packet)),
        };
        let flags = some_flags(&mut r);
        let before = ["plain", "pending"].map(|list| words(&mut driver, list));
        ask(&mut driver, "same");
        connect(&mut driver, flags);
        let answer = ask(&mut driver, &command);
        assert!(!answer.starts_with('?'));
        // An unknown flag is judged before all else; sizes are right here. A reset does not know it.
        if flags > 3 {
            assert_eq!(answer, if command == "reset" { "ok" } else { "refused 14 0" }, "{flags} {command}");
            unknown += 1;
        }
        if answer.starts_with("refused") {
            assert_eq!(ask(&mut driver, "changed"), "-", "{command}");
        }
        if let Some(place) = answer.strip_prefix("refused 5 ") {
            let place = place.parse().expect("a number");
            assert!(a_reference_is_bad_at(&packet, place, flags % 2 == 1), "{flags} {answer} {command}");
        }
        // A plain packet writes the plain list's words, a start the pending one's, nothing else any.
        let after = ["plain", "pending"].map(|list| words(&mut driver, list));
        let plain = answer.starts_with("plain");
        let start = command.starts_with("packet") && packet.starts_with(&[131, 69]) && flags <= 3;
        assert!(plain || after[0] == before[0], "{command}");
        assert!(start || after[1] == before[1], "{command}");
        assert!(after.concat().iter().all(|word| word.starts_with("text ")));
        let key = answer.split(' ').take(if answer.starts_with("refused") { 2 } else { 1 }).collect::<Vec<_>>().join(" ");
        *counts.entry(key).or_insert(0) += 1;
    }
    assert!(unknown > 500, "{unknown}");
    for number in [1, 2, 5, 14, 20, 21, 22, 23, 24, 25, 26] {
        assert!(counts.get(&format!("refused {number}")).is_some(), "{number} in {counts:?}");
    }
}

/// The answers for the list's words, as many as its n says, with known flags.
fn words(driver: &mut Driver, list: &str) -> Vec<String> {
    connect(driver, 1);
    let n = get(driver, &format!("{list}-count"))[0];
    (0..n).map(|i| ask(driver, &format!("word {list} {i}"))).collect()
}

/// What the word call is to answer, from the flags and the list's memory alone.
fn expected_word(driver: &mut Driver, flags: u8, list: &str, i: usize) -> String {
    let n = usize::from(get(driver, &format!("{list}-count"))[0]);
    let (texts, lengths) = (get(driver, &format!("{list}-texts")), get(driver, &format!("{list}-lengths")));
    if texts.len() != 8_160 || lengths.len() != 510 {
        return "refused 13 0".to_string();
    }
    if flags > 3 {
        return "refused 14 0".to_string();
    }
    if i >= n {
        return "refused 6 0".to_string();
    }
    let length = usize::from(lengths[2 * i]) * 256 + usize::from(lengths[2 * i + 1]);
    let text = texts[32 * i..].iter().take(length).copied().collect();
    match String::from_utf8(text) {
        Ok(text) if length <= 32 => format!("text {}", hex(text.as_bytes())),
        _ => "refused 14 0".to_string(),
    }
}

/// Writes one place of a list, mostly a good text.
fn make_up_place(r: &mut Random, driver: &mut Driver, list: &str, i: u64) {
    let mut bytes = Vec::new();
    for _ in 0..r.below(4) {
        text(r, &mut bytes);
    }
    bytes.truncate(32);
    let mut length = bytes.len() as u16;
    match r.below(8) {
        0 => length = [0, 31, 32, 33, 64, 255, 256, 288, 65_534, 65_535][r.below(10) as usize],
        1 => damage(r, &mut bytes),
        2 => length = length.saturating_sub(1),
        _ => {}
    }
    bytes.resize(32, r.byte());
    ask(driver, &format!("set {list}-texts {} {}", 32 * i, hex(&bytes)));
    ask(driver, &format!("set {list}-lengths {} {}", 2 * i, hex(&length.to_be_bytes())));
}

#[test]
fn made_up_lists() {
    let mut r = Random(0x0107_0107_0107_0107);
    let mut driver = Driver::new();
    let mut counts = std::collections::BTreeMap::new();
    for _ in 0..20_000 {
        let list = ["plain", "pending"][r.below(2) as usize];
        let n = [0, 1, 3, 254, 255, r.below(256)][r.below(6) as usize];
        let near = [n.saturating_sub(1), n, n + 1, r.below(n.max(1))][r.below(4) as usize];
        let i = if r.below(8) == 0 { [254, 255, 256, 65_536, 4_294_967_295][r.below(5) as usize] } else { near };
        ask(&mut driver, &format!("set {list}-count 0 {}", hex(&[n as u8])));
        make_up_place(&mut r, &mut driver, list, i.min(254));
        let other = r.below(255);
        make_up_place(&mut r, &mut driver, list, other);
        let wrong = match r.below(12) {
            0 => Some(("texts", [0, 32, 8_128, 8_159, 8_161, 65_536][r.below(6) as usize], 8_160)),
            1 => Some(("lengths", [0, 1, 254, 256, 510, 2_048][r.below(6) as usize], 255)),
            _ => None,
        };
        if let Some((part, count, _)) = wrong {
            ask(&mut driver, &format!("lend {list}-{part} {count}"));
        }
        let flags = some_flags(&mut r);
        connect(&mut driver, flags);
        ask(&mut driver, "same");
        let answer = ask(&mut driver, &format!("word {list} {i}"));
        assert_eq!(ask(&mut driver, "changed"), "-");
        assert_eq!(answer, expected_word(&mut driver, flags, list, i as usize), "{flags} {list} {n} {i}");
        let empty = if flags > 3 { "refused 14 0" } else { "refused 6 0" };
        assert_eq!(ask(&mut driver, &format!("word empty {i}")), empty);
        if i <= 255 {
            same_as_an_82(&mut driver, list, i as u8, &answer);
        }
        if let Some((part, _, stated)) = wrong {
            ask(&mut driver, &format!("lend {list}-{part} {stated}"));
        }
        let key = if answer.starts_with("refused") || answer == "text -" { answer } else { "text".to_string() };
        *counts.entry(key).or_insert(0) += 1;
    }
    for key in ["text", "text -", "refused 13 0", "refused 6 0", "refused 14 0"] {
        assert!(counts.get(key).is_some_and(|count| *count > 300), "{key} in {counts:?}");
    }
}

/// A payload that is one 82 has the word as its atom, and the same refusal.
fn same_as_an_82(driver: &mut Driver, list: &str, i: u8, answer: &str) {
    let written = ask(driver, &format!("write payload {list} {}", hex(&[82, i])));
    if answer.starts_with("refused") {
        assert_eq!(written, answer);
        return;
    }
    let length: usize = written[3..].parse().expect("a number");
    let output = get(driver, "output");
    assert_eq!(output[..3], [131, 119, (length - 3) as u8]);
    assert_eq!(format!("text {}", hex(&output[3..length])), answer);
}

/// A text of so many characters and, mostly, one fault or more.
fn faulty_text(r: &mut Random, characters: u64) -> Vec<u8> {
    let mut bytes = Vec::new();
    let one = r.below(5) as usize;
    for _ in 0..characters {
        let kind = if one < 4 { one } else { r.below(4) as usize };
        bytes.extend_from_slice(["a", "\u{e9}", "\u{20ac}", "\u{1f600}"][kind].as_bytes());
    }
    for _ in 0..r.below(3) {
        let at = r.below(bytes.len() as u64 + 1) as usize;
        match r.below(4) {
            0 => bytes.truncate(at),
            1 => bytes.insert(at, r.next() as u8),
            2 => bytes.insert(at, 0xc0 | r.next() as u8),
            _ => {
                if let Some(byte) = bytes.get_mut(at) {
                    *byte = r.next() as u8;
                }
            }
        }
    }
    bytes
}

/// A faulty text in an atom behind some good terms: the reader and the writer answer as the model has
/// it. Whether it is bad.
fn text_in_a_message(r: &mut Random, driver: &mut Driver, text: &[u8]) -> bool {
    let tags = [(100, 2), (118, 2), (115, 1), (119, 1)];
    let (tag, width) = tags[r.below(if text.len() < 256 { 4 } else { 2 }) as usize];
    let before = r.below(4) as usize;
    let mut message = vec![131, 104, before as u8 + 1];
    for _ in 0..before {
        message.extend([[97, 5], [104, 0], [119, 0]][r.below(3) as usize]);
    }
    message.push(tag);
    message.extend(&(text.len() as u16).to_be_bytes()[2 - width..]);
    let at = message.len();
    message.extend(text);
    let bad = bad_in(text, tag >= 118);
    let answer = bad.map_or(format!("ok 1 {}", before + 2), |bad| format!("refused 5 {}", at + bad));
    assert_eq!(ask(driver, &format!("read standalone empty {}", hex(&message))), answer, "{}", hex(&message));
    let written = ask(driver, &format!("write standalone empty {}", hex(&message)));
    assert!(if bad.is_some() { written == answer } else { written.starts_with("ok ") });
    bad.is_some()
}

/// A faulty text as the last reference of a header: the packet call answers as the model has it. Whether
/// it is bad.
fn text_in_a_header(r: &mut Random, driver: &mut Driver, text: &[u8]) -> bool {
    let mut packet = vec![131, 68];
    if r.below(2) == 0 {
        packet = vec![131, 69];
        packet.extend(r.next().to_be_bytes());
        packet.extend(1u64.to_be_bytes());
    }
    let before = r.below(4) as usize;
    let long = text.len() > 255 || r.below(2) == 0;
    let mut halves = vec![8; before + 1];
    halves.extend([u8::from(long), 0]);
    packet.push(before as u8 + 1);
    packet.extend(halves.chunks_exact(2).map(|pair| pair[0] | pair[1] << 4));
    let skip = usize::from(!long);
    for i in 0..before {
        packet.push(i as u8);
        packet.extend(&[0, 1][skip..]);
        packet.push(b'a');
    }
    packet.push(99);
    packet.extend(&(text.len() as u16).to_be_bytes()[skip..]);
    let at = packet.len();
    packet.extend(text);
    let utf8 = r.below(4) > 0;
    let bad = bad_in(text, utf8);
    let bytes = if utf8 { text.len() } else { text.iter().map(|byte| 1 + usize::from(byte >> 7)).sum() };
    connect(driver, u8::from(utf8) + 2 * r.below(2) as u8);
    let answer = ask(driver, &format!("packet {}", hex(&packet)));
    match bad {
        Some(bad) => assert_eq!(answer, format!("refused 5 {}", at + bad), "{}", hex(&packet)),
        None if bytes > 32 => assert_eq!(answer, format!("refused 23 {before}"), "{}", hex(&packet)),
        None => assert!(answer.starts_with("plain") || answer == "complete 0", "{answer} {}", hex(&packet)),
    }
    bad.is_some()
}

#[test]
fn made_up_texts() {
    let mut r = Random(0x0101_0101_0101_0101);
    let mut driver = Driver::new();
    ask(&mut driver, "lend table 5");
    ask(&mut driver, "lend output 2000");
    let mut bad = [0; 2];
    for _ in 0..30_000 {
        let characters = [r.below(6), r.below(40), 250 + r.below(10)][r.below(3) as usize];
        let text = faulty_text(&mut r, characters);
        bad[0] += usize::from(text_in_a_message(&mut r, &mut driver, &text));
        bad[1] += usize::from(text_in_a_header(&mut r, &mut driver, &text));
    }
    assert!(bad.iter().all(|count| (5_000..25_000).contains(count)), "{bad:?}");
}

#[test]
fn made_up_lines() {
    let mut r = Random(77);
    let mut driver = Driver::new();
    let words = [
        "set", "fill", "lend", "get", "same", "changed", "read", "kind", "write", "number", "text", "mark", "packet",
        "drop", "reset", "word", "flags", "pending", "cache", "lengths", "plain-count", "record", "table", "standalone",
        "payload", "empty", "plain", "0", "1", "7", "255", "256", "4294967295", "4294967296", "-", "83", "8361",
        "ff", "f", "", "x",
    ];
    for _ in 0..60_000 {
        let count = 1 + r.below(5) as usize;
        let line: Vec<&str> = (0..count).map(|_| words[r.below(words.len() as u64) as usize]).collect();
        ask(&mut driver, &line.join(" "));
        if r.below(60) == 0 {
            connect(&mut driver, 3);
        }
    }
}
