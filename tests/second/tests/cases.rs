//! The cases of document 01, and what the outside vectors do not reach: the sizes, the orders between
//! refusals, false state, wrong sizes, the bad bytes of texts, the flags of the connection record, the
//! order of a map's pairs.
//! Everything goes through the protocol of DRIVE.md.

mod model;

use model::bad_byte;
use second::drive::{hex, unhex, Driver};

fn ask(driver: &mut Driver, line: &str) -> String {
    driver.answer(line.as_bytes())
}

fn get(driver: &mut Driver, name: &str) -> Vec<u8> {
    let answer = ask(driver, &format!("get {name}"));
    unhex(answer.as_bytes()).expect("hex")
}

/// Sets the flags of the connection record.
fn connect(driver: &mut Driver, flags: u8) {
    assert_eq!(ask(driver, &format!("flags {flags}")), "ok");
}

/// A driver with these flags.
fn with(flags: u8) -> Driver {
    let mut driver = Driver::new();
    connect(&mut driver, flags);
    driver
}

/// The writer's answer with these flags and so many rows, its output in place of its length.
fn write_with(flags: u8, form: &str, message: &[u8], rows: usize) -> String {
    let mut driver = with(flags);
    ask(&mut driver, &format!("lend table {rows}"));
    ask(&mut driver, "fill table a5");
    let answer = ask(&mut driver, &format!("write {form} empty {}", hex(message)));
    // "save the writer's scratch table, which always ends all zero"
    assert!(get(&mut driver, "table").iter().all(|byte| *byte == 0));
    match answer.strip_prefix("ok ") {
        Some(length) => {
            let length: usize = length.parse().expect("a number");
            format!("ok {}", hex(&get(&mut driver, "output")[..length]))
        }
        None => answer,
    }
}

/// The writer's answer with both flags on, as the bench has them.
fn write(form: &str, message: &[u8], rows: usize) -> String {
    write_with(3, form, message, rows)
}

/// The bench's line for a standalone term (both flags, empty list, 8,192 rows, 65,536 bytes of output).
fn bench(message: &[u8]) -> String {
    write("standalone", message, 8_192)
}

fn ok(message: &[u8], canonical: &[u8]) {
    assert_eq!(bench(message), format!("ok {}", hex(canonical)));
}

fn refused(message: &[u8], number: u8, place: usize) {
    assert_eq!(bench(message), format!("refused {number} {place}"), "{}", &hex(message)[..40.min(2 * message.len())]);
}

/// The reader's answer with these flags and so many rows.
fn read_with(flags: u8, form: &str, message: &[u8], rows: usize) -> String {
    let mut driver = with(flags);
    ask(&mut driver, &format!("lend table {rows}"));
    ask(&mut driver, "fill table a5");
    let answer = ask(&mut driver, &format!("read {form} empty {}", hex(message)));
    if answer.starts_with("refused") {
        // "A refused reading leaves the lent table all zero"
        assert!(get(&mut driver, "table").iter().all(|byte| *byte == 0));
    }
    answer
}

/// The reader's answer with both flags on.
fn read(form: &str, message: &[u8], rows: usize) -> String {
    read_with(3, form, message, rows)
}

/// The list's words are these, and the next index is 6.
fn words(driver: &mut Driver, list: &str, texts: &[&str]) {
    for (i, text) in texts.iter().enumerate() {
        assert_eq!(ask(driver, &format!("word {list} {i}")), format!("text {}", hex(text.as_bytes())));
    }
    assert_eq!(ask(driver, &format!("word {list} {}", texts.len())), "refused 6 0");
}

fn join(parts: &[&[u8]]) -> Vec<u8> {
    parts.concat()
}

fn tuples(count: usize, inmost: &[u8]) -> Vec<u8> {
    let mut message = vec![131];
    for _ in 0..count {
        message.extend_from_slice(&[104, 1]);
    }
    message.extend_from_slice(inmost);
    message
}

#[test]
fn the_cases_of_document_01() {
    ok(&[131, 98, 0, 0, 0, 5], &[131, 97, 5]); // P1
    ok(&[131, 110, 2, 0, 5, 0], &[131, 97, 5]); // P2
    ok(&[131, 110, 4, 1, 0, 0, 0, 128], &[131, 98, 128, 0, 0, 0]); // P4
    ok(&[131, 108, 0, 0, 0, 2, 97, 7, 97, 8, 106], &[131, 107, 0, 2, 7, 8]); // P6
    ok(&[131, 77, 0, 0, 0, 1, 3, 191], &[131, 77, 0, 0, 0, 1, 3, 160]); // P8
    ok(&[131, 100, 0, 1, 233], &[131, 119, 2, 195, 169]); // P9
    refused(&[131, 82, 0], 6, 1); // P10
    refused(&[131], 2, 1); // P11
    refused(&[131, 116, 0, 0, 0, 2, 97, 1, 97, 5, 98, 0, 0, 0, 1, 97, 6], 7, 10); // P13
    // "64 nested tuples, the inmost empty, pass; 65 is 8."
    let deep = tuples(63, &[104, 0]);
    ok(&deep, &deep);
    refused(&tuples(64, &[104, 0]), 8, 129);
}

#[test]
fn the_fragmented_example_of_001() {
    let mut driver = Driver::new();
    // "places 1,034 and 5 filled before"
    let filled = [131, 68, 2, 0x8c, 0, 10, 1, b'r', 5, 1, b's'];
    assert_eq!(ask(&mut driver, &format!("packet {}", hex(&filled))), "plain 11 0");
    words(&mut driver, "plain", &["r", "s"]);
    let ids = [0, 0, 2, 168, 0, 0, 5, 83, 0, 0, 0, 0, 0, 0, 0];
    let start = join(&[
        &[131, 69],
        &ids,
        &[2],
        &[5, 4, 137, 9, 10, 5, 236, 3, 114, 101, 103, 9, 4, 99, 97, 108, 108],
        &[238, 13, 115, 101, 116, 95, 103, 101, 116, 95, 115, 116, 97, 116, 101],
        &[104, 4, 97, 6, 103, 82, 0, 0, 0, 0, 85, 0, 0, 0, 0, 2, 82, 1, 82, 2],
        &[104, 3, 82, 3, 103, 82, 0, 0, 0, 0, 245, 0, 0, 0, 2, 2, 104, 2, 82, 4, 109, 0, 0, 0, 128],
        &[0; 103],
    ]);
    assert_eq!(ask(&mut driver, &format!("packet {}", hex(&start))), "pending 1 148");
    let started = ["r", "s", "reg", "call", "set_get_state"];
    words(&mut driver, "pending", &started);
    // Another header in between renames place 1,034 and the last fragment still has the old text.
    let between = [131, 68, 1, 0x0c, 10, 1, b'x'];
    assert_eq!(ask(&mut driver, &format!("packet {}", hex(&between))), "plain 7 0");
    words(&mut driver, "plain", &["x"]);
    words(&mut driver, "pending", &started);
    let last = join(&[&[131, 70], &ids, &[1], &[0; 25]]);
    assert_eq!(ask(&mut driver, &format!("packet {}", hex(&last))), "complete 173");
    words(&mut driver, "pending", &started);
    assert_eq!(ask(&mut driver, "get record"), "00".repeat(24));
    let payload = get(&mut driver, "gather")[..173].to_vec();
    assert_eq!(ask(&mut driver, &format!("read payload pending {}", hex(&payload))), "ok 2 13");
    let answer = ask(&mut driver, &format!("write payload pending {}", hex(&payload)));
    let written = get(&mut driver, "output");
    let expected = join(&[
        &[131, 104, 4, 97, 6, 88, 119, 1, b'r', 0, 0, 0, 85, 0, 0, 0, 0, 0, 0, 0, 2],
        b"\x77\x01s\x77\x03reg",
        b"\x83\x68\x03\x77\x04call",
        &[88, 119, 1, b'r', 0, 0, 0, 245, 0, 0, 0, 2, 0, 0, 0, 2],
        b"\x68\x02\x77\x0dset_get_state",
        &[109, 0, 0, 0, 128],
        &[0; 128],
    ]);
    assert_eq!(answer, format!("ok {}", expected.len()));
    assert_eq!(hex(&written[..expected.len()]), hex(&expected));
}

#[test]
fn order_before_the_first_byte() {
    // "Order: 13, then 12 on the term bytes, then byte order." The 131 counts (OP-01).
    let binary = |n: usize| join(&[&[131, 109, 0, (n >> 16) as u8, (n >> 8) as u8, n as u8], &vec![7; n]]);
    assert_eq!(read("standalone", &binary(65_530), 1), "ok 1 1");
    assert_eq!(read("standalone", &binary(65_531), 1), "refused 12 0");
    assert_eq!(read("standalone", &vec![0; 65_537], 1), "refused 12 0");
    assert_eq!(read("standalone", &[], 1), "refused 1 0");
    assert_eq!(read("standalone", &[97, 1], 1), "refused 1 0");
    assert_eq!(read("payload", &[], 1), "refused 2 0");
    assert_eq!(read("payload", &[131, 97, 1], 1), "refused 3 0");
    assert_eq!(read("payload", &[97], 0), "refused 2 0");
    assert_eq!(read("payload", &[97, 1], 0), "refused 9 0");
    // 13 stands before 12 and everything, for each of the five calls on a list.
    for wrong in ["lend plain-texts 8159", "lend plain-texts 8161", "lend plain-lengths 254", "lend plain-lengths 256"] {
        let mut driver = Driver::new();
        assert_eq!(ask(&mut driver, wrong), "ok");
        ask(&mut driver, "fill table 11");
        ask(&mut driver, "fill output 22");
        let long = "00".repeat(65_537);
        assert_eq!(ask(&mut driver, &format!("read standalone plain {long}")), "refused 13 0");
        assert!(get(&mut driver, "table").iter().all(|byte| *byte == 0));
        ask(&mut driver, "fill table 11");
        assert_eq!(ask(&mut driver, &format!("write standalone plain {long}")), "refused 13 0");
        assert!(get(&mut driver, "table").iter().all(|byte| *byte == 0));
        assert!(get(&mut driver, "output").iter().all(|byte| *byte == 0x22));
        assert_eq!(ask(&mut driver, "number standalone plain 0 83"), "refused 13 0");
        assert_eq!(ask(&mut driver, "mark standalone plain 0 83"), "refused 13 0");
        assert_eq!(ask(&mut driver, "text standalone plain 1 83770161"), "empty");
        assert_eq!(ask(&mut driver, "text standalone empty 1 83770161"), "message 3 1");
        assert_eq!(ask(&mut driver, "read standalone empty 836a"), "ok 1 1");
    }
}

#[test]
fn rows_and_their_words() {
    let mut driver = Driver::new();
    // {[7, 8 | x], #{a => <<>>}, []} with a joined 107 in the list: [7 | "\x08" | ...] cannot be improper,
    // so here a 108 joined to a 108 with an improper tail, each behind a 108 of length 0.
    let message = join(&[
        &[104, 4],
        &[108, 0, 0, 0, 0, 108, 0, 0, 0, 1, 97, 7, 108, 0, 0, 0, 0, 108, 0, 0, 0, 1, 97, 8, 119, 1, b'x'],
        &[116, 0, 0, 0, 1, 115, 1, b'a', 109, 0, 0, 0, 0],
        &[107, 0, 2, 5, 6],
        &[113, 119, 0, 119, 0, 97, 3],
    ]);
    assert_eq!(ask(&mut driver, &format!("read payload empty {}", hex(&message))), "ok 1 15");
    let table = get(&mut driver, "table");
    let word = |row: usize| table[8 * row..8 * row + 8].iter().fold(0u64, |sum, byte| sum << 8 | u64::from(*byte));
    let expected: [(u64, u64, u64, u64, u64); 15] = [
        // kind, offset, whole plus 1, parts, rows
        (4, 0, 0, 4, 15),
        (6, 7, 1, 3, 4),
        (1, 12, 2, 0, 1),
        (1, 24, 2, 0, 1),
        (3, 26, 2, 0, 1),
        (9, 29, 1, 2, 3),
        (3, 34, 6, 0, 1),
        (7, 37, 6, 0, 1),
        (5, 42, 1, 2, 3),
        (14, 45, 9, 0, 1),
        (14, 46, 9, 0, 1),
        (13, 47, 1, 3, 4),
        (3, 48, 12, 0, 1),
        (3, 50, 12, 0, 1),
        (1, 52, 12, 0, 1),
    ];
    for (row, (kind, offset, whole, parts, rows)) in expected.into_iter().enumerate() {
        assert_eq!(word(row), kind | offset << 4 | whole << 20 | parts << 34 | rows << 47, "row {row}");
    }
    assert_eq!(ask(&mut driver, "kind 0"), "tuple 0 -");
    assert_eq!(ask(&mut driver, "kind 1"), "list 7 0");
    assert_eq!(ask(&mut driver, "kind 9"), "integer 45 8");
    assert_eq!(ask(&mut driver, "kind 15"), "- - -");
    assert_eq!(ask(&mut driver, "kind 8192"), "- - -");
    assert_eq!(ask(&mut driver, "kind 4294967295"), "- - -");
}

#[test]
fn how_many_rows() {
    // 8,191 elements and the tuple are 8,192 rows; a larger table counts as 8,192.
    let tuple = |n: usize| join(&[&[105, 0, 0, (n >> 8) as u8, n as u8], &vec![106; n]]);
    assert_eq!(read("payload", &tuple(8_191), 8_192), "ok 1 8192");
    assert_eq!(read("payload", &tuple(8_192), 8_192), "refused 9 8196");
    assert_eq!(read("payload", &tuple(8_192), 9_000), "refused 9 8196");
    assert_eq!(read("payload", &tuple(8_191), 8_191), "refused 9 8195");
    // The second term of a payload: no row left at its tag, after its own fields.
    assert_eq!(read("payload", &join(&[&tuple(8_191), &[106]]), 8_192), "refused 9 8196");
    assert_eq!(read("payload", &join(&[&tuple(8_191), &[97]]), 8_192), "refused 2 8196");
    // What is wrong after the first term is the second term's refusal; 10 only after it (OP-14).
    assert_eq!(read("payload", &[97, 1, 131, 97, 1], 8), "refused 3 2");
    assert_eq!(read("payload", &[97, 1, 97, 1, 131], 8), "refused 10 4");
    assert_eq!(read("standalone", &[131, 97, 1, 97], 8), "refused 10 3");
    // A 107 joined on: 9 at that 107's tag; the joined list itself is never judged.
    let joined = [108, 0, 0, 0, 1, 97, 1, 107, 0, 2, 5, 6];
    assert_eq!(read("payload", &joined, 4), "ok 1 4");
    assert_eq!(read("payload", &joined, 3), "refused 9 7");
    assert_eq!(read("payload", &joined, 2), "refused 9 7");
    assert_eq!(read("payload", &joined, 1), "refused 9 5");
    assert_eq!(read("payload", &[108, 0, 0, 0, 1, 97, 1, 107, 0, 0], 2), "ok 1 2");
    assert_eq!(read("payload", &[108, 0, 0, 0, 1, 97, 1, 107, 0, 2, 5], 2), "refused 2 7");
    // 9 behind a 108 of length 0: at what stands in its place.
    assert_eq!(read("payload", &[108, 0, 0, 0, 0, 106], 0), "refused 9 5");
    // A count is not tested against the bytes left (OP-05).
    assert_eq!(read("payload", &[105, 255, 255, 255, 255, 97, 1], 9), "refused 2 7");
    assert_eq!(read("payload", &[105, 255, 255, 255, 255, 97, 1, 97, 1], 2), "refused 9 7");
    assert_eq!(read("payload", &[109, 255, 255, 255, 255], 2), "refused 2 0");
    assert_eq!(read("payload", &[111, 255, 255, 255, 255, 2, 7], 2), "refused 2 0");
}

#[test]
fn joined_tails_and_wrappers_in_any_number() {
    let wrappers: Vec<u8> = [108, 0, 0, 0, 0].repeat(13_000);
    assert_eq!(read("payload", &join(&[&wrappers, &[106]]), 1), "ok 1 1");
    assert_eq!(read("payload", &join(&[&wrappers, &[255]]), 1), "refused 3 65000");
    assert_eq!(read("payload", &wrappers, 1), "refused 2 65000");
    // [x, x, ...] as 8,191 lists of one element, each joined on.
    let joined: Vec<u8> = [108, 0, 0, 0, 1, 106].repeat(8_191);
    assert_eq!(read("payload", &join(&[&joined, &[106]]), 8_192), "ok 1 8192");
    let joined = join(&[&[108, 0, 0, 0, 1, 106], &wrappers, &[106]]);
    assert_eq!(read("payload", &joined, 2), "ok 1 2");
    // A tail behind wrappers that is no list is a part.
    assert_eq!(read("payload", &join(&[&[108, 0, 0, 0, 1, 106], &wrappers, &[97, 1]]), 3), "ok 1 3");
}

#[test]
fn lists_of_at_most_8191_elements() {
    let characters = |n: usize| -> Vec<u8> { (0..n).map(|i| (i + i / 256) as u8).collect() };
    let text = |bytes: &[u8]| join(&[&[107, (bytes.len() >> 8) as u8, bytes.len() as u8], bytes]);
    let small = |bytes: &[u8]| -> Vec<u8> { bytes.iter().flat_map(|byte| [97, *byte]).collect() };
    let list = |bytes: &[u8], tail: &[u8]| {
        join(&[&[108, 0, 0, (bytes.len() >> 8) as u8, bytes.len() as u8], &small(bytes), tail])
    };
    let ones = |bytes: &[u8]| -> Vec<u8> { bytes.iter().flat_map(|byte| [108, 0, 0, 0, 1, 97, *byte]).collect() };
    // One list of n small integers, each way with the place where 9 is judged for its last element.
    let ways = |n: usize| {
        let all = characters(n);
        [
            (text(&all), 0),
            (list(&all, &[106]), 5 + 2 * (n - 1)),
            (join(&[&ones(&all), &[106]]), 7 * (n - 1) + 5),
            (list(&all[..4_000], &text(&all[4_000..])), 5 + 2 * 4_000),
        ]
    };
    let accepted = |form: &str, message: &[u8], answer: &str, written: &[u8]| {
        for rows in [8_192, 9_000] {
            assert_eq!(read(form, message, rows), answer);
            assert_eq!(write(form, message, rows), format!("ok {}", hex(written)));
        }
    };
    let refused = |form: &str, message: &[u8], number: u8, place: usize| {
        for rows in [8_192, 9_000] {
            assert_eq!(read(form, message, rows), format!("refused {number} {place}"));
            assert_eq!(write(form, message, rows), format!("refused {number} {place}"));
        }
    };
    for (form, front) in [("standalone", &[131][..]), ("payload", &[])] {
        let same = |term: &[u8], canonical: &[u8]| {
            accepted(form, &join(&[front, term]), "ok 1 8192", &join(&[&[131], canonical]))
        };
        let no_row = |term: &[u8], place: usize| refused(form, &join(&[front, term]), 9, front.len() + place);
        // The list's own row and one for each element; none for the closing empty list.
        for (term, _) in ways(8_191) {
            same(&term, &text(&characters(8_191)));
        }
        for (term, last) in ways(8_192) {
            no_row(&term, last);
        }
        // In a tuple there is one row less.
        for (term, _) in ways(8_190) {
            same(&join(&[&[104, 1], &term]), &join(&[&[104, 1], &text(&characters(8_190))]));
        }
        for (term, last) in ways(8_191) {
            no_row(&join(&[&[104, 1], &term]), 2 + last);
        }
        // An improper tail has a row. It, or an element that is no byte, makes a 108.
        let improper = list(&characters(8_190), &[97, 5]);
        same(&improper, &improper);
        same(&join(&[&ones(&characters(8_190)), &[97, 5]]), &improper);
        no_row(&list(&characters(8_191), &[97, 5]), 5 + 2 * 8_191);
        let wide = join(&[&[108, 0, 0, 31, 255], &small(&characters(8_190)), &[98, 0, 0, 1, 0, 106]]);
        same(&wide, &wide);
        // The longest 107 that 65,536 bytes hold.
        let longest = 65_536 - 3 - front.len();
        no_row(&text(&characters(longest)), 0);
        refused(form, &join(&[front, &text(&characters(longest + 1))]), 12, 0);
    }
    // Beside another term of a payload there is one row less too.
    for (term, _) in ways(8_190) {
        let canonical = text(&characters(8_190));
        accepted("payload", &join(&[&term, &[106]]), "ok 2 8192", &join(&[&[131], &canonical, &[131, 106]]));
        accepted("payload", &join(&[&[106], &term]), "ok 2 8192", &join(&[&[131, 106, 131], &canonical]));
    }
    for (term, last) in ways(8_191) {
        refused("payload", &join(&[&term, &[106]]), 9, term.len());
        refused("payload", &join(&[&[106], &term]), 9, 1 + last);
    }
}

#[test]
fn depth() {
    // OP-18: a 107 at depth 64: no row left gives 9, else the character's 8, both at the 107's tag.
    let message = tuples(63, &[107, 0, 1, 5]);
    assert_eq!(read("standalone", &message, 63), "refused 9 127");
    assert_eq!(read("standalone", &message, 64), "refused 8 127");
    // 8 before 9, where both are due.
    assert_eq!(read("standalone", &tuples(64, &[97, 5]), 64), "refused 8 129");
    // Fields stand before 8 (OP-13).
    refused(&tuples(64, &[97]), 2, 129);
    refused(&tuples(64, &[255]), 3, 129);
    refused(&tuples(64, &[70, 127, 240, 0, 0, 0, 0, 0, 0]), 4, 129);
    refused(&tuples(64, &[119, 1, 255]), 5, 131);
    refused(&tuples(64, &[82, 0]), 6, 129);
    refused(&tuples(64, &[108, 0, 0, 0, 0, 108, 0, 0, 0, 0, 106]), 8, 139);
    refused(&tuples(64, &[90, 0, 6]), 4, 129);
    refused(&tuples(64, &[90, 0, 5]), 8, 129);
    // OP-50: a pid at depth 64 is 8 at its node.
    refused(&tuples(63, &[103, 119, 1, b'a', 0]), 8, 128);
    refused(&tuples(63, &[103, 255]), 4, 128);
    refused(&tuples(63, &[113, 119, 1, 255]), 5, 130);
    // An improper tail is one deeper than its list.
    refused(&tuples(63, &[108, 0, 0, 0, 1, 106, 106]), 8, 132);
    let list = tuples(62, &[108, 0, 0, 0, 1, 106, 97, 1]);
    ok(&list, &list);
    // The second term of a payload starts anew.
    let deep = tuples(63, &[104, 0]);
    assert_eq!(read("payload", &join(&[&deep[1..], &deep[1..]]), 128), "ok 2 128");
}

#[test]
fn parts_that_must_be_atoms() {
    refused(&[131, 88], 2, 2);
    refused(&[131, 88, 106], 4, 2);
    refused(&[131, 88, 255], 4, 2);
    refused(&[131, 88, 108, 0, 0, 0, 0, 119, 0, 0, 0, 0, 0, 0, 0, 0, 0, 0, 0, 0, 0], 4, 2);
    refused(&[131, 88, 119, 1], 2, 2);
    refused(&[131, 88, 119, 0, 255, 255, 255, 255, 255, 255, 255, 255, 0, 0, 0], 2, 1);
    refused(&[131, 103, 119, 0, 0, 0, 128, 0, 0, 0, 0, 0, 0], 4, 1);
    refused(&[131, 113, 119, 0], 2, 4);
    refused(&[131, 113, 119, 0, 119, 0], 2, 6);
    refused(&[131, 113, 119, 0, 119, 0, 98, 0, 0, 0, 1], 4, 6);
    refused(&[131, 113, 119, 0, 119, 0, 97], 2, 6);
    refused(&[131, 90, 0, 0, 255], 4, 1);
    refused(&[131, 101, 119, 0, 0, 4, 0, 0, 0], 4, 1);
    refused(&[131, 102, 119, 0, 0, 0, 0, 0, 4], 4, 1);
    ok(&[131, 101, 119, 0, 0, 3, 255, 255, 3], &[131, 90, 0, 1, 119, 0, 0, 0, 0, 3, 0, 3, 255, 255]);
    ok(&[131, 120, 119, 0, 0, 0, 0, 0, 15, 255, 255, 255, 0, 0, 0, 9], &[131, 89, 119, 0, 15, 255, 255, 255, 0, 0, 0, 9]);
    let big = [131, 120, 119, 0, 0, 0, 0, 0, 16, 0, 0, 0, 0, 0, 0, 9];
    ok(&big, &big);
    // 114: only the first word is bounded.
    ok(
        &[131, 114, 0, 2, 119, 0, 1, 0, 0, 0, 1, 255, 255, 255, 255],
        &[131, 90, 0, 2, 119, 0, 0, 0, 0, 1, 0, 0, 0, 1, 255, 255, 255, 255],
    );
}

#[test]
fn equal_keys() {
    let twice = |first: &[u8], second: &[u8]| {
        bench(&join(&[&[131, 116, 0, 0, 0, 2], first, &[106], second, &[106]]))
    };
    let equal = |first: &[u8], second: &[u8]| {
        assert_eq!(twice(first, second), format!("refused 7 {}", 7 + first.len()));
        assert_eq!(twice(second, first), format!("refused 7 {}", 7 + second.len()));
    };
    let different = |first: &[u8], second: &[u8]| assert!(twice(first, second).starts_with("ok"));
    equal(&[97, 0], &[110, 2, 1, 0, 0]);
    equal(&[107, 0, 1, 7], &[108, 0, 0, 0, 1, 98, 0, 0, 0, 7, 107, 0, 0]);
    equal(&[109, 0, 0, 0, 1, 5], &[77, 0, 0, 0, 1, 8, 5]);
    equal(&[109, 0, 0, 0, 0], &[77, 0, 0, 0, 0, 0]);
    equal(&[77, 0, 0, 0, 1, 1, 128], &[77, 0, 0, 0, 1, 1, 255]);
    equal(&[115, 1, 233], &[118, 0, 2, 195, 169]);
    equal(&[102, 119, 0, 0, 0, 0, 1, 2], &[120, 119, 0, 0, 0, 0, 0, 0, 0, 0, 1, 0, 0, 0, 2]);
    equal(&[103, 119, 0, 0, 0, 0, 1, 0, 0, 0, 2, 2], &[88, 119, 0, 0, 0, 0, 1, 0, 0, 0, 2, 0, 0, 0, 2]);
    equal(&[106], &[108, 0, 0, 0, 0, 107, 0, 0]); // OP-04: at the wrapper
    equal(&[104, 1, 97, 1], &[105, 0, 0, 0, 1, 110, 1, 0, 1]);
    equal(&[116, 0, 0, 0, 1, 97, 1, 97, 2], &[116, 0, 0, 0, 1, 98, 0, 0, 0, 1, 97, 2]);
    equal(&[116, 0, 0, 0, 2, 97, 1, 106, 97, 2, 106], &[116, 0, 0, 0, 2, 97, 2, 106, 97, 1, 106]); // #103
    different(&[97, 1], &[70, 63, 240, 0, 0, 0, 0, 0, 0]);
    different(&[70, 0, 0, 0, 0, 0, 0, 0, 0], &[70, 128, 0, 0, 0, 0, 0, 0, 0]);
    different(&[90, 0, 1, 119, 0, 0, 0, 0, 0, 0, 0, 0, 7], &[90, 0, 2, 119, 0, 0, 0, 0, 0, 0, 0, 0, 7, 0, 0, 0, 0]); // OP-46
    different(&[77, 0, 0, 0, 1, 1, 128], &[77, 0, 0, 0, 1, 2, 128]);
    different(&[108, 0, 0, 0, 1, 97, 1, 97, 2], &[107, 0, 2, 1, 2]);
    different(&[106], &[109, 0, 0, 0, 0]);
    different(&[119, 1, b'a'], &[107, 0, 1, b'a']);
    // Judged before the value is read.
    refused(&[131, 116, 0, 0, 0, 2, 106, 106, 106], 7, 8);
    refused(&[131, 116, 0, 0, 0, 2, 106, 106, 97, 1], 2, 10);
}

#[test]
fn bits_and_floats() {
    refused(&[131, 77, 0, 0, 0, 0], 2, 1);
    refused(&[131, 77, 0, 0, 0, 0, 1], 4, 1);
    refused(&[131, 77, 0, 0, 0, 0, 8], 4, 1);
    refused(&[131, 77, 0, 0, 0, 1, 0], 2, 1);
    refused(&[131, 77, 0, 0, 0, 1, 0, 5], 4, 1);
    refused(&[131, 77, 0, 0, 0, 1, 9, 5], 4, 1);
    ok(&[131, 77, 0, 0, 0, 2, 7, 255, 255], &[131, 77, 0, 0, 0, 2, 7, 255, 254]);
    refused(&[131, 110, 1, 2], 2, 1);
    refused(&[131, 110, 1, 2, 0], 4, 1);
    refused(&[131, 70, 255, 255, 0, 0, 0, 0, 0], 2, 1);
    refused(&[131, 70, 255, 240, 0, 0, 0, 0, 0, 0], 4, 1);
    ok(&[131, 70, 255, 239, 255, 255, 255, 255, 255, 255], &[131, 70, 255, 239, 255, 255, 255, 255, 255, 255]);
}

#[test]
fn texts_of_255_characters() {
    let atom = |character: &str, count: usize| {
        let text = character.repeat(count);
        join(&[&[131, 118, (text.len() >> 8) as u8, text.len() as u8], text.as_bytes()])
    };
    ok(&atom("\u{10000}", 255), &atom("\u{10000}", 255));
    refused(&atom("\u{10000}", 256), 5, 1_024);
    refused(&join(&[&[131, 100, 1, 0], &[b'a'; 256]]), 5, 259);
    refused(&join(&[&[131, 100, 1, 0], &[b'a'; 255]]), 2, 1);
    ok(&join(&[&[131, 100, 0, 255], &[b'a'; 255]]), &join(&[&[131, 119, 255], &[b'a'; 255]]));
    ok(&join(&[&[131, 115, 255], &[233; 255]]), &atom("\u{e9}", 255));
}

#[test]
fn writing_and_room() {
    let mut driver = Driver::new();
    ask(&mut driver, "lend output 5");
    ask(&mut driver, "fill output ee");
    ask(&mut driver, "fill table 77");
    assert_eq!(ask(&mut driver, "write payload empty 6e0100056e010006"), "refused 11 0");
    assert_eq!(ask(&mut driver, "get output"), "eeeeeeeeee");
    assert!(get(&mut driver, "table").iter().all(|byte| *byte == 0));
    // 10 stands before 11.
    assert_eq!(ask(&mut driver, "write payload empty 6e0100056e01000661"), "refused 10 8");
    assert_eq!(ask(&mut driver, "write payload empty 6e010005"), "ok 3");
    assert_eq!(ask(&mut driver, "get output"), "836105eeee");
    ask(&mut driver, "lend output 6");
    assert_eq!(ask(&mut driver, "write payload empty 6e0100056e010006"), "ok 6");
    assert_eq!(ask(&mut driver, "get output"), "836105836106");
    ask(&mut driver, "lend table 1");
    assert_eq!(ask(&mut driver, "write payload empty 6e0100056e010006"), "refused 9 4");
    // OP-53: canonical forms longer than 65,536 bytes exist, and then the bench says 11 at 0.
    let atom = join(&[&[115, 255], &[233; 255]]);
    let message = join(&[&[131, 104, 250], &atom.repeat(250)]);
    refused(&message, 11, 0);
    // Integers to 255 digits are 110, then 111.
    let digits = |tag: &[u8], n: usize| join(&[&[131], tag, &[1], &vec![1; n]]);
    ok(&digits(&[111, 0, 0, 0, 255], 255), &digits(&[110, 255], 255));
    ok(&digits(&[111, 0, 0, 1, 0], 256), &digits(&[111, 0, 0, 1, 0], 256));
    ok(&[131, 110, 5, 1, 0, 0, 0, 128, 0], &[131, 98, 128, 0, 0, 0]);
    ok(&[131, 110, 4, 1, 1, 0, 0, 128], &[131, 110, 4, 1, 1, 0, 0, 128]);
    ok(&[131, 110, 4, 0, 0, 0, 0, 128], &[131, 110, 4, 0, 0, 0, 0, 128]);
    ok(&[131, 98, 255, 255, 255, 255], &[131, 98, 255, 255, 255, 255]);
    // OP-59
    ok(&[131, 107, 0, 0], &[131, 106]);
    ok(
        &[131, 108, 0, 0, 0, 1, 106, 107, 0, 2, 1, 2],
        &[131, 108, 0, 0, 0, 3, 106, 97, 1, 97, 2, 106],
    );
    ok(&[131, 108, 0, 0, 0, 2, 97, 1, 97, 2, 97, 3], &[131, 108, 0, 0, 0, 2, 97, 1, 97, 2, 97, 3]);
    let tuple = |tag: &[u8], n: usize| join(&[&[131], tag, &vec![106; n]]);
    ok(&tuple(&[105, 0, 0, 0, 255], 255), &tuple(&[104, 255], 255));
    ok(&tuple(&[105, 0, 0, 1, 0], 256), &tuple(&[105, 0, 0, 1, 0], 256));
}

#[test]
fn numbers_asked_for() {
    let mut driver = Driver::new();
    let cases = [
        ("836e0800ffffffffffffff7f", "whole 9223372036854775807"),
        ("836e080000000000000000 80", "neither"),
        ("836e08010000000000000080", "whole -9223372036854775808"),
        ("836e08010100000000000080", "neither"),
        ("836e09010000000000000080 00", "whole -9223372036854775808"),
        ("836e0901000000000000008001", "neither"),
        ("83468000000000000000", "float 9223372036854775808"),
        ("836a", "neither"),
        ("83", "refused 2 1"),
    ];
    for (message, answer) in cases {
        let message = message.replace(' ', "");
        assert_eq!(ask(&mut driver, &format!("number standalone empty 0 {message}")), answer, "{message}");
    }
    assert_eq!(ask(&mut driver, "number standalone empty 1 836b00010a"), "whole 10");
    assert_eq!(ask(&mut driver, "number standalone empty 4294967295 836b00010a"), "neither");
    assert_eq!(ask(&mut driver, "number standalone empty 3 8371770077006109"), "whole 9");
    let many = join(&[&[131, 105, 0, 0, 31, 255], &[106; 8_190], &[97, 5]]);
    assert_eq!(ask(&mut driver, &format!("number standalone empty 8191 {}", hex(&many))), "whole 5");
    let more = join(&[&[131, 105, 0, 0, 32, 0], &[106; 8_192]]);
    assert_eq!(ask(&mut driver, &format!("number standalone empty 0 {}", hex(&more))), "refused 9 8197");
    // The message is judged with 8,192 rows whatever table is lent.
    ask(&mut driver, "lend table 0");
    assert_eq!(ask(&mut driver, "number standalone empty 0 836105"), "whole 5");
    assert_eq!(ask(&mut driver, "mark standalone empty 1 83770161"), "utf8");
}

#[test]
fn atoms_asked_for() {
    let mut driver = Driver::new();
    ask(&mut driver, "set plain-count 0 ff");
    ask(&mut driver, "set plain-texts 8128 c3a9");
    ask(&mut driver, "set plain-lengths 508 0002");
    assert_eq!(ask(&mut driver, "text payload plain 0 52fe"), "list 8128 2");
    assert_eq!(ask(&mut driver, "mark payload plain 0 52fe"), "utf8");
    assert_eq!(ask(&mut driver, "mark payload plain 0 52ff"), "refused 6 0");
    assert_eq!(ask(&mut driver, "write payload plain 52fe"), "ok 5");
    assert_eq!(ask(&mut driver, "text payload plain 0 5200"), "empty");
    assert_eq!(ask(&mut driver, "mark payload plain 0 5200"), "utf8");
    assert_eq!(ask(&mut driver, "mark payload plain 4294967295 5200"), "refused 4 4294967295");
    // A byte in a binary that looks like an atom's tag is no atom; a node is one.
    assert_eq!(ask(&mut driver, "mark payload plain 5 6d00000002520061"), "refused 2 7");
    assert_eq!(ask(&mut driver, "mark payload plain 5 6d000000025200"), "refused 4 5");
    assert_eq!(ask(&mut driver, "text payload plain 1 597301610000000100000000"), "message 3 1");
    assert_eq!(ask(&mut driver, "mark payload plain 1 597301610000000100000000"), "latin1");
    // 14 at 0: a length over 32 (65,535 too, OP-22), a text not UTF-8. Only where asked for.
    for length in ["0021", "ffff", "0001"] {
        ask(&mut driver, &format!("set plain-lengths 508 {length}"));
        assert_eq!(ask(&mut driver, "read payload plain 680252fe61"), "refused 14 0");
        assert_eq!(ask(&mut driver, "mark payload plain 2 680252fe61"), "refused 14 0");
        assert_eq!(ask(&mut driver, "read payload plain 5200"), "ok 1 1");
    }
    ask(&mut driver, "set plain-count 0 fe");
    assert_eq!(ask(&mut driver, "read payload plain 680252fe61"), "refused 6 2");
    assert_eq!(ask(&mut driver, "read payload plain 680252"), "refused 2 2");
}

/// A driver with place 7 holding "a", place 8 "bc".
fn filled() -> Driver {
    let mut driver = Driver::new();
    assert_eq!(ask(&mut driver, "packet 834402880007016108026263"), "plain 12 0");
    driver
}

#[test]
fn packet_sizes_and_false_state() {
    for wrong in ["cache 65535", "lengths 2049", "plain-texts 0", "plain-lengths 254", "pending-texts 8161",
        "pending-lengths 256", "gather 65535"]
    {
        let mut driver = Driver::new();
        ask(&mut driver, &format!("lend {wrong}"));
        ask(&mut driver, "fill record ff");
        ask(&mut driver, "same");
        assert_eq!(ask(&mut driver, "packet -"), "refused 13 0");
        assert_eq!(ask(&mut driver, "packet 834400"), "refused 13 0");
        assert_eq!(ask(&mut driver, "changed"), "-");
        let resets = if wrong.starts_with("cache") || wrong.starts_with("lengths") { "refused 13 0" } else { "ok" };
        assert_eq!(ask(&mut driver, "reset"), resets);
    }
    // 14 on the record, whatever id is due (OP-23), before 1; a drop's before 25; a reset has none.
    for due in ["00", "01"] {
        let mut driver = Driver::new();
        ask(&mut driver, &format!("set record 15 {due}0000000000010001"));
        ask(&mut driver, "same");
        assert_eq!(ask(&mut driver, "packet -"), "refused 14 0");
        assert_eq!(ask(&mut driver, "packet 834400"), "refused 14 0");
        assert_eq!(ask(&mut driver, "drop"), "refused 14 0");
        assert_eq!(ask(&mut driver, "changed"), "-");
        assert_eq!(ask(&mut driver, "reset"), "ok");
        assert_eq!(ask(&mut driver, "changed"), "record");
        assert_eq!(ask(&mut driver, "get record"), "00".repeat(24));
        ask(&mut driver, &format!("set record 15 {due}0000000000010000"));
        assert_eq!(ask(&mut driver, "packet 834400"), "plain 3 0");
        assert_eq!(ask(&mut driver, "drop"), if due == "00" { "refused 25 0" } else { "ok" });
    }
    // A cached place: 21, then 14; at the reference.
    let mut driver = filled();
    // each reference in turn: the first one's 21 before the second one's 2
    assert_eq!(ask(&mut driver, "packet 834402000009"), "refused 21 0");
    assert_eq!(ask(&mut driver, "packet 834402000007"), "refused 2 1");
    assert_eq!(ask(&mut driver, "packet 83440200000709"), "refused 21 1");
    ask(&mut driver, "set lengths 18 0021");
    assert_eq!(ask(&mut driver, "packet 83440200000709"), "refused 14 1");
    ask(&mut driver, "set lengths 18 fffe");
    assert_eq!(ask(&mut driver, "packet 83440200000709"), "refused 14 1");
    ask(&mut driver, "set cache 288 ff");
    ask(&mut driver, "set lengths 18 0001");
    assert_eq!(ask(&mut driver, "packet 83440200000709"), "refused 14 1");
    // OP-40: bytes after a cached text are not judged, the list's copy has zeros there.
    ask(&mut driver, "set lengths 18 0000");
    assert_eq!(ask(&mut driver, "packet 83440200000709"), "plain 7 0");
    words(&mut driver, "plain", &["a", ""]);
    assert_eq!(get(&mut driver, "plain-texts")[32], 0);
    // OP-41: a place to be filled new may hold any length before.
    ask(&mut driver, "set lengths 18 0030");
    assert_eq!(ask(&mut driver, "packet 834401080900"), "plain 6 0");
    words(&mut driver, "plain", &[""]);
    assert_eq!(get(&mut driver, "lengths")[18..20], [0, 0]);
    assert_eq!(get(&mut driver, "cache")[288], 0);
    // Segment 7, internal index 255: place 2,047, the last.
    assert_eq!(ask(&mut driver, "packet 83440107ff"), "refused 21 0");
    assert_eq!(ask(&mut driver, "packet 8344010fff0162"), "plain 7 0");
    assert_eq!(get(&mut driver, "cache")[65_504], b'b');
    assert_eq!(get(&mut driver, "lengths")[4_094..], [0, 1]);
}

#[test]
fn headers() {
    let mut driver = filled();
    ask(&mut driver, "fill plain-texts ee");
    ask(&mut driver, "fill plain-lengths ee");
    ask(&mut driver, "same");
    let mut refusals = vec![
        ("-", "refused 1 0"),
        ("82", "refused 1 0"),
        ("83", "refused 2 0"),
        ("8343", "refused 20 0"),
        ("8347", "refused 20 0"),
        ("8344", "refused 2 0"),
        ("834401", "refused 2 0"),
        ("83440288", "refused 2 0"),
        ("83440108", "refused 2 0"),
        ("8344010809", "refused 2 0"),
        ("834401080901", "refused 2 0"),
        ("8344010809 01ff", "refused 5 6"),
        // the second reference's: 2 before 22 (OP-28)
        ("83440288000901610902", "refused 2 1"),
        ("8344028800090161090162", "refused 22 1"), // new, new
        ("8344020800 09016109", "refused 22 1"),    // new, cached, though empty before (OP-27)
        ("8344028000 07070162", "refused 22 1"),    // cached, new
        ("8344028800 09016109 01ff", "refused 22 1"),
        ("8344020000 0709", "refused 21 1"),
        ("8344020700 0707", "refused 21 0"),
    ];
    // 5 stands before 23: 256 characters.
    let long_latin = format!("8344 0118 09 0100 {}", "61".repeat(256));
    let long = format!("8344 0118 09 0021 {}", "61".repeat(33));
    let bad = format!("8344 0118 09 0100 {}", "ff".repeat(256));
    refusals.push((&long_latin, "refused 5 262"));
    refusals.push((&bad, "refused 5 7"));
    refusals.push((&long, "refused 23 0"));
    for (packet, answer) in &refusals {
        let packet = packet.replace(' ', "");
        assert_eq!(ask(&mut driver, &format!("packet {packet}")), *answer, "{packet}");
        assert_eq!(ask(&mut driver, "changed"), "-");
    }
    // Cached after cached is fine.
    assert_eq!(ask(&mut driver, "packet 83440200000707"), "plain 7 0");
    assert_eq!(ask(&mut driver, "changed"), "plain-texts plain-lengths");
    // "list places from n on have length 0", and zero bytes (OP-39).
    let mut texts = vec![0; 8_160];
    (texts[0], texts[32]) = (b'a', b'a');
    assert_eq!(get(&mut driver, "plain-texts"), texts);
    let mut lengths = vec![0; 510];
    (lengths[1], lengths[3]) = (1, 1);
    assert_eq!(get(&mut driver, "plain-lengths"), lengths);
    // Latin-1: 16 characters of two bytes are 32; 17 are 23.
    let new = |count: usize| format!("8344 01 08 0a {count:02x} {}", "e9".repeat(count)).replace(' ', "");
    connect(&mut driver, 0);
    assert_eq!(ask(&mut driver, &format!("packet {}", new(16))), "plain 22 0");
    words(&mut driver, "plain", &["\u{e9}".repeat(16).as_str()]);
    assert_eq!(get(&mut driver, "cache")[320..352], [0xc3, 0xa9].repeat(16));
    assert_eq!(ask(&mut driver, &format!("packet {}", new(17))), "refused 23 0");
    connect(&mut driver, 1);
    assert_eq!(ask(&mut driver, &format!("packet {}", new(16))), "refused 5 7");
    // LongAtoms: odd n in the high half of the last flag byte, even n in the low half of the last.
    assert_eq!(ask(&mut driver, "packet 834401180a000161"), "plain 8 0");
    assert_eq!(ask(&mut driver, "packet 83440288010a0001610b000162"), "plain 13 0");
    assert_eq!(ask(&mut driver, "packet 834402880e0a01610b0162"), "plain 11 0");
    assert_eq!(ask(&mut driver, "packet 83440288f00a01610b0162"), "plain 11 0");
    assert_eq!(ask(&mut driver, "packet 834401e80a0161"), "plain 7 0");
    // n = 255, and an 82 of 254 and 255.
    let mut packet = vec![131, 68, 255];
    packet.extend(vec![0x88; 127]);
    packet.push(0x08);
    for i in 0..255u8 {
        packet.extend([i, 1, b'a' + i % 26]);
    }
    packet.extend([104, 1, 82, 254]);
    assert_eq!(ask(&mut driver, &format!("packet {}", hex(&packet))), "plain 896 4");
    assert_eq!(ask(&mut driver, "write payload plain 680152fe"), "ok 6");
    assert_eq!(ask(&mut driver, "write payload plain 680152ff"), "refused 6 2");
    assert_eq!(ask(&mut driver, "word plain 253"), "text 74");
    assert_eq!(ask(&mut driver, "word plain 254"), "text 75");
    assert_eq!(ask(&mut driver, "word plain 255"), "refused 6 0");
    assert_eq!(ask(&mut driver, "word plain 4294967295"), "refused 6 0");
    // The payload, not the packet, is at most 65,536 bytes.
    packet.truncate(packet.len() - 4);
    packet.extend(vec![0; 65_536]);
    assert_eq!(ask(&mut driver, &format!("packet {}", hex(&packet))), "plain 896 65536");
    packet.push(0);
    ask(&mut driver, "same");
    assert_eq!(ask(&mut driver, &format!("packet {}", hex(&packet))), "refused 12 0");
    assert_eq!(ask(&mut driver, "changed"), "-");
}

fn fragment(kind: u8, sequence: u64, id: u64, rest: &[u8]) -> String {
    hex(&join(&[&[131, kind], &sequence.to_be_bytes(), &id.to_be_bytes(), rest]))
}

#[test]
fn fragments() {
    let mut driver = filled();
    let mut packet = |line: String| {
        let before = get(&mut driver, "gather");
        ask(&mut driver, "same");
        let answer = ask(&mut driver, &format!("packet {line}"));
        if answer.starts_with("refused") {
            assert_eq!(ask(&mut driver, "changed"), "-");
            assert_eq!(get(&mut driver, "gather"), before);
        }
        answer
    };
    let mut check = |line: String, answer: &str| assert_eq!(packet(line.clone()), answer, "{line:.80}");
    check("8345".to_string() + &"00".repeat(15), "refused 2 0");
    check("8346".to_string() + &"00".repeat(15), "refused 2 0");
    check(fragment(69, 1, 0, &[]), "refused 24 0");
    check(fragment(70, 1, 0, &[]), "refused 24 0");
    check(fragment(70, 1, 1, &[]), "refused 25 0");
    check(fragment(70, 0, 1, &[]), "refused 25 0");
    check(fragment(69, 1, 5, &[]), "refused 2 0");
    check(fragment(69, 0, u64::MAX, &[0, 9, 9]), "pending 18446744073709551614 2");
    check(fragment(69, 1, 0, &[]), "refused 24 0");
    check(fragment(69, 1, 5, &[]), "refused 26 0");
    check(fragment(70, 1, u64::MAX - 1, &[]), "refused 25 0");
    check(fragment(70, 0, u64::MAX, &[]), "refused 24 0");
    check(fragment(70, 0, u64::MAX - 1, &[]), "pending 18446744073709551613 2");
    check(fragment(70, 0, u64::MAX - 2, &[8; 65_534]), "pending 18446744073709551612 65536");
    check(fragment(70, 0, u64::MAX - 3, &[8]), "refused 12 0");
    check(fragment(70, 0, u64::MAX - 3, &[]), "pending 18446744073709551611 65536");
    check("834400".to_string(), "plain 3 0");
    assert_eq!(ask(&mut driver, "drop"), "ok");
    assert_eq!(ask(&mut driver, "drop"), "refused 25 0");
    assert_eq!(ask(&mut driver, "get record"), "00".repeat(24));
    // A start that is the whole sequence, with leftovers in the record; gather bytes past it stay.
    ask(&mut driver, "set record 0 0000000000000005000000000000000000000000000000ff");
    ask(&mut driver, "fill gather 33");
    ask(&mut driver, "same");
    let whole = fragment(69, 9, 1, &[1, 0, 7, 106, 106]);
    assert_eq!(ask(&mut driver, &format!("packet {whole}")), "complete 2");
    assert_eq!(ask(&mut driver, "changed"), "pending-count pending-texts pending-lengths record gather");
    assert_eq!(ask(&mut driver, "get record"), "00".repeat(24));
    assert_eq!(get(&mut driver, "gather")[..4], [106, 106, 0x33, 0x33]);
    assert_eq!(ask(&mut driver, &format!("packet {}", fragment(70, 9, 1, &[]))), "refused 25 0");
    // A start's payload: 65,536 pass, one more is 12 and takes no entry.
    let start = |count: usize| fragment(69, 9, 1, &join(&[&[1, 8, 99, 1, b'z'], &vec![5; count]]));
    ask(&mut driver, "same");
    assert_eq!(ask(&mut driver, &format!("packet {}", start(65_537))), "refused 12 0");
    assert_eq!(ask(&mut driver, "changed"), "-");
    assert_eq!(ask(&mut driver, &format!("packet {}", start(65_536))), "complete 65536");
    words(&mut driver, "pending", &["z"]);
    assert_eq!(get(&mut driver, "cache")[32 * 99], b'z');
    // A reset touches cache and record only.
    ask(&mut driver, "same");
    assert_eq!(ask(&mut driver, "reset"), "ok");
    assert_eq!(ask(&mut driver, "changed"), "cache lengths");
    assert!(get(&mut driver, "lengths").iter().all(|byte| *byte == 255));
    assert!(get(&mut driver, "cache").iter().all(|byte| *byte == 0));
}

/// A driver whose plain list has this n, and "one", "two", "three" at its first places.
fn listed(n: u8) -> Driver {
    let mut driver = Driver::new();
    ask(&mut driver, &format!("set plain-count 0 {}", hex(&[n])));
    for (i, text) in ["one", "two", "three"].iter().enumerate() {
        put(&mut driver, i, text.as_bytes(), text.len() as u16);
    }
    driver
}

/// Puts bytes and a length at a place of the plain list.
fn put(driver: &mut Driver, i: usize, bytes: &[u8], length: u16) {
    assert_eq!(ask(driver, &format!("set plain-texts {} {}", 32 * i, hex(bytes))), "ok");
    assert_eq!(ask(driver, &format!("set plain-lengths {} {}", 2 * i, hex(&length.to_be_bytes()))), "ok");
}

/// The word asked of the plain list; whatever the answer, nothing lent changes.
fn word(driver: &mut Driver, i: u64) -> String {
    ask(driver, "same");
    let answer = ask(driver, &format!("word plain {i}"));
    assert_eq!(ask(driver, "changed"), "-");
    answer
}

#[test]
fn a_word_of_a_list_of_the_wrong_size() {
    for wrong in ["plain-texts 8159", "plain-texts 8161", "plain-texts 0", "plain-lengths 254", "plain-lengths 256",
        "plain-lengths 0"]
    {
        // 13 for a good index, 13 before 6, 13 before 14 (a length over 32; a text not UTF-8).
        let mut driver = listed(3);
        put(&mut driver, 1, b"two", 33);
        put(&mut driver, 2, &[0xff], 1);
        assert_eq!(ask(&mut driver, &format!("lend {wrong}")), "ok");
        for i in [0, 1, 2, 3, 254, 255, 256, 4_294_967_295] {
            assert_eq!(word(&mut driver, i), "refused 13 0", "{wrong} {i}");
        }
        ask(&mut driver, "set plain-count 0 00");
        assert_eq!(word(&mut driver, 0), "refused 13 0");
        // Only the list asked is judged.
        assert_eq!(ask(&mut driver, "word pending 0"), "refused 6 0");
        assert_eq!(ask(&mut driver, "word empty 0"), "refused 6 0");
    }
    // The pending list's sizes are judged when it is asked.
    let mut driver = listed(3);
    ask(&mut driver, "lend pending-texts 8159");
    assert_eq!(word(&mut driver, 0), "text 6f6e65");
    assert_eq!(ask(&mut driver, "word pending 0"), "refused 13 0");
    // No other memory is lent to the call.
    for other in ["cache 0", "lengths 0", "gather 0", "table 0", "output 0"] {
        ask(&mut driver, &format!("lend {other}"));
    }
    ask(&mut driver, "fill record ff");
    words(&mut driver, "plain", &["one", "two", "three"]);
}

#[test]
fn a_word_below_n() {
    // "Taking an index below 255 as good, though n is 3."
    let mut driver = listed(3);
    for i in 0..255 {
        put(&mut driver, i, b"here", 4);
    }
    assert_eq!(word(&mut driver, 2), "text 68657265");
    for i in [3, 4, 254, 255, 256, 258, 65_536, 65_538, 4_294_967_294, 4_294_967_295] {
        assert_eq!(word(&mut driver, i), "refused 6 0", "{i}");
    }
    ask(&mut driver, "set plain-count 0 ff");
    put(&mut driver, 254, b"last", 4);
    assert_eq!(word(&mut driver, 254), "text 6c617374");
    for i in [255, 256, 510, 4_294_967_295] {
        assert_eq!(word(&mut driver, i), "refused 6 0", "{i}");
    }
    // n = 0: no index is below it, in the empty list neither.
    ask(&mut driver, "set plain-count 0 00");
    assert_eq!(word(&mut driver, 0), "refused 6 0");
    assert_eq!(ask(&mut driver, "word empty 0"), "refused 6 0");
    assert_eq!(ask(&mut driver, "word empty 4294967295"), "refused 6 0");
    // n = 1 and n = 254.
    for n in [1, 254] {
        ask(&mut driver, &format!("set plain-count 0 {}", hex(&[n])));
        assert_eq!(word(&mut driver, u64::from(n) - 1), "text 68657265");
        assert_eq!(word(&mut driver, u64::from(n)), "refused 6 0");
    }
}

#[test]
fn a_word_of_a_false_list() {
    let mut driver = listed(3);
    let long = [b'x'; 32];
    // Places 1 and 2 full: 32 bytes are a text, and its neighbour's bytes are not touched.
    put(&mut driver, 1, &long, 32);
    put(&mut driver, 2, &[b'y'; 32], 32);
    assert_eq!(word(&mut driver, 1), format!("text {}", hex(&long)));
    for length in [33, 64, 255, 256, 288, 32_768, 65_534, 65_535] {
        // At the place asked for it is 14, at another it does not matter.
        put(&mut driver, 1, &long, length);
        assert_eq!(word(&mut driver, 1), "refused 14 0", "{length}");
        assert_eq!(word(&mut driver, 0), "text 6f6e65");
        assert_eq!(word(&mut driver, 2), format!("text {}", "79".repeat(32)));
        // At a place that is not below n it is 6.
        put(&mut driver, 3, &long, length);
        put(&mut driver, 254, &long, length);
        assert_eq!(word(&mut driver, 3), "refused 6 0");
        assert_eq!(word(&mut driver, 254), "refused 6 0");
    }
    // Not UTF-8 inside the length is 14, past it does not matter. Not below n it is 6.
    let mut driver = listed(3);
    for bad in [&b"ab\xff"[..], b"ab\x80", b"ab\xc3", b"ab\xe0\x80\x80", b"ab\xed\xa0\x80", b"ab\xf4\x90\x80\x80"] {
        put(&mut driver, 1, bad, bad.len() as u16);
        assert_eq!(word(&mut driver, 1), "refused 14 0");
        assert_eq!(word(&mut driver, 0), "text 6f6e65");
        assert_eq!(word(&mut driver, 2), "text 7468726565");
        put(&mut driver, 1, bad, 2);
        assert_eq!(word(&mut driver, 1), "text 6162");
        put(&mut driver, 1, bad, 0);
        assert_eq!(word(&mut driver, 1), "text -");
        put(&mut driver, 3, bad, bad.len() as u16);
        assert_eq!(word(&mut driver, 3), "refused 6 0");
    }
    // A sequence that the length cuts off, though its other bytes follow; and the last place's.
    put(&mut driver, 1, "a\u{e9}".as_bytes(), 2);
    assert_eq!(word(&mut driver, 1), "refused 14 0");
    put(&mut driver, 1, "a\u{e9}".as_bytes(), 3);
    assert_eq!(word(&mut driver, 1), "text 61c3a9");
    ask(&mut driver, "set plain-count 0 ff");
    put(&mut driver, 254, "\u{1f600}".repeat(8).as_bytes(), 32);
    assert_eq!(word(&mut driver, 254), format!("text {}", "f09f9880".repeat(8)));
    put(&mut driver, 254, "\u{1f600}".repeat(8).as_bytes(), 31);
    assert_eq!(word(&mut driver, 254), "refused 14 0");
    // An empty text is a text, at its first place too; NUL is a character like others.
    put(&mut driver, 0, b"", 0);
    assert_eq!(word(&mut driver, 0), "text -");
    put(&mut driver, 0, b"\0\0", 2);
    assert_eq!(word(&mut driver, 0), "text 0000");
}

#[test]
fn each_message_keeps_its_own_words() {
    let mut driver = filled();
    let packet = |driver: &mut Driver, bytes: &str| ask(driver, &format!("packet {bytes}"));
    // A sequence names places 7 ("a") and 8 ("bc") as cached and fills place 9 with "ours".
    let start = fragment(69, 5, 3, &join(&[&[3, 0, 0x08, 7, 8, 9, 4], b"ours", &[104]]));
    assert_eq!(packet(&mut driver, &start), "pending 2 1");
    let ours = ["a", "bc", "ours"];
    words(&mut driver, "plain", &["a", "bc"]);
    words(&mut driver, "pending", &ours);
    // A plain packet in between replaces the words at places 9 and 7.
    let replaces = hex(&join(&[&[131, 68, 2, 0x88, 0, 9, 6], b"theirs", &[7, 1, b'b']]));
    assert_eq!(packet(&mut driver, &replaces), "plain 16 0");
    words(&mut driver, "plain", &["theirs", "b"]);
    words(&mut driver, "pending", &ours);
    assert_eq!(packet(&mut driver, &fragment(70, 5, 2, &[3, 82, 0])), "pending 1 4");
    // Another names them as cached, in another order; a refused one changes no word.
    assert_eq!(packet(&mut driver, "8344030000080709"), "plain 8 0");
    assert_eq!(packet(&mut driver, "834402000007fe"), "refused 21 1");
    words(&mut driver, "plain", &["bc", "b", "theirs"]);
    words(&mut driver, "pending", &ours);
    assert_eq!(packet(&mut driver, &fragment(70, 5, 1, &[82, 1, 82, 2])), "complete 8");
    words(&mut driver, "pending", &ours);
    // The text of an 82 in the payload is the word of its index.
    let payload = hex(&get(&mut driver, "gather")[..8]);
    assert_eq!(ask(&mut driver, &format!("write payload pending {payload}")), "ok 16");
    assert_eq!(get(&mut driver, "output")[..16], *b"\x83\x68\x03\x77\x01a\x77\x02bc\x77\x04ours");
    // A start replaces places 7 and 8 and is dropped: the plain message's words stay, as over a reset.
    let second = fragment(69, 6, 2, &join(&[&[2, 0x88, 0, 7, 3], b"new", &[8, 0]]));
    assert_eq!(packet(&mut driver, &second), "pending 1 0");
    for line in ["drop", "reset"] {
        words(&mut driver, "plain", &["bc", "b", "theirs"]);
        words(&mut driver, "pending", &["new", ""]);
        assert_eq!(ask(&mut driver, line), "ok");
    }
    words(&mut driver, "plain", &["bc", "b", "theirs"]);
    words(&mut driver, "pending", &["new", ""]);
}

#[test]
fn lines_that_are_no_commands() {
    let mut driver = filled();
    ask(&mut driver, "same");
    for line in [
        "", " ", "nothing", "set", "set cache", "set cache 0", "set cache 0 0", "set cache 0 0G", "set cache 0 AB",
        "set cache 65536 00", "set cache 65535 0000", "set cache -1 00", "set cache +1 00", "set nothing 0 00",
        "set cache 0 00 00", "set  cache 0 00", "fill cache", "fill cache 0000", "fill cache -", "lend record 24",
        "lend plain-count 1", "lend cache", "lend cache x", "get", "get cache ", "same x", "changed x",
        "read standalone", "read both empty 83", "read standalone none 83", "read standalone empty",
        "read standalone empty 8", "kind", "kind x", "kind 4294967296", "write standalone empty 83 83",
        "number standalone empty 83", "text standalone empty x 83", "mark standalone empty 0", "packet 1 83",
        "packet 83 83", "packet", "packet 8", "packet ", "packet 1", "drop 1", "reset 1", "read\tx", "word",
        "word plain", "word 0", "word plain 0 0", "word plain ",
        "word plain -", "word plain x", "word plain 00x", "word plain -1", "word plain 4294967296", "word none 0",
        "word 0 plain", "word  plain 0", "word plain 0 ", "words plain 0", "reference 0 1 83440108000161",
        "reference 0 plain", "place 7", "place",
    ] {
        assert!(ask(&mut driver, line).starts_with("? "), "{line}");
        assert_eq!(ask(&mut driver, "changed"), "-");
    }
    assert!(driver.answer(&[0xff, 0x20, 0xfe]).starts_with("? "));
    assert_eq!(ask(&mut driver, "set cache 65536 -"), "ok");
    assert_eq!(ask(&mut driver, "read payload empty -"), "refused 2 0");
    ask(&mut driver, "lend output 0");
    assert_eq!(ask(&mut driver, "get output"), "-");
    // "Elements that stay keep what they held, new ones are zero."
    ask(&mut driver, "lend output 2");
    ask(&mut driver, "fill output 77");
    ask(&mut driver, "lend output 1");
    ask(&mut driver, "lend output 3");
    assert_eq!(ask(&mut driver, "get output"), "770000");
    ask(&mut driver, "lend plain-lengths 1");
    ask(&mut driver, "set plain-lengths 0 1234");
    ask(&mut driver, "lend plain-lengths 2");
    assert_eq!(ask(&mut driver, "get plain-lengths"), "12340000");
    ask(&mut driver, "lend table 1");
    ask(&mut driver, "set table 6 0123");
    assert_eq!(ask(&mut driver, "get table"), "0000000000000123");
    assert_eq!(ask(&mut driver, "kind 0"), "atom 18 -");
}

/// An atom with this tag: its length in 2 bytes (100, 118) or 1, its text.
fn atom(tag: u8, text: &[u8]) -> Vec<u8> {
    let long = [(text.len() >> 8) as u8, text.len() as u8];
    let length = if [100, 118].contains(&tag) { &long[..] } else { &long[1..] };
    join(&[&[tag], length, text])
}

/// Messages that hold this atom, each with its form and how many bytes stand before the atom.
fn messages_with(atom: &[u8]) -> Vec<(&'static str, Vec<u8>, usize)> {
    let standalone: [&[u8]; 12] = [
        &[],
        &[104, 2, 97, 5],
        &[108, 0, 0, 0, 0],
        &[108, 0, 0, 0, 1],
        &[108, 0, 0, 0, 1, 97, 5],
        &[116, 0, 0, 0, 1],
        &[116, 0, 0, 0, 1, 119, 2, 0xc3, 0xa9],
        &[88],
        &[120],
        &[90, 0, 2],
        &[113],
        &[113, 119, 1, b'm'],
    ];
    let payload: [&[u8]; 4] = [&[], &[97, 5], &[119, 2, 0xc3, 0xa9], &[106, 104, 1]];
    let standalone = standalone.iter().map(|before| ("standalone", join(&[&[131], before, atom]), 1 + before.len()));
    standalone.chain(payload.iter().map(|before| ("payload", join(&[before, atom]), before.len()))).collect()
}

/// Each call that reads messages answers this refusal with these flags; the text asked for is empty.
fn refused_in_every_call(flags: u8, form: &str, message: &[u8], answer: &str) {
    assert_eq!(read_with(flags, form, message, 60), answer, "{flags} {}", hex(message));
    assert_eq!(write_with(flags, form, message, 60), answer, "{flags} {}", hex(message));
    let mut driver = with(flags);
    let bytes = hex(message);
    for offset in [0, 1, message.len()] {
        assert_eq!(ask(&mut driver, &format!("number {form} empty {offset} {bytes}")), answer, "{bytes}");
        assert_eq!(ask(&mut driver, &format!("mark {form} empty {offset} {bytes}")), answer, "{bytes}");
        assert_eq!(ask(&mut driver, &format!("text {form} empty {offset} {bytes}")), "empty");
    }
}

/// 5 at this byte of the text, by each call that reads messages, wherever an atom of it may stand.
fn bad_in_messages(tag: u8, text: &[u8], bad: usize) {
    let fields = if [100, 118].contains(&tag) { 3 } else { 2 };
    for (form, message, before) in messages_with(&atom(tag, text)) {
        refused_in_every_call(1, form, &message, &format!("refused 5 {}", before + fields + bad));
    }
}

/// Headers whose reference `number` is new, with this text, each with the offset of the text: plain and
/// after ids, the references before it new and, in a driver of `filled`, cached. The text's end is not
/// the packet's.
fn headers_with(text: &[u8], long: bool, number: usize) -> Vec<(Vec<u8>, usize)> {
    let length = |text: &[u8]| if long { atom(118, text)[1..3].to_vec() } else { vec![text.len() as u8] };
    let mut packets = Vec::new();
    for new in [true, false] {
        let mut halves = vec![if new { 8 } else { 0 }; number];
        halves.extend([8, u8::from(long), 0]);
        let flags: Vec<u8> = halves.chunks_exact(2).map(|pair| pair[0] | pair[1] << 4).collect();
        let mut references = Vec::new();
        for i in 0..number {
            if new {
                references.extend(join(&[&[20 + i as u8], &length(b"\xc3\xa9"), b"\xc3\xa9"]));
            } else {
                references.push(7 + (i % 2) as u8);
            }
        }
        references.extend(join(&[&[200], &length(text)]));
        let ids = join(&[&[131, 69], &[0xff; 8], &[0, 0, 0, 0, 0, 0, 0, 2]]);
        for opening in [&[131, 68][..], &ids] {
            let before = join(&[opening, &[number as u8 + 1], &flags, &references]);
            packets.push((join(&[&before, text, &[0xa9, 0x80, 0x80]]), before.len()));
        }
    }
    packets
}

/// The packet call's answer; where it is a refusal, no lent byte changes.
fn packet_call(flags: u8, packet: &[u8]) -> String {
    let mut driver = filled();
    ask(&mut driver, "same");
    connect(&mut driver, flags);
    let answer = ask(&mut driver, &format!("packet {}", hex(packet)));
    if answer.starts_with("refused") {
        assert_eq!(ask(&mut driver, "changed"), "-");
    }
    answer
}

/// 5 at this byte of the text in headers: as first, second and later reference, with each length that
/// can tell the text's.
fn bad_in_headers(flags: u8, text: &[u8], bad: usize) {
    for number in [0, 1, 2, 5] {
        for long in [false, true] {
            if long || text.len() < 256 {
                for (packet, text_at) in headers_with(text, long, number) {
                    let answer = format!("refused 5 {}", text_at + bad);
                    assert_eq!(packet_call(flags, &packet), answer, "{number} {long} {}", hex(&packet));
                }
            }
        }
    }
}

/// 5 at this byte of the text, which is UTF-8 but for its fault, in messages and in headers.
fn bad_everywhere(text: &[u8], bad: usize) {
    assert_eq!(bad_byte(text), Some(bad), "{}", hex(text));
    bad_in_messages(118, text, bad);
    if text.len() < 256 {
        bad_in_messages(119, text, bad);
    }
    bad_in_headers(1, text, bad);
}

/// Faults, each with the number of its bad byte. No byte put after one changes it, but for those that
/// the end cuts off.
const FAULTS: [(&[u8], usize); 52] = [
    // a byte that begins nothing
    (b"\x80", 0),
    (b"\xbf", 0),
    (b"\xc0", 0),
    (b"\xc1", 0),
    (b"\xf5", 0),
    (b"\xff", 0),
    (b"\xc0\x80", 0),
    (b"\xf5\x80\x80\x80", 0),
    // in place of a continuation byte: an ASCII byte
    (b"\xc2\x7f", 1),
    (b"\xdf\x00", 1),
    (b"\xe0a", 1),
    (b"\xe1\x7f", 1),
    (b"\xeda", 1),
    (b"\xf0a", 1),
    (b"\xf1\x00", 1),
    (b"\xf4\x7f", 1),
    (b"\xe0\xa0a", 2),
    (b"\xec\x80\x7f", 2),
    (b"\xf0\x90a", 2),
    (b"\xf3\xbf\x00", 2),
    (b"\xf0\x90\x80a", 3),
    (b"\xf4\x8f\xbf\x7f", 3),
    // a lead byte
    (b"\xc3\xc3\xa9", 1),
    (b"\xe2\xc2", 1),
    (b"\xe2\x82\xe2\x82\xac", 2),
    (b"\xf0\xf0\x9f\x98\x80", 1),
    (b"\xf0\x9f\xc3\xa9", 2),
    (b"\xf0\x9f\x98\xf4", 3),
    (b"\xc3\xff", 1),
    (b"\xef\xbf\xc0", 2),
    // outside the narrow second bytes of E0, ED, F0 and F4
    (b"\xe0\x80", 1),
    (b"\xe0\x80\x80", 1),
    (b"\xe0\x9f\xbf", 1),
    (b"\xe0\xc0", 1),
    (b"\xed\xa0", 1),
    (b"\xed\xa0\x80", 1),
    (b"\xed\xbf\xbf", 1),
    (b"\xf0\x80", 1),
    (b"\xf0\x8f\xbf\xbf", 1),
    (b"\xf4\x90", 1),
    (b"\xf4\x90\x80\x80", 1),
    (b"\xf4\xbf\xbf\xbf", 1),
    // too short and already impossible (OQ-101-2)
    (b"\xf1\x80\x7f", 2),
    (b"\xf0\x90\xc0", 2),
    // cut off
    (b"\xc2", 0),
    (b"\xe0", 0),
    (b"\xe0\xa0", 0),
    (b"\xed\x9f", 0),
    (b"\xf0", 0),
    (b"\xf0\x90", 0),
    (b"\xf4\x8f\xbf", 0),
    (b"\xf1\x80\x80", 0),
];

/// How many of `FAULTS`, the last ones, are cut off.
const CUT_OFF: usize = 8;

#[test]
fn the_bad_byte_of_each_fault() {
    for (fault, bad) in FAULTS {
        for before in ["", "a", "\0\u{7f}", "\u{e9}", "\u{20ac}a", "\u{1f600}\u{10ffff}"] {
            bad_everywhere(&join(&[before.as_bytes(), fault]), before.len() + bad);
        }
    }
}

#[test]
fn the_bad_byte_before_other_bytes() {
    for (fault, bad) in &FAULTS[..FAULTS.len() - CUT_OFF] {
        for after in [&b"a"[..], b"\x80\x80", "\u{1f600}".as_bytes(), b"\xff", b"\xe2\x82"] {
            bad_everywhere(&join(&[b"\xc3\xa9", fault, after]), 2 + bad);
        }
    }
    // What would end the sequence stands after the text's end (OQ-101-6).
    refused(&[131, 104, 2, 119, 1, 0xc3, 0xa9], 5, 5);
    refused(&[131, 104, 2, 119, 2, 0xe0, 0xa0, 0x80], 5, 5);
    assert_eq!(packet_call(1, &[131, 68, 1, 8, 9, 1, 0xc3, 0xa9]), "refused 5 6");
    assert_eq!(packet_call(1, &[131, 68, 2, 0x88, 0, 9, 1, b'a', 10, 2, 0xe0, 0xa0, 0x80]), "refused 5 10");
}

/// The reader's answer for a text in tag 119 or 118: good, or 5 at its bad byte by the model.
fn same_as_the_model(driver: &mut Driver, text: &[u8]) {
    for (tag, text_at) in [(119, 3), (118, 4)] {
        let message = hex(&join(&[&[131], &atom(tag, text)]));
        let answer = bad_byte(text).map_or("ok 1 1".to_string(), |bad| format!("refused 5 {}", text_at + bad));
        assert_eq!(ask(driver, &format!("read standalone empty {message}")), answer, "{message}");
    }
}

#[test]
fn every_text_of_two_bytes() {
    let mut driver = Driver::new();
    ask(&mut driver, "lend table 1");
    for first in 0..=255 {
        same_as_the_model(&mut driver, &[first]);
        for second in 0..=255 {
            same_as_the_model(&mut driver, &[first, second]);
        }
    }
}

#[test]
fn the_ends_of_the_ranges_of_rfc_3629() {
    let mut driver = Driver::new();
    ask(&mut driver, "lend table 1");
    // both ends of each range of section 4, and the bytes beside them
    let ends = [
        0x00, 0x7f, 0x80, 0x8f, 0x90, 0x9f, 0xa0, 0xbf, 0xc0, 0xc1, 0xc2, 0xdf, 0xe0, 0xe1, 0xec, 0xed, 0xee, 0xef, 0xf0,
        0xf1, 0xf3, 0xf4, 0xf5, 0xff,
    ];
    for first in ends {
        for second in ends {
            for third in ends {
                same_as_the_model(&mut driver, &[first, second, third]);
                for fourth in ends {
                    if first >= 0xc0 && (0x80..0xc0).contains(&second) {
                        same_as_the_model(&mut driver, &[first, second, third, fourth]);
                    }
                }
            }
        }
    }
    // every third and fourth byte after good ones
    for last in 0..=255 {
        for before in [&b"\xe0\xa0"[..], b"\xe1\x80", b"\xed\x9f", b"\xef\xbf", b"\xf0\x90", b"\xf2\x80", b"\xf4\x8f"] {
            same_as_the_model(&mut driver, &join(&[before, &[last]]));
            same_as_the_model(&mut driver, &join(&[before, &[0x80, last]]));
            same_as_the_model(&mut driver, &join(&[before, &[last, 0x80]]));
        }
    }
}

#[test]
fn the_first_byte_after_255_characters() {
    let faults = [&b""[..], b"\xff", b"\x80", b"\xe0\x80", b"\xc3", b"\xf0\x9f\x98", b"\xf4\x8f\xbf\x7f", b"\xed\xa0\x80"];
    for character in ["a", "\u{e9}", "\u{20ac}", "\u{1f600}"] {
        for count in [253, 254, 255, 256, 257, 300] {
            for fault in faults {
                for after in ["", "a", "\u{e9}a"] {
                    let text = join(&[character.repeat(count).as_bytes(), fault, after.as_bytes()]);
                    let limit = 255 * character.len();
                    let bad = bad_byte(&text);
                    // "whichever comes first": after 255 characters it is the limit, whatever stands there.
                    if count >= 255 && text.len() > limit {
                        assert_eq!(bad, Some(limit));
                    }
                    let message = join(&[&[131], &atom(118, &text)]);
                    match bad {
                        Some(bad) => {
                            refused_in_every_call(3, "standalone", &message, &format!("refused 5 {}", 4 + bad));
                            for number in [0, 1] {
                                for (packet, text_at) in headers_with(&text, true, number) {
                                    assert_eq!(packet_call(1, &packet), format!("refused 5 {}", text_at + bad));
                                }
                            }
                        }
                        None => {
                            assert_eq!(read("standalone", &message, 1), "ok 1 1");
                            assert_eq!(packet_call(1, &headers_with(&text, true, 1)[0].0), "refused 23 1");
                        }
                    }
                }
            }
        }
    }
    // OQ-101-3, in numbers.
    let a = |count: usize| vec![b'a'; count];
    for (text, bad) in [
        (join(&[&a(254), b"\xe0\x80"]), Some(255)),
        (join(&[&a(254), b"\xe0\xa0"]), Some(254)),
        (join(&[&a(254), b"\xc3\xa9"]), None),
        (join(&[&a(254), b"\xc3\xa9\xff"]), Some(256)),
        (join(&[&a(254), b"\xff"]), Some(254)),
        (join(&[&a(255), b"\xe0\x80"]), Some(255)),
        (join(&[&a(255), b"\xc3\xa9"]), Some(255)),
        (join(&[&a(255), b"\xc3"]), Some(255)),
        (join(&[&a(300), b"\xff"]), Some(255)),
        (join(&[b"\xff", &a(300)]), Some(0)),
        (join(&[&a(10), b"\xe2\x82", &a(300)]), Some(12)),
        (a(255), None),
        (a(256), Some(255)),
    ] {
        match bad {
            Some(bad) => bad_everywhere(&text, bad),
            None => assert_eq!(read("standalone", &join(&[&[131], &atom(118, &text)]), 1), "ok 1 1"),
        }
    }
}

#[test]
fn latin_1_has_no_bad_byte_but_the_256th() {
    for byte in [0, b'a', 0x80, 0xc3, 0xff] {
        for count in [254, 255] {
            let text = vec![byte; count];
            assert_eq!(read("standalone", &join(&[&[131], &atom(100, &text)]), 1), "ok 1 1");
            assert_eq!(read("standalone", &join(&[&[131], &atom(115, &text)]), 1), "ok 1 1");
            for number in [0, 1, 2] {
                for long in [false, true] {
                    for (packet, _) in headers_with(&text, long, number) {
                        assert_eq!(packet_call(0, &packet), format!("refused 23 {number}"));
                    }
                }
            }
        }
        for count in [256, 257, 1_000] {
            bad_in_messages(100, &vec![byte; count], 255);
            bad_in_headers(0, &vec![byte; count], 255);
        }
    }
    bad_in_messages(100, &[0xe9; 65_000], 255);
    bad_in_headers(0, &[0xe9; 65_535], 255);
    // Bytes that are not UTF-8 enter the cache as Latin-1, in the same header whose UTF-8 reading is 5.
    for (packet, text_at) in headers_with(&[0xff, 0x80], true, 1) {
        assert_eq!(packet_call(1, &packet), format!("refused 5 {text_at}"));
        assert!(!packet_call(0, &packet).starts_with("refused"));
    }
}

#[test]
fn what_comes_before_5_and_after() {
    // 2 on the text: at the tag, and at the reference's number.
    refused(&[131, 104, 1, 119, 2, 0xff], 2, 3);
    refused(&[131, 104, 1, 118, 0, 2, 0xff], 2, 3);
    refused(&[131, 100, 1, 0, 0xff], 2, 1);
    assert_eq!(packet_call(1, &[131, 68, 2, 0x88, 0, 9, 1, b'a', 10, 2, 0xff]), "refused 2 1");
    // 5 before 8 and 9.
    let deep = tuples(64, &[119, 3, b'a', 0xe0, 0x80]);
    for rows in [64, 65, 8_192] {
        assert_eq!(read("standalone", &deep, rows), "refused 5 133");
        assert_eq!(write("standalone", &deep, rows), "refused 5 133");
    }
    assert_eq!(read("standalone", &[131, 119, 3, b'a', 0xe0, 0x80], 0), "refused 5 5");
    assert_eq!(read("standalone", &[131, 104, 1, 119, 3, b'a', 0xe0, 0x80], 1), "refused 5 7");
    assert_eq!(read("standalone", &[131, 104, 1, 119, 3, b'a', 0xe0, 0x80], 0), "refused 9 1");
    // 5 before 10, 7 and 11, and before what is wrong after it.
    refused(&[131, 119, 1, 0xff, 0], 5, 3);
    refused(&[131, 116, 0, 0, 0, 2, 119, 1, b'a', 106, 119, 2, b'a', 0x80], 5, 13);
    refused(&[131, 88, 119, 1, 0xff, 0xff], 5, 4);
    let mut driver = Driver::new();
    ask(&mut driver, "lend output 0");
    assert_eq!(ask(&mut driver, "write standalone empty 837702c3c3"), "refused 5 4");
    // 13, 12, 1, 3 and 4 before it.
    assert_eq!(ask(&mut driver, "read standalone empty 827701ff"), "refused 1 0");
    let long = join(&[&[131, 104, 2, 119, 1, 0xff, 109, 0, 0, 255, 245], &vec![0; 65_526]]);
    refused(&long, 12, 0);
    refused(&long[..65_536], 5, 5);
    ask(&mut driver, "lend plain-texts 8159");
    assert_eq!(ask(&mut driver, "mark standalone plain 1 837701ff"), "refused 13 0");
    refused(&[131, 104, 2, 255, 119, 1, 0xff], 3, 3);
    refused(&[131, 104, 2, 110, 0, 2, 119, 1, 0xff], 4, 3);
}

#[test]
fn what_comes_before_5_and_after_in_a_header() {
    // 22 at the later reference's number, though its text is bad; a bad text of the earlier one first.
    assert_eq!(packet_call(1, &[131, 68, 2, 0x88, 0, 9, 1, b'a', 9, 1, 0xff]), "refused 22 1");
    assert_eq!(packet_call(1, &[131, 68, 2, 0x80, 0, 7, 7, 1, 0xff]), "refused 22 1");
    assert_eq!(packet_call(1, &[131, 68, 2, 0x88, 0, 9, 1, 0xff, 9, 1, b'a']), "refused 5 7");
    // 5 before 23, in one reference; 23 at the reference's number.
    for count in [31, 32, 33, 200] {
        let text = join(&[&vec![b'a'; count], b"\xe2\x82a"]);
        bad_in_headers(1, &text, count + 2);
    }
    for (packet, _) in headers_with(&[b'a'; 33], false, 2) {
        assert_eq!(packet_call(1, &packet), "refused 23 2");
    }
    // Each reference in turn: 5 of the first before 2, 21 and 23 of the second, and the other way about.
    assert_eq!(packet_call(1, &[131, 68, 2, 0x88, 0, 9, 1, 0xff]), "refused 5 7");
    assert_eq!(packet_call(1, &[131, 68, 2, 0x08, 0, 9, 1, 0xff, 99]), "refused 5 7");
    assert_eq!(packet_call(1, &join(&[&[131, 68, 2, 0x88, 0, 9, 1, 0xff, 10, 33], &[b'a'; 33]])), "refused 5 7");
    assert_eq!(packet_call(1, &[131, 68, 2, 0x80, 0, 99, 9, 1, 0xff]), "refused 21 0");
    assert_eq!(packet_call(1, &join(&[&[131, 68, 2, 0x88, 0, 10, 33], &[b'a'; 33], &[9, 1, 0xff]])), "refused 23 0");
    // 12 last; 24 for zero and 26 before the header.
    let bad = [1, 8, 9, 1, 0xff];
    assert_eq!(packet_call(1, &join(&[&[131, 68], &bad, &vec![0; 65_537]])), "refused 5 6");
    let mut driver = filled();
    let start = |id: u64| format!("packet {}", fragment(69, 1, id, &bad));
    assert_eq!(ask(&mut driver, &start(0)), "refused 24 0");
    assert_eq!(ask(&mut driver, &start(1)), "refused 5 22");
    assert_eq!(ask(&mut driver, &start(u64::MAX)), "refused 5 22");
    assert_eq!(ask(&mut driver, &format!("packet {}", fragment(69, 1, 2, &[0]))), "pending 1 0");
    assert_eq!(ask(&mut driver, &start(2)), "refused 26 0");
}

#[test]
fn a_kept_text_that_is_bad_is_14() {
    for (bytes, _) in FAULTS {
        // of a lent list: at 0, whichever term asks for it
        let mut driver = listed(3);
        put(&mut driver, 1, bytes, bytes.len() as u16);
        for call in ["read payload plain", "write payload plain", "number payload plain 0", "mark payload plain 0"] {
            assert_eq!(ask(&mut driver, &format!("{call} 680352005201")), "refused 14 0");
        }
        assert_eq!(ask(&mut driver, "text payload plain 4 680352005201"), "empty");
        assert_eq!(ask(&mut driver, "word plain 1"), "refused 14 0");
        // of a cached place: at its reference
        let mut driver = filled();
        ask(&mut driver, &format!("set cache 288 {}", hex(bytes)));
        ask(&mut driver, &format!("set lengths 18 {}", hex(&(bytes.len() as u16).to_be_bytes())));
        for (packet, answer) in
            [("8344010009", "refused 14 0"), ("83440200000709", "refused 14 1"), ("8344030000070809", "refused 14 2")]
        {
            assert_eq!(ask(&mut driver, &format!("packet {packet}")), answer);
        }
        let start = fragment(69, 1, 2, &[2, 0, 0, 7, 9]);
        assert_eq!(ask(&mut driver, &format!("packet {start}")), "refused 14 1");
    }
}

#[test]
fn a_gathered_payload_counts_from_its_own_first_byte() {
    let mut driver = filled();
    let mut packet = |line: String| ask(&mut driver, &format!("packet {line}"));
    assert_eq!(packet(fragment(69, 1, 2, &[1, 0, 7, 104, 2, 82])), "pending 1 3");
    assert_eq!(packet(fragment(70, 1, 1, &[0, 119, 3, b'a', 0xe2, b'a'])), "complete 9");
    let payload = hex(&get(&mut driver, "gather")[..9]);
    assert_eq!(ask(&mut driver, &format!("read payload pending {payload}")), "refused 5 8");
    // A plain packet's payload likewise; its packet is taken.
    assert_eq!(ask(&mut driver, "packet 8344007701ff"), "plain 3 3");
    assert_eq!(ask(&mut driver, "write payload plain 7701ff"), "refused 5 2");
}

/// Bytes with a flag that is not known: each alone, beside the known ones, and all.
const UNKNOWN: [u8; 14] = [4, 8, 16, 32, 64, 128, 5, 6, 7, 129, 131, 252, 254, 255];

/// A pid of node `n` with this tag, 88 or 103.
fn pid(tag: u8, id: u32, serial: u32) -> Vec<u8> {
    let creation: &[u8] = if tag == 88 { &[0, 0, 0, 2] } else { &[2] };
    join(&[&[tag, 119, 1, b'n'], &id.to_be_bytes(), &serial.to_be_bytes(), creation])
}

/// A reference of node `n` with this tag, 90 or 114, and these words.
fn reference(tag: u8, words: &[u32]) -> Vec<u8> {
    let creation: &[u8] = if tag == 90 { &[0, 0, 0, 2] } else { &[2] };
    let words_bytes: Vec<u8> = words.iter().flat_map(|word| word.to_be_bytes()).collect();
    join(&[&[tag], &(words.len() as u16).to_be_bytes(), &[119, 1, b'n'], creation, &words_bytes])
}

/// Messages that hold this term, each with its form and how many bytes stand before the term.
fn messages_of(term: &[u8]) -> Vec<(&'static str, Vec<u8>, usize)> {
    let around: [(&[u8], &[u8]); 7] = [
        (&[], &[]),
        (&[104, 3, 97, 5], &[106]),
        (&[108, 0, 0, 0, 0], &[]),
        (&[108, 0, 0, 0, 1], &[106]),
        (&[108, 0, 0, 0, 1, 106], &[]),
        (&[116, 0, 0, 0, 1], &[106]),
        (&[116, 0, 0, 0, 1, 106], &[]),
    ];
    let beside: [(&[u8], &[u8]); 2] = [(&[106], &[]), (&[], &[106])];
    let mut messages = Vec::new();
    for (before, after) in around {
        messages.push(("standalone", join(&[&[131], before, term, after]), 1 + before.len()));
    }
    for (before, after) in around.iter().chain(&beside) {
        messages.push(("payload", join(&[before, term, after]), before.len()));
    }
    messages
}

/// With these flags a pid or reference is read, and written as `canonical`, wherever it may stand.
fn taken(flags: u8, term: &[u8], canonical: &[u8]) {
    let alone = write_with(flags, "standalone", &join(&[&[131], term]), 2);
    assert_eq!(alone, format!("ok 83{}", hex(canonical)));
    let node = if [90, 114].contains(&term[0]) { 3 } else { 1 };
    for (form, message, before) in messages_of(term) {
        let bytes = hex(&message);
        assert!(read_with(flags, form, &message, 40).starts_with("ok "), "{flags} {bytes}");
        let written = write_with(flags, form, &message, 40);
        assert!(written.starts_with("ok ") && written.contains(&hex(canonical)), "{flags} {bytes} {written}");
        let mut driver = with(flags);
        let node_at = before + node;
        assert_eq!(ask(&mut driver, &format!("number {form} empty 0 {bytes}")), "neither");
        assert_eq!(ask(&mut driver, &format!("mark {form} empty {node_at} {bytes}")), "utf8");
        let text = ask(&mut driver, &format!("text {form} empty {node_at} {bytes}"));
        assert_eq!(text, format!("message {} 1", node_at + 2));
    }
}

/// With these flags a term is 4 at its tag, wherever it may stand.
fn not_taken(flags: u8, term: &[u8]) {
    for (form, message, before) in messages_of(term) {
        refused_in_every_call(flags, form, &message, &format!("refused 4 {before}"));
    }
}

#[test]
fn the_line_that_sets_the_flags() {
    // 1 at the start: header texts are UTF-8, a wide pid is 4.
    let wide = hex(&pid(88, 1 << 15, 0));
    let is_1 = |driver: &mut Driver| {
        assert_eq!(ask(driver, "packet 834401080902c3a9"), "plain 8 0");
        words(driver, "plain", &["\u{e9}"]);
        assert_eq!(ask(driver, &format!("read payload empty {wide}")), "refused 4 0");
    };
    is_1(&mut Driver::new());
    // What is no flags line changes neither flags nor memory.
    let mut driver = filled();
    ask(&mut driver, "same");
    for line in [
        "flags", "flags ", "flags -", "flags x", "flags 1x", "flags 256", "flags 257", "flags 258", "flags 511",
        "flags 65538", "flags 4294967295", "flags 4294967298", "flags 18446744073709551618", "flags -1", "flags +2",
        "flags 2 2", "flags  2", "flags 2 ", "flags 0x2", "flags ff", "flag 2", "Flags 2", "get flags", "set flags 0 02",
        "fill flags 02", "lend flags 1", "packet 2 834400", "packet 0 834400",
    ] {
        assert!(ask(&mut driver, line).starts_with("? "), "{line}");
        assert_eq!(ask(&mut driver, "changed"), "-");
    }
    is_1(&mut driver);
    // Every byte is taken, known or not; the memory does not know it.
    ask(&mut driver, "same");
    for flags in 0..=255 {
        connect(&mut driver, flags);
        assert_eq!(ask(&mut driver, "changed"), "-");
        let answer = if flags > 3 { "refused 14 0" } else { "refused 2 1" };
        assert_eq!(ask(&mut driver, "read standalone empty 83"), answer, "{flags}");
    }
    // A reset and a line that is no command leave them.
    connect(&mut driver, 2);
    assert_eq!(ask(&mut driver, "reset"), "ok");
    assert!(ask(&mut driver, "flags 300").starts_with("? "));
    assert_eq!(ask(&mut driver, &format!("read payload empty {wide}")), "ok 1 2");
    assert_eq!(ask(&mut driver, "packet 834401080901ff"), "plain 7 0");
    words(&mut driver, "plain", &["\u{ff}"]);
}

/// A driver with these flags on which each call is accepted if they are known: `filled`, a pending
/// sequence 5 with id 1 due.
fn ready(flags: u8) -> Driver {
    let mut driver = filled();
    assert_eq!(ask(&mut driver, &format!("packet {}", fragment(69, 5, 2, &[1, 0, 7, 106]))), "pending 1 1");
    ask(&mut driver, "lend table 4");
    ask(&mut driver, "lend output 9");
    ask(&mut driver, "fill table a5");
    ask(&mut driver, "fill output a5");
    ask(&mut driver, "same");
    connect(&mut driver, flags);
    driver
}

/// Calls that a `ready` driver accepts, with their answers and the memory that they change.
fn accepted_calls() -> Vec<(String, &'static str, &'static str)> {
    let line = |line: &str| line.to_string();
    vec![
        (line("read standalone plain 8368015200"), "ok 1 2", "table"),
        (line("read payload pending 52006a"), "ok 2 2", "table"),
        (line("read payload empty 6a"), "ok 1 1", "table"),
        (line("write standalone plain 836105"), "ok 3", "table output"),
        (line("write payload pending 5200"), "ok 4", "table output"),
        (line("write payload empty 6a6a"), "ok 4", "table output"),
        (line("number standalone plain 0 836105"), "whole 5", "-"),
        (line("number payload empty 7 6a"), "neither", "-"),
        (line("text standalone plain 1 83770161"), "message 3 1", "-"),
        (line("text payload plain 0 5201"), "list 32 2", "-"),
        (line("mark standalone plain 1 83730161"), "latin1", "-"),
        (line("mark payload empty 0 770161"), "utf8", "-"),
        (line("word plain 1"), "text 6263", "-"),
        (line("word pending 0"), "text 61", "-"),
        (line("packet 834400"), "plain 3 0", "plain-count plain-texts plain-lengths"),
        (line("packet 834401080a00"), "plain 6 0", "lengths plain-count plain-texts plain-lengths"),
        (format!("packet {}", fragment(70, 5, 1, &[106])), "complete 2", "record gather"),
        (line("drop"), "ok", "record"),
    ]
}

#[test]
fn an_unknown_flag_in_each_call() {
    for (line, answer, changed) in accepted_calls() {
        for flags in 0..=3 {
            let mut driver = ready(flags);
            assert_eq!(ask(&mut driver, &line), answer, "{flags} {line}");
            assert_eq!(ask(&mut driver, "changed"), changed, "{flags} {line}");
        }
        for flags in 4..=255 {
            let mut driver = ready(flags);
            let refused = if line.starts_with("text") { "empty" } else { "refused 14 0" };
            assert_eq!(ask(&mut driver, &line), refused, "{flags} {line}");
            // "A refused reading leaves the lent table all zero"; the writer's scratch table ends so too.
            let zeroes = line.starts_with("read") || line.starts_with("write");
            assert_eq!(ask(&mut driver, "changed"), if zeroes { "table" } else { "-" }, "{flags} {line}");
            assert!(!zeroes || get(&mut driver, "table").iter().all(|byte| *byte == 0));
            // With known flags the same call then does what it would have done.
            connect(&mut driver, flags & 3);
            assert_eq!(ask(&mut driver, &line), answer, "{flags} {line}");
        }
    }
    // A reset has no connection record, and `kind` is no call.
    for flags in UNKNOWN {
        let mut driver = ready(1);
        assert_eq!(ask(&mut driver, "read payload empty 6a"), "ok 1 1");
        connect(&mut driver, flags);
        assert_eq!(ask(&mut driver, "kind 0"), "list 0 -");
        ask(&mut driver, "same");
        assert_eq!(ask(&mut driver, "reset"), "ok");
        assert_eq!(ask(&mut driver, "changed"), "cache lengths record");
        ask(&mut driver, "lend cache 65535");
        assert_eq!(ask(&mut driver, "reset"), "refused 13 0");
    }
}

#[test]
fn an_unknown_flag_is_judged_after_13() {
    for (line, ..) in accepted_calls() {
        let lent: &[&str] = match line.split(' ').next() {
            Some("packet") => &["cache 65535", "cache 65537", "lengths 2047", "lengths 2049", "plain-texts 8159",
                "plain-lengths 256", "pending-texts 8161", "pending-lengths 254", "gather 65535", "gather 65537"],
            Some("drop") => &[],
            _ if line.contains("plain") => &["plain-texts 8159", "plain-texts 8161", "plain-lengths 254",
                "plain-lengths 256"],
            _ if line.contains("pending") => &["pending-texts 8159", "pending-texts 0", "pending-lengths 254",
                "pending-lengths 0"],
            _ => &[],
        };
        for wrong in lent {
            for flags in [0, 1, 2, 3].into_iter().chain(UNKNOWN) {
                let mut driver = ready(flags);
                ask(&mut driver, &format!("lend {wrong}"));
                let refused = if line.starts_with("text") { "empty" } else { "refused 13 0" };
                assert_eq!(ask(&mut driver, &line), refused, "{flags} {wrong} {line}");
            }
        }
        // What is lent to other calls alone is not judged: with it of a wrong size the flag is the first.
        for other in ["cache 0", "lengths 0", "gather 0"] {
            if !line.starts_with("packet") && !line.starts_with("text") {
                let mut driver = ready(4);
                ask(&mut driver, &format!("lend {other}"));
                assert_eq!(ask(&mut driver, &line), "refused 14 0", "{other} {line}");
            }
        }
    }
}

#[test]
fn an_unknown_flag_is_judged_before_the_bytes() {
    let long = join(&[&[131, 109, 0, 0, 255, 251], &[7; 65_531]]);
    let many = join(&[&[131, 105, 0, 0, 32, 0], &[106; 8_192]]);
    let standalone: [(&[u8], &str); 17] = [
        (&long, "refused 12 0"),
        (&[], "refused 1 0"),
        (&[130, 106], "refused 1 0"),
        (&[131], "refused 2 1"),
        (&[131, 104, 1], "refused 2 3"),
        (&[131, 255], "refused 3 1"),
        (&[131, 104, 1, 255], "refused 3 3"),
        (&[131, 110, 0, 2], "refused 4 1"),
        (&join(&[&[131], &pid(103, 1 << 15, 0)]), "refused 4 1"),
        (&join(&[&[131], &reference(90, &[0; 6])]), "refused 4 1"),
        (&[131, 119, 1, 0xff], "refused 5 3"),
        (&[131, 82, 2], "refused 6 1"),
        (&[131, 116, 0, 0, 0, 2, 106, 106, 106], "refused 7 8"),
        (&tuples(64, &[104, 0]), "refused 8 129"),
        (&many, "refused 9 8197"),
        (&[131, 106, 106], "refused 10 2"),
        (&[131, 104, 2, 82, 1, 255], "refused 3 5"),
    ];
    let mut driver = filled();
    let mut check = |line: String, known: &str, unknown: &str| {
        for (flags, answer) in [(3, known)].into_iter().chain(UNKNOWN.map(|flags| (flags, unknown))) {
            connect(&mut driver, flags);
            assert_eq!(ask(&mut driver, &line), answer, "{flags} {line:.90}");
        }
    };
    for (message, answer) in standalone {
        let message = hex(message);
        for call in ["read standalone plain", "write standalone plain"] {
            check(format!("{call} {message}"), answer, "refused 14 0");
        }
        for call in ["number standalone plain 0", "mark standalone plain 0"] {
            check(format!("{call} {message}"), answer, "refused 14 0");
        }
        check(format!("text standalone plain 1 {message}"), "empty", "empty");
    }
    check("read payload plain -".to_string(), "refused 2 0", "refused 14 0");
    check("mark payload plain 3 6a".to_string(), "refused 4 3", "refused 14 0");
    // 6 of a word.
    for i in [2, 255, 4_294_967_295u64] {
        check(format!("word plain {i}"), "refused 6 0", "refused 14 0");
    }
    check("word empty 0".to_string(), "refused 6 0", "refused 14 0");
    // 9 and 11, which hang on what is lent.
    for (lend, answer) in [("table 0", "refused 9 1"), ("output 1", "refused 11 0")] {
        for (flags, answer) in [(3, answer)].into_iter().chain(UNKNOWN.map(|flags| (flags, "refused 14 0"))) {
            let mut driver = with(flags);
            ask(&mut driver, &format!("lend {lend}"));
            ask(&mut driver, "fill output a5");
            assert_eq!(ask(&mut driver, "write standalone empty 836a"), answer, "{flags} {lend}");
            assert!(get(&mut driver, "output").iter().all(|byte| *byte == 0xa5));
        }
    }
}

#[test]
fn an_unknown_flag_is_judged_before_the_packet() {
    let long = join(&[&[131, 68, 0], &[7; 65_537]]);
    let packets: [(String, &str); 18] = [
        (hex(&[]), "refused 1 0"),
        (hex(&[130]), "refused 1 0"),
        (hex(&[131]), "refused 2 0"),
        (hex(&[131, 67]), "refused 20 0"),
        (hex(&[131, 70, 0]), "refused 2 0"),
        (fragment(69, 5, 0, &[0]), "refused 24 0"),
        (fragment(69, 5, 1, &[0]), "refused 26 0"),
        (fragment(70, 6, 1, &[]), "refused 25 0"),
        (fragment(70, 5, 2, &[]), "refused 24 0"),
        (fragment(70, 5, 1, &[7; 65_536]), "refused 12 0"),
        (hex(&[131, 68]), "refused 2 0"),
        (hex(&[131, 68, 2, 0, 0, 7]), "refused 2 1"),
        (hex(&[131, 68, 2, 0x80, 0, 7, 7, 0]), "refused 22 1"),
        (hex(&[131, 68, 2, 0x80, 0, 7, 9, 1, 0xff]), "refused 5 8"),
        (hex(&join(&[&[131, 68, 2, 0x80, 0, 7, 9, 33], &[b'a'; 33]])), "refused 23 1"),
        (hex(&[131, 68, 2, 0, 0, 7, 9]), "refused 21 1"),
        (hex(&[131, 68, 2, 0, 0, 7, 10]), "refused 14 1"),
        (hex(&long), "refused 12 0"),
    ];
    let mut driver = ready(1);
    ask(&mut driver, "set lengths 20 0021");
    ask(&mut driver, "same");
    for (packet, answer) in &packets {
        for flags in [1, 3].into_iter().chain(UNKNOWN) {
            let answer = if flags > 3 { "refused 14 0" } else { answer };
            connect(&mut driver, flags);
            assert_eq!(ask(&mut driver, &format!("packet {packet}")), answer, "{flags} {packet:.80}");
            assert_eq!(ask(&mut driver, "changed"), "-");
        }
    }
    // Beside a false pending record, and a drop where none is pending.
    for flags in [0, 1, 2, 3].into_iter().chain(UNKNOWN) {
        for gathered in ["0000000000010001", "ffffffffffffffff"] {
            let mut driver = ready(flags);
            ask(&mut driver, &format!("set record 16 {gathered}"));
            ask(&mut driver, "same");
            for line in ["packet -", "packet 834400", "drop"] {
                assert_eq!(ask(&mut driver, line), "refused 14 0", "{flags} {line}");
            }
            assert_eq!(ask(&mut driver, "changed"), "-");
        }
        let mut driver = with(flags);
        assert_eq!(ask(&mut driver, "drop"), if flags > 3 { "refused 14 0" } else { "refused 25 0" });
        assert_eq!(ask(&mut driver, "get record"), "00".repeat(24));
    }
}

#[test]
fn the_ends_of_a_pid() {
    let ids = [0, 0x7fff, 0x8000, 0x8001, 0x1_0000, 0x1000_0000, 0x7fff_ffff, 0x8000_0000, 0xffff_ffff];
    let serials = [0, 0x1fff, 0x2000, 0x2001, 0x8000, 0x1_0000, 0x8000_0000, 0xffff_ffff];
    for flags in 0..=3 {
        for tag in [88, 103] {
            for id in ids {
                for serial in serials {
                    let wide = tag == 88 && [2, 3].contains(&flags);
                    if wide || (id <= 0x7fff && serial <= 0x1fff) {
                        taken(flags, &pid(tag, id, serial), &pid(88, id, serial));
                    } else {
                        not_taken(flags, &pid(tag, id, serial));
                    }
                }
            }
        }
    }
    // In numbers: all bits of both, with the flag on alone and beside the other.
    let all = [131, 88, 119, 1, b'n', 255, 255, 255, 255, 255, 255, 255, 255, 255, 255, 255, 255];
    ok(&all, &all);
    assert_eq!(write_with(2, "standalone", &all, 2), format!("ok {}", hex(&all)));
    assert_eq!(write_with(1, "standalone", &all, 2), "refused 4 1");
    assert_eq!(write_with(0, "standalone", &all, 2), "refused 4 1");
}

#[test]
fn the_order_in_a_pid() {
    for flags in 0..=3 {
        let wide = flags >= 2;
        let all = join(&[&[131], &pid(88, u32::MAX, u32::MAX)]);
        // 2 before 4: all later fields are there before any is judged.
        for length in 5..17 {
            refused_in_every_call(flags, "standalone", &all[..length], "refused 2 1");
        }
        // The node's own refusals before the 4 of ID and Serial.
        assert_eq!(read_with(flags, "standalone", &all, 2), if wide { "ok 1 2" } else { "refused 4 1" });
        assert_eq!(read_with(flags, "standalone", &all, 1), "refused 9 2");
        assert_eq!(read_with(flags, "standalone", &all, 0), "refused 9 1");
        assert_eq!(read_with(flags, "standalone", &tuples(63, &all[1..]), 70), "refused 8 128");
        refused_in_every_call(flags, "standalone", &join(&[&[131, 88, 106], &[255; 12]]), "refused 4 2");
        refused_in_every_call(flags, "standalone", &join(&[&[131, 88, 119, 1, 255], &[255; 12]]), "refused 5 4");
        refused_in_every_call(flags, "standalone", &join(&[&[131, 88, 82, 0], &[255; 12]]), "refused 6 2");
        // The 4 before what stands after the pid.
        let left = join(&[&all, &[106]]);
        refused_in_every_call(flags, "standalone", &left, if wide { "refused 10 17" } else { "refused 4 1" });
        let next = join(&[&[131, 104, 2], &all[1..], &[255]]);
        refused_in_every_call(flags, "standalone", &next, if wide { "refused 3 19" } else { "refused 4 3" });
        // A one-byte Creation is at most 3, with or without the flag; four bytes have no bound.
        for (creation, answer) in [(3, "ok 1 2"), (4, "refused 4 0"), (255, "refused 4 0")] {
            let old = join(&[&[103, 119, 0], &[0; 8], &[creation]]);
            assert_eq!(read_with(flags, "payload", &old, 2), answer);
        }
    }
}

#[test]
fn how_many_words() {
    let first = [0, 0x3_ffff, 0x4_0000, 0xffff_ffff];
    for flags in 0..=3 {
        for tag in [90, 114] {
            let most = if tag == 90 && [2, 3].contains(&flags) { 5 } else { 3 };
            for count in 0..=7 {
                for word in first {
                    let words: Vec<u32> = [word].into_iter().chain(1..).take(count).collect();
                    let bounded = tag == 114 && word > 0x3_ffff;
                    if (1..=most).contains(&count) && !bounded {
                        taken(flags, &reference(tag, &words), &reference(90, &words));
                    } else {
                        not_taken(flags, &reference(tag, &words));
                    }
                    // Every word but a 114's first may have all its bits.
                    let full: Vec<u32> = [word].into_iter().chain([u32::MAX; 7]).take(count).collect();
                    let answer = read_with(flags, "payload", &reference(tag, &full), 2);
                    assert_eq!(answer == "ok 1 2", (1..=most).contains(&count) && !bounded);
                }
            }
            // Both bytes of the count are judged.
            for count in [6u16, 8, 255, 256, 257, 259, 260, 261, 0x0400, 0x0500, 0x8003, 0x8005, 65_535] {
                let term = join(&[&[tag], &count.to_be_bytes(), &[119, 0], &[0; 40]]);
                refused_in_every_call(flags, "payload", &term, "refused 4 0");
            }
        }
    }
}

#[test]
fn the_order_in_a_reference() {
    for flags in 0..=3u8 {
        for tag in [90, 114] {
            let most = if tag == 90 && flags >= 2 { 5 } else { 3 };
            for count in 0..=7u8 {
                let good = (1..=most).contains(&count);
                let answer = |then: &str, at: usize| if good { then.to_string() } else { format!("refused 4 {at}") };
                let whole = join(&[&[131], &reference(tag, &vec![1; usize::from(count)])]);
                // 2 on the count itself.
                refused_in_every_call(flags, "standalone", &[131, tag], "refused 2 1");
                refused_in_every_call(flags, "standalone", &[131, tag, 0], "refused 2 1");
                // The count's 4 before a missing node, its tag, its 2, 5 and 6.
                for (node, then) in [
                    (&[][..], "refused 2 4"),
                    (&[106], "refused 4 4"),
                    (&[255], "refused 4 4"),
                    (&[119, 1], "refused 2 4"),
                    (&[119, 1, 255], "refused 5 6"),
                    (&[82, 0], "refused 6 4"),
                ] {
                    let message = join(&[&[131, tag, 0, count], node]);
                    refused_in_every_call(flags, "standalone", &message, &answer(then, 1));
                }
                // before 8, of the reference and of its node
                let (at_65, at_64) = (tuples(64, &whole[1..]), tuples(63, &whole[1..]));
                assert_eq!(read_with(flags, "standalone", &at_65, 70), answer("refused 8 129", 129));
                assert_eq!(read_with(flags, "standalone", &at_64, 70), answer("refused 8 130", 127));
                // before 9, of the reference and of its node
                assert_eq!(read_with(flags, "standalone", &whole, 0), answer("refused 9 1", 1));
                assert_eq!(read_with(flags, "standalone", &whole, 1), answer("refused 9 4", 1));
                assert_eq!(read_with(flags, "standalone", &whole, 2), answer("ok 1 2", 1));
                // A Creation or words cut off: 2 at the tag, after the count's 4.
                for length in 7..whole.len() {
                    refused_in_every_call(flags, "standalone", &whole[..length], &answer("refused 2 1", 1));
                }
            }
        }
        // A 114's Creation and first word are judged after all words are there, whatever the flags.
        for (creation, word, answer) in [(3, 3, "ok 1 2"), (4, 3, "refused 4 0"), (3, 4, "refused 4 0")] {
            let term = [114, 0, 1, 119, 0, creation, 0, word, 255, 255];
            assert_eq!(read_with(flags, "payload", &term, 2), answer);
            assert_eq!(read_with(flags, "payload", &term[..9], 2), "refused 2 0");
        }
    }
}

#[test]
fn no_other_tag_is_wider() {
    let zeros = [0; 4];
    let id = |id: u32| id.to_be_bytes();
    let node = [119, 1, b'n'];
    let (under, over) = ((1 << 28) - 1, 1 << 28);
    for flags in 0..=3 {
        for value in [0, under] {
            taken(flags, &join(&[&[89], &node, &id(value), &zeros]), &join(&[&[89], &node, &id(value), &zeros]));
            taken(flags, &join(&[&[102], &node, &id(value), &[3]]), &join(&[&[89], &node, &id(value), &id(3)]));
            let newest = join(&[&[120], &node, &zeros, &id(value), &zeros]);
            taken(flags, &newest, &join(&[&[89], &node, &id(value), &zeros]));
        }
        for value in [over, 1 << 31, u32::MAX] {
            not_taken(flags, &join(&[&[89], &node, &id(value), &zeros]));
            not_taken(flags, &join(&[&[102], &node, &id(value), &[3]]));
            let wide = join(&[&[120], &node, &zeros, &id(value), &zeros]);
            taken(flags, &wide, &wide);
        }
        let widest = join(&[&[120], &node, &[255; 12]]);
        taken(flags, &widest, &widest);
        for value in [0, 0x3_ffff] {
            taken(flags, &join(&[&[101], &node, &id(value), &[3]]), &join(&[&[90, 0, 1], &node, &id(3), &id(value)]));
        }
        for value in [0x4_0000, 1 << 31, u32::MAX] {
            not_taken(flags, &join(&[&[101], &node, &id(value), &[3]]));
        }
        for creation in [4, 255] {
            not_taken(flags, &join(&[&[101], &node, &zeros, &[creation]]));
            not_taken(flags, &join(&[&[102], &node, &zeros, &[creation]]));
            not_taken(flags, &join(&[&[103], &node, &zeros, &zeros, &[creation]]));
            not_taken(flags, &join(&[&[114, 0, 1], &node, &[creation], &zeros]));
        }
    }
}

#[test]
fn wider_identifiers_as_keys() {
    let twice = |flags: u8, first: &[u8], second: &[u8]| {
        let message = join(&[&[131, 116, 0, 0, 0, 2], first, &[106], second, &[106]]);
        read_with(flags, "standalone", &message, 8)
    };
    let different = [
        (pid(88, 0x8001, 0), pid(88, 1, 0)),
        (pid(88, 0x8000_0001, 0), pid(88, 1, 0)),
        (pid(88, 5, 0x2001), pid(88, 5, 1)),
        (pid(88, 5, 0x8000_0001), pid(88, 5, 1)),
        (pid(88, 0x1_0000, 0x2000), pid(88, 0x2000, 0x1_0000)),
        (reference(90, &[1, 2, 3, 4]), reference(90, &[1, 2, 3])),
        (reference(90, &[1, 2, 3, 4]), reference(90, &[1, 2, 3, 4, 0])),
        (reference(90, &[1, 2, 3, 4]), reference(90, &[1, 2, 3, 5])),
        (reference(90, &[1, 2, 3, 4, 5]), reference(90, &[1, 2, 3, 4, 6])),
    ];
    for flags in [2, 3] {
        for (first, second) in &different {
            assert_eq!(twice(flags, first, second), "ok 1 7");
            assert_eq!(twice(flags, second, first), "ok 1 7");
            assert_eq!(twice(flags, first, first), format!("refused 7 {}", 7 + first.len()));
            // Without the flag the wider one is 4 at its tag, before any comparison.
            assert_eq!(twice(flags - 2, first, first), "refused 4 6");
        }
        assert_eq!(twice(flags, &pid(103, 5, 6), &pid(88, 5, 6)), "refused 7 20");
        assert_eq!(twice(flags, &reference(114, &[1, 2, 3]), &reference(90, &[1, 2, 3])), "refused 7 26");
    }
}

#[test]
fn the_utf_8_flag_is_bit_0_and_for_header_texts_alone() {
    for flags in 0..=3 {
        let utf8 = flags % 2 == 1;
        let mut driver = with(flags);
        assert_eq!(ask(&mut driver, "packet 834401080902c3a9"), "plain 8 0");
        words(&mut driver, "plain", &[if utf8 { "\u{e9}" } else { "\u{c3}\u{a9}" }]);
        let stored: &[u8] = if utf8 { &[0xc3, 0xa9, 0, 0] } else { &[0xc3, 0x83, 0xc2, 0xa9] };
        assert_eq!(get(&mut driver, "cache")[288..292], *stored);
        // 5 is UTF-8's, and 23 counts the bytes as stored.
        let latin_17 = [0xe9; 17];
        let utf8_32 = [0xc3, 0xa9].repeat(16);
        for (text, with_utf8, without) in [
            (&[0xff][..], "refused 5 6", "plain 7 0"),
            (&[b'a', 0xe2, 0x82], "refused 5 7", "plain 9 0"),
            (&latin_17, "refused 5 7", "refused 23 0"),
            (&utf8_32, "plain 38 0", "refused 23 0"),
            (&[b'a'; 32], "plain 38 0", "plain 38 0"),
            (&[b'a'; 33], "refused 23 0", "refused 23 0"),
        ] {
            let packet = join(&[&[131, 68, 1, 8, 9, text.len() as u8], text]);
            assert_eq!(packet_call(flags, &packet), if utf8 { with_utf8 } else { without }, "{flags} {}", hex(&packet));
        }
        // A start's header likewise.
        let mut driver = with(flags);
        let answer = ask(&mut driver, &format!("packet {}", fragment(69, 1, 1, &[1, 8, 9, 1, 0xe9])));
        assert_eq!(answer, if utf8 { "refused 5 22" } else { "complete 0" });
        assert_eq!(ask(&mut driver, "word pending 0"), if utf8 { "refused 6 0" } else { "text c3a9" });
        // Tags of terms do not ask for it.
        for (message, answer) in [
            (&[131, 100, 0, 1, 0xe9][..], "ok 837702c3a9"),
            (&[131, 115, 2, 0xc3, 0xa9], "ok 837704c383c2a9"),
            (&[131, 118, 0, 2, 0xc3, 0xa9], "ok 837702c3a9"),
            (&[131, 119, 2, 0xc3, 0xa9], "ok 837702c3a9"),
            (&[131, 118, 0, 1, 0xe9], "refused 5 4"),
            (&[131, 119, 1, 0xe9], "refused 5 3"),
        ] {
            assert_eq!(write_with(flags, "standalone", message, 1), answer, "{flags}");
        }
        // Nor do texts of lists and cached places: they are UTF-8 or false.
        let mut driver = listed(3);
        put(&mut driver, 1, "\u{e9}".as_bytes(), 2);
        put(&mut driver, 2, &[0xe9], 1);
        connect(&mut driver, flags);
        assert_eq!(ask(&mut driver, "write payload plain 5201"), "ok 5");
        assert_eq!(get(&mut driver, "output")[..5], *b"\x83\x77\x02\xc3\xa9");
        assert_eq!(ask(&mut driver, "mark payload plain 0 5201"), "utf8");
        assert_eq!(ask(&mut driver, "word plain 1"), "text c3a9");
        assert_eq!(ask(&mut driver, "read payload plain 5202"), "refused 14 0");
        assert_eq!(ask(&mut driver, "word plain 2"), "refused 14 0");
        let mut driver = filled();
        ask(&mut driver, "set cache 224 c3a9");
        ask(&mut driver, "set lengths 14 0002");
        connect(&mut driver, flags);
        assert_eq!(ask(&mut driver, "packet 8344010007"), "plain 5 0");
        words(&mut driver, "plain", &["\u{e9}"]);
        ask(&mut driver, "set cache 224 e9");
        ask(&mut driver, "set lengths 14 0001");
        assert_eq!(ask(&mut driver, "packet 8344010007"), "refused 14 0");
    }
}

#[test]
fn flags_that_change_from_call_to_call() {
    // A sequence whose payload is a wide pid of the node at reference 0, "é" sent as Latin-1.
    let mut driver = with(2);
    let payload = join(&[&[88, 82, 0], &0x8000u32.to_be_bytes(), &0x2000u32.to_be_bytes(), &[0, 0, 0, 1]]);
    let start = fragment(69, 5, 3, &join(&[&[1, 8, 9, 1, 0xe9], &payload[..4]]));
    assert_eq!(ask(&mut driver, &format!("packet {start}")), "pending 2 4");
    words(&mut driver, "pending", &["\u{e9}"]);
    // A plain packet with UTF-8 between; calls with an unknown flag touch nothing.
    connect(&mut driver, 1);
    assert_eq!(ask(&mut driver, "packet 834401080902c3a8"), "plain 8 0");
    let unknown = |driver: &mut Driver| {
        ask(driver, "same");
        connect(driver, 131);
        let next = fragment(70, 5, 2, &payload[4..]);
        assert_eq!(ask(driver, &format!("packet {next}")), "refused 14 0");
        assert_eq!(ask(driver, "packet 834401080901ff"), "refused 14 0");
        assert_eq!(ask(driver, "drop"), "refused 14 0");
        assert_eq!(ask(driver, "word pending 0"), "refused 14 0");
        assert_eq!(ask(driver, "changed"), "-");
    };
    unknown(&mut driver);
    // The rest of the sequence with other flags: a continuation asks for neither.
    connect(&mut driver, 1);
    assert_eq!(ask(&mut driver, &format!("packet {}", fragment(70, 5, 2, &payload[4..9]))), "pending 1 9");
    unknown(&mut driver);
    connect(&mut driver, 0);
    assert_eq!(ask(&mut driver, &format!("packet {}", fragment(70, 5, 1, &payload[9..]))), "complete 15");
    words(&mut driver, "plain", &["\u{e8}"]);
    words(&mut driver, "pending", &["\u{e9}"]);
    // The payload is read by the flags of its own call; what is written does not hang on them.
    let gathered = hex(&get(&mut driver, "gather")[..15]);
    assert_eq!(gathered, hex(&payload));
    let written = join(&[b"\x83\x58\x77\x02\xc3\xa9", &payload[3..]]);
    for flags in [0, 1, 2, 3, 1, 2, 0, 3, 7, 3] {
        connect(&mut driver, flags);
        ask(&mut driver, "fill output 00");
        let (read, write) = match flags {
            0 | 1 => ("refused 4 0", "refused 4 0"),
            2 | 3 => ("ok 1 2", "ok 18"),
            _ => ("refused 14 0", "refused 14 0"),
        };
        assert_eq!(ask(&mut driver, &format!("read payload pending {gathered}")), read);
        assert_eq!(ask(&mut driver, &format!("write payload pending {gathered}")), write);
        let text = ask(&mut driver, &format!("text payload pending 1 {gathered}"));
        let mark = ask(&mut driver, &format!("mark payload pending 1 {gathered}"));
        let number = ask(&mut driver, &format!("number payload pending 0 {gathered}"));
        if read.starts_with("ok") {
            assert_eq!([text.as_str(), mark.as_str(), number.as_str()], ["list 0 2", "utf8", "neither"]);
            assert_eq!(get(&mut driver, "output")[..18], written);
        } else {
            assert_eq!([text.as_str(), mark.as_str(), number.as_str()], ["empty", read, read]);
        }
    }
    // The form written with the flag is its own canonical form with it, and refused without it.
    for flags in 0..=3 {
        let answer = if flags >= 2 { format!("ok {}", hex(&written)) } else { "refused 4 1".to_string() };
        assert_eq!(write_with(flags, "standalone", &written, 2), answer);
    }
    // A sequence begun with some flags is dropped with others.
    for (first, second) in [(0, 3), (1, 2), (2, 1), (3, 0)] {
        let mut driver = with(first);
        assert_eq!(ask(&mut driver, &format!("packet {}", fragment(69, 5, 3, &[0]))), "pending 2 0");
        connect(&mut driver, 4);
        assert_eq!(ask(&mut driver, "drop"), "refused 14 0");
        connect(&mut driver, second);
        assert_eq!(ask(&mut driver, "drop"), "ok");
        assert_eq!(ask(&mut driver, "get record"), "00".repeat(24));
    }
}

/// A map of these pairs, in this order.
fn map<K: AsRef<[u8]>, V: AsRef<[u8]>>(pairs: &[(K, V)]) -> Vec<u8> {
    let mut term = join(&[&[116], &(pairs.len() as u32).to_be_bytes()]);
    for (key, value) in pairs {
        term.extend(key.as_ref());
        term.extend(value.as_ref());
    }
    term
}

/// A map of two pairs, and the same with its pairs turned round.
fn both_ways(first: (&[u8], &[u8]), second: (&[u8], &[u8])) -> [Vec<u8>; 2] {
    [map(&[first, second]), map(&[second, first])]
}

/// Every order of so many things.
fn every_order(count: usize) -> Vec<Vec<usize>> {
    if count == 0 {
        return vec![Vec::new()];
    }
    let mut orders = Vec::new();
    for order in every_order(count - 1) {
        for at in 0..count {
            let mut longer = order.clone();
            longer.insert(at, count - 1);
            orders.push(longer);
        }
    }
    orders
}

/// Some orders of so many things: every one of up to 4, else rising, falling, turned and mixed ones.
fn orders(count: usize) -> Vec<Vec<usize>> {
    if count <= 4 {
        return every_order(count);
    }
    let step = (count / 3..).find(|step| (2..=count).all(|d| count % d != 0 || step % d != 0)).expect("a step");
    let turned = |by: usize| (0..count).map(|i| (i + by) % count).collect();
    let from_both_ends = (0..count).map(|i| if i % 2 == 0 { i / 2 } else { count - 1 - i / 2 }).collect();
    vec![
        turned(0),
        (0..count).rev().collect(),
        turned(1),
        turned(count - 1),
        turned(count / 2),
        from_both_ends,
        (0..count).map(|i| i * step % count).collect(),
        (0..count).map(|i| count - 1 - i * step % count).collect(),
    ]
}

/// A driver with both flags on, so many rows and bytes of output.
fn with_room(rows: usize, output: usize) -> Driver {
    let mut driver = with(3);
    ask(&mut driver, &format!("lend table {rows}"));
    ask(&mut driver, &format!("lend output {output}"));
    driver
}

/// The writer's answer on this driver for a message read with its plain list, its output in place of its length.
fn write_on(driver: &mut Driver, form: &str, message: &[u8]) -> String {
    let answer = ask(driver, &format!("write {form} plain {}", hex(message)));
    match answer.strip_prefix("ok ") {
        Some(length) => format!("ok {}", hex(&get(driver, "output")[..length.parse().expect("a number")])),
        None => answer,
    }
}

/// Pairs given in whatever order are written in the order of `written`, by rising keys, and again so when read again.
fn written_in_order(driver: &mut Driver, given: &[(Vec<u8>, Vec<u8>)], written: &[(Vec<u8>, Vec<u8>)]) {
    assert!(written.windows(2).all(|two| two[0].0 < two[1].0));
    let term = map(written);
    let answer = format!("ok {}", hex(&join(&[&[131], &term])));
    for order in orders(given.len()) {
        let pairs: Vec<(Vec<u8>, Vec<u8>)> = order.iter().map(|i| given[*i].clone()).collect();
        assert_eq!(write_on(driver, "payload", &map(&pairs)), answer, "{}", hex(&map(&pairs)));
    }
    assert_eq!(write_on(driver, "payload", &term), answer);
}

/// Keys in canonical form, by rising bytes, of every kind and tag; not in the order of numbers or words.
fn rising_keys() -> Vec<Vec<u8>> {
    let float = |value: f64| join(&[&[70], &value.to_bits().to_be_bytes()]);
    let integer = |value: i32| join(&[&[98], &value.to_be_bytes()]);
    let port = |tag: u8, id: &[u8]| join(&[&[tag, 119, 1, b'n'], id, &[0; 4]]);
    let export = |module: &[u8], arity: u8| join(&[&[113], &atom(119, module), &[119, 0, 97, arity]]);
    vec![
        float(0.0),
        float(5e-324),
        float(1.0),
        float(2.0),
        float(1e300),
        float(-0.0),
        float(-1.0),
        vec![77, 0, 0, 0, 1, 1, 128],
        vec![77, 0, 0, 0, 1, 2, 64],
        vec![77, 0, 0, 0, 1, 7, 2],
        vec![77, 0, 0, 0, 2, 1, 0, 0],
        join(&[&[88], &atom(119, b"b"), &[255; 12]]),
        join(&[&[88], &atom(119, b"aa"), &[0; 12]]),
        port(89, &[0, 0, 0, 7]),
        port(89, &[15, 255, 255, 255]),
        reference(90, &[7]),
        reference(90, &[8]),
        reference(90, &[7, 0]),
        reference(90, &[0, 0, 0, 0, 0]),
        vec![97, 0],
        vec![97, 10],
        vec![97, 128],
        vec![97, 255],
        integer(256),
        integer(i32::MAX),
        integer(i32::MIN),
        integer(-1),
        vec![104, 0],
        vec![104, 1, 97, 9],
        vec![104, 1, 106],
        vec![104, 2, 97, 1, 97, 1],
        vec![104, 2, 97, 1, 97, 2],
        vec![104, 2, 97, 2, 97, 1],
        join(&[&[105, 0, 0, 1, 0], &[106; 256]]),
        vec![106],
        vec![107, 0, 1, 255],
        vec![107, 0, 2, 0, 0],
        vec![107, 0, 2, 0, 1],
        vec![107, 0, 2, 1, 0],
        join(&[&[107, 1, 0], &[0; 256]]),
        vec![108, 0, 0, 0, 1, 97, 9, 97, 0],
        vec![108, 0, 0, 0, 1, 106, 106],
        vec![108, 0, 0, 0, 2, 97, 0, 97, 0, 97, 0],
        vec![109, 0, 0, 0, 0],
        vec![109, 0, 0, 0, 1, 255],
        vec![109, 0, 0, 0, 2, 0, 0],
        vec![110, 4, 0, 0, 0, 0, 128],           // 2^31
        vec![110, 4, 1, 1, 0, 0, 128],           // -2^31 - 1
        vec![110, 5, 0, 0, 0, 0, 0, 2],          // 2^33
        vec![110, 5, 0, 1, 0, 0, 0, 1],          // 2^32 + 1
        vec![110, 6, 0, 0, 0, 0, 0, 0, 1],       // 2^40
        join(&[&[110, 255, 1], &[255; 255]]),
        join(&[&[111, 0, 0, 1, 0, 0], &[1; 256]]),
        export(b"b", 255),
        export(b"aa", 0),
        export(b"aa", 1),
        map::<&[u8], &[u8]>(&[]),
        map(&[([97, 1], [97, 9])]),
        map(&[([97, 1], [106])]),
        map(&[([97, 2], [97, 0])]),
        map(&[([97, 1], [97, 0]), ([97, 3], [97, 0])]),
        map(&[([97, 1], [97, 1]), ([97, 2], [97, 0])]),
        atom(118, &"\u{e9}".as_bytes().repeat(128)),
        atom(118, &"\u{1f600}".as_bytes().repeat(255)),
        atom(119, b""),
        atom(119, b"a"),
        atom(119, b"b"),
        atom(119, b"aa"),
        atom(119, b"ab"),
        atom(119, "\u{e9}".as_bytes()),
        atom(119, &[b'a'; 255]),
        port(120, &[0, 0, 0, 0, 16, 0, 0, 0]),
    ]
}

#[test]
fn the_order_of_keys_of_every_kind() {
    let mut driver = with_room(1_000, 6_000);
    let keys = rising_keys();
    // Values fall where keys rise.
    let pair = |i: usize| (keys[i].clone(), vec![97, 255 - i as u8]);
    let all: Vec<(Vec<u8>, Vec<u8>)> = (0..keys.len()).map(pair).collect();
    written_in_order(&mut driver, &all, &all);
    for first in 0..keys.len() {
        for second in first + 1..keys.len() {
            let two = [pair(first), pair(second)];
            written_in_order(&mut driver, &two, &two);
        }
    }
}

#[test]
fn the_order_of_some_keys_by_name() {
    let before = |first: &[u8], second: &[u8]| {
        let [rising, falling] = both_ways((first, &[97, 9]), (second, &[97, 1]));
        let message = join(&[&[131], &rising]);
        ok(&message, &message);
        ok(&join(&[&[131], &falling]), &message);
    };
    before(&[98, 0, 0, 1, 0], &[98, 255, 255, 255, 255]); // 256, -1
    before(b"\x77\x01b", b"\x77\x02aa");
    let long = atom(118, &"\u{10ffff}".as_bytes().repeat(64));
    assert_eq!(long.len(), 3 + 256);
    before(&long, &[119, 0]);
    before(&long, b"\x77\x01a");
    before(&long, &atom(119, &[b'a'; 255]));
    before(&[97, 10], &[110, 6, 0, 0, 0, 0, 0, 0, 1]); // 10, 2^40
    before(&[70, 63, 240, 0, 0, 0, 0, 0, 0], &[97, 1]); // 1.0, 1
    before(&[70, 0, 0, 0, 0, 0, 0, 0, 0], &[70, 128, 0, 0, 0, 0, 0, 0, 0]); // 0.0, -0.0
    // A longer form before a shorter one.
    before(&[97, 255], &[106]);
    before(&[98, 0, 0, 1, 0], &[106]);
    before(&[70, 255, 239, 255, 255, 255, 255, 255, 255], &[97, 0]);
    before(&[104, 1, 109, 0, 0, 0, 1, 7], &[104, 1, 119, 0]);
    // The last byte of a long one decides too.
    for length in [100, 1_000, 30_000] {
        let binary = |last: u8| join(&[&[109], &(length as u32).to_be_bytes(), &vec![255; length - 1], &[last]]);
        before(&binary(127), &binary(128));
        before(&map(&[(&binary(0), [106])]), &map(&[(&binary(255), [106])]));
    }
}

#[test]
fn keys_are_ranked_by_their_canonical_form() {
    let mut driver = with_room(100, 1_000);
    let value = |i: usize| vec![97, 200 - i as u8];
    let mut keys_in_order = |keys: &[(Vec<u8>, Vec<u8>)]| {
        let pairs = |which: fn(&(Vec<u8>, Vec<u8>)) -> &Vec<u8>| -> Vec<(Vec<u8>, Vec<u8>)> {
            keys.iter().enumerate().map(|(i, key)| (which(key).clone(), value(i))).collect()
        };
        written_in_order(&mut driver, &pairs(|key| &key.0), &pairs(|key| &key.1));
        for first in 0..keys.len() {
            for second in first + 1..keys.len() {
                let [first, second] = [&keys[first], &keys[second]];
                let two = |a: &Vec<u8>, b: &Vec<u8>| [(a.clone(), value(0)), (b.clone(), value(1))];
                written_in_order(&mut driver, &two(&first.0, &second.0), &two(&first.1, &second.1));
            }
        }
    };
    let node = b"\x77\x01n";
    let list = |bytes: &[u8]| {
        let elements: Vec<u8> = bytes.iter().flat_map(|byte| [97, *byte]).collect();
        join(&[&[108, 0, 0, 0, bytes.len() as u8], &elements, &[106]])
    };
    // Each key as given and as written, by rising bytes of the latter; the former often fall.
    keys_in_order(&[
        (vec![77, 0, 0, 0, 1, 1, 255], vec![77, 0, 0, 0, 1, 1, 128]),
        (vec![77, 0, 0, 0, 1, 2, 127], vec![77, 0, 0, 0, 1, 2, 64]),
        (pid(103, 9, 0), pid(88, 9, 0)),
        (pid(88, 10, 0), pid(88, 10, 0)),
        (join(&[&[120], node, &[0, 0, 0, 0, 0, 0, 0, 1, 0, 0, 0, 0]]), join(&[&[89], node, &[0, 0, 0, 1, 0, 0, 0, 0]])),
        (join(&[&[102], node, &[0, 0, 0, 2, 1]]), join(&[&[89], node, &[0, 0, 0, 2, 0, 0, 0, 1]])),
        (join(&[&[101], node, &[0, 0, 0, 7, 2]]), reference(90, &[7])),
        (reference(114, &[8]), reference(90, &[8])),
        (reference(90, &[1, 2]), reference(90, &[1, 2])),
        (vec![111, 0, 0, 0, 2, 1, 0, 0], vec![97, 0]),
        (vec![110, 2, 0, 5, 0], vec![97, 5]),
        (vec![98, 0, 0, 0, 6], vec![97, 6]),
        (vec![97, 200], vec![97, 200]),
        (vec![111, 0, 0, 0, 2, 0, 0, 1], vec![98, 0, 0, 1, 0]),
        (vec![110, 1, 1, 2], vec![98, 255, 255, 255, 254]),
        (vec![98, 255, 255, 255, 255], vec![98, 255, 255, 255, 255]),
        (vec![105, 0, 0, 0, 0], vec![104, 0]),
        (vec![105, 0, 0, 0, 1, 98, 0, 0, 0, 3], vec![104, 1, 97, 3]),
        (vec![104, 1, 97, 4], vec![104, 1, 97, 4]),
        (vec![108, 0, 0, 0, 0, 107, 0, 0], vec![106]),
        (list(&[9]), vec![107, 0, 1, 9]),
        (vec![107, 0, 2, 0, 7], vec![107, 0, 2, 0, 7]),
        (list(&[0, 8]), vec![107, 0, 2, 0, 8]),
        (vec![77, 0, 0, 0, 0, 0], vec![109, 0, 0, 0, 0]),
        (vec![77, 0, 0, 0, 1, 8, 3], vec![109, 0, 0, 0, 1, 3]),
        (vec![109, 0, 0, 0, 1, 4], vec![109, 0, 0, 0, 1, 4]),
        (atom(100, &[0xe9; 128]), atom(118, &"\u{e9}".as_bytes().repeat(128))),
        (vec![108, 0, 0, 0, 0, 108, 0, 0, 0, 0, 119, 1, b'y'], b"\x77\x01y".to_vec()),
        (b"\x76\0\x01z".to_vec(), b"\x77\x01z".to_vec()),
        (b"\x77\x02aa".to_vec(), b"\x77\x02aa".to_vec()),
        (b"\x73\x01\xe9".to_vec(), b"\x77\x02\xc3\xa9".to_vec()),
        (b"\x64\0\x01\xea".to_vec(), b"\x77\x02\xc3\xaa".to_vec()),
        (b"\x73\x03abc".to_vec(), b"\x77\x03abc".to_vec()),
    ]);
    // A key that is a map, or holds one, is ranked by its own written form: {3, 1} as 1, 3.
    let [one_three, three_one] = both_ways((&[97, 1], &[97, 0]), (&[97, 3], &[97, 0]));
    let [two_two, turned_two_two] = both_ways((&[97, 2], &[97, 0]), (&[98, 0, 0, 2, 0], &[97, 0]));
    keys_in_order(&[(three_one.clone(), one_three.clone()), (two_two.clone(), two_two.clone())]);
    keys_in_order(&[(three_one.clone(), one_three.clone()), (turned_two_two.clone(), two_two.clone())]);
    let in_tuple = |map: &[u8]| join(&[&[104, 1], map]);
    keys_in_order(&[(in_tuple(&three_one), in_tuple(&one_three)), (in_tuple(&turned_two_two), in_tuple(&two_two))]);
    let in_list = |map: &[u8]| join(&[&[108, 0, 0, 0, 1], map, &[106]]);
    keys_in_order(&[(in_list(&three_one), in_list(&one_three)), (in_list(&two_two), in_list(&two_two))]);
    let as_key = |inner: &[u8]| map(&[(inner, [106])]);
    keys_in_order(&[(as_key(&three_one), as_key(&one_three)), (as_key(&two_two), as_key(&two_two))]);
    let as_value = |inner: &[u8]| map(&[(&[97, 5][..], inner)]);
    keys_in_order(&[(as_value(&three_one), as_value(&one_three)), (as_value(&two_two), as_value(&two_two))]);
}

#[test]
fn keys_given_by_82() {
    // The canonical form of an 82 is its text's (OQ-103-8).
    let mut driver = listed(6);
    connect(&mut driver, 3);
    for (i, text) in ["zz", "b", "three", "", "aa", "\u{e9}"].iter().enumerate() {
        put(&mut driver, i, text.as_bytes(), text.len() as u16);
    }
    let texts = ["", "a", "b", "aa", "zz", "\u{e9}", "abc", "three"];
    let written: Vec<(Vec<u8>, Vec<u8>)> =
        (0..8).map(|i| (atom(119, texts[i].as_bytes()), vec![97, 100 - i as u8])).collect();
    let mut given = written.clone();
    for (i, index) in [(0, 3), (2, 1), (3, 4), (4, 0), (5, 5), (7, 2)] {
        given[i].0 = vec![82, index];
    }
    written_in_order(&mut driver, &given, &written);
    for first in 0..8 {
        for second in first + 1..8 {
            let two = |pairs: &[(Vec<u8>, Vec<u8>)]| [pairs[first].clone(), pairs[second].clone()];
            written_in_order(&mut driver, &two(&given), &two(&written));
        }
    }
    // Nodes, modules and functions by reference too.
    let export = |parts: &[&[u8]]| join(&[&[113], &parts.concat(), &[97, 0]]);
    let value = vec![106];
    written_in_order(
        &mut driver,
        &[(export(&[&[82, 1], &[82, 0]]), value.clone()), (export(&[&[119, 2, b'a', b'a'], &[82, 3]]), value.clone())],
        &[
            (export(&[b"\x77\x01b", b"\x77\x02zz"]), value.clone()),
            (export(&[b"\x77\x02aa", b"\x77\0"]), value.clone()),
        ],
    );
    // 7 between an 82 and its text, in maps turned round.
    let [_, by_text] = both_ways((b"\x77\x02zz", &[97, 1]), (&[97, 2], b"\x77\x01b"));
    let [by_82, _] = both_ways((&[82, 0], &[97, 1]), (&[97, 2], &[82, 1]));
    for (first, second) in [(&by_text, &by_82), (&by_82, &by_text)] {
        let message = map(&[(first, [106]), (second, [106])]);
        let answer = format!("refused 7 {}", 5 + first.len() + 1);
        assert_eq!(ask(&mut driver, &format!("read payload plain {}", hex(&message))), answer);
        assert_eq!(write_on(&mut driver, "payload", &message), answer);
    }
    // An 82 to another text is another key.
    let [other, _] = both_ways((&[82, 4], &[97, 1]), (&[97, 2], &[82, 1]));
    let message = map(&[(&by_text, [106]), (&other, [106])]);
    assert_eq!(ask(&mut driver, &format!("read payload plain {}", hex(&message))), "ok 1 13");
}

#[test]
fn turned_pairs_give_the_same_output() {
    let pairs: [(&[u8], &[u8]); 4] = [
        (&[97, 7], &[119, 1, b'z']),
        (&[104, 1, 97, 1], &[97, 3]),
        (&[109, 0, 0, 0, 1, 5], &[106]),
        (&[119, 1, b'a'], &[97, 7]),
    ];
    for count in 0..=4 {
        let written = map(&pairs[..count]);
        let mut answers = Vec::new();
        for order in every_order(count) {
            let given: Vec<(&[u8], &[u8])> = order.iter().map(|i| pairs[*i]).collect();
            ok(&join(&[&[131], &map(&given)]), &join(&[&[131], &written]));
            // The same wherever the map stands, in both forms and in both terms of a payload.
            let around = messages_of(&map(&given));
            let answer: Vec<[String; 2]> =
                around.iter().map(|(form, message, _)| [read(form, message, 40), write(form, message, 40)]).collect();
            assert!(answer.iter().flatten().all(|answer| answer.starts_with("ok ")), "{answer:?}");
            assert!(answer.iter().all(|[_, answer]| answer.contains(&hex(&written))), "{answer:?}");
            answers.push(answer);
        }
        assert!(answers.windows(2).all(|two| two[0] == two[1]));
    }
}

#[test]
fn maps_within_maps_are_turned_at_any_depth() {
    // {1: M1, {M2}: [M3 | M4], M5: 0}, each of them given both ways, and the whole in every order.
    let pairs: [[(&[u8], &[u8]); 2]; 5] = [
        [(&[97, 1], &[97, 5]), (&[97, 2], &[97, 4])],
        [(&[97, 3], &[106]), (&[106], &[97, 3])],
        [(&[106], &[97, 0]), (&[119, 0], &[97, 0])],
        [(&[70, 0, 0, 0, 0, 0, 0, 0, 0], &[97, 1]), (&[97, 0], &[97, 0])],
        [(b"\x77\x01b", b"\x77\x01x"), (b"\x77\x02aa", b"\x77\x01w")],
    ];
    let given = |turns: usize, order: &[usize]| {
        let m: Vec<Vec<u8>> =
            (0..5).map(|i| both_ways(pairs[i][0], pairs[i][1])[turns >> i & 1].clone()).collect();
        let three = [
            (vec![97, 1], m[0].clone()),
            (join(&[&[104, 1], &m[1]]), join(&[&[108, 0, 0, 0, 1], &m[2], &m[3]])),
            (m[4].clone(), vec![97, 0]),
        ];
        let outer: Vec<(Vec<u8>, Vec<u8>)> = order.iter().map(|i| three[*i].clone()).collect();
        join(&[&[131], &map(&outer)])
    };
    let written = given(0, &[0, 1, 2]);
    for turns in 0..32 {
        for order in every_order(3) {
            let message = given(turns, &order);
            ok(&message, &written);
            assert_eq!(read("standalone", &message, 30), "ok 1 30");
            assert!(read("standalone", &message, 29).starts_with("refused 9 "));
        }
    }
}

#[test]
fn sixty_four_deep() {
    // Maps of two pairs: inwards by the value, by the key, and by one or the other in turn.
    let inward: [fn(usize) -> bool; 3] = [|_| false, |_| true, |level| level % 2 == 0];
    for by_key in inward {
        let nested = |levels: usize, turned: fn(usize) -> bool, inmost: &[u8]| {
            let mut term = inmost.to_vec();
            for level in 0..levels {
                let [first, second] = if by_key(level) {
                    [(vec![97, 5], vec![106]), (term, vec![106])]
                } else {
                    [(vec![97, 5], term), (vec![97, 6], vec![106])]
                };
                term = if turned(level) { map(&[second, first]) } else { map(&[first, second]) };
            }
            term
        };
        let message = |levels: usize, turned: fn(usize) -> bool| join(&[&[131], &nested(levels, turned, &[106])]);
        let written = message(63, |_| false);
        for turned in [|_| false, |_| true, |level| level % 3 == 0, |level| level == 0, |level| level == 62] {
            ok(&message(63, turned), &written);
            assert!(bench(&message(64, turned)).starts_with("refused 8 "));
            // As two keys of one map they are one.
            let [first, second] = [nested(62, |_| false, &[106]), nested(62, turned, &[106])];
            let answer = format!("refused 7 {}", 7 + first.len());
            assert_eq!(bench(&join(&[&[131], &map(&[(&first, [106]), (&second, [106])])])), answer);
            // But for a difference in the inmost.
            let other = nested(62, turned, &[104, 0]);
            let answer = bench(&join(&[&[131], &map(&[(&first, [106]), (&other, [106])])]));
            assert!(answer.starts_with("ok "), "{answer}");
        }
    }
}

/// What may stand around a map within a key: bytes before it and after it.
fn around_in_a_key() -> Vec<(Vec<u8>, Vec<u8>)> {
    let around: [(&[u8], &[u8]); 15] = [
        (&[], &[]),
        (&[104, 1], &[]),
        (&[104, 3, 97, 5], &[106]),
        (&[105, 0, 0, 0, 2, 106], &[]),
        (&[108, 0, 0, 0, 1], &[106]),
        (&[108, 0, 0, 0, 3, 97, 1], &[97, 2, 106]),
        (&[108, 0, 0, 0, 1, 97, 1], &[]),
        (&[108, 0, 0, 0, 1, 97, 1, 108, 0, 0, 0, 1], &[107, 0, 1, 5]),
        (&[116, 0, 0, 0, 1], &[97, 1]),
        (&[116, 0, 0, 0, 1, 97, 1], &[]),
        (&[116, 0, 0, 0, 2, 97, 1, 97, 2], &[97, 1]),
        (&[116, 0, 0, 0, 2, 97, 1], &[97, 2, 106]),
        (&[116, 0, 0, 0, 1, 104, 2, 106], &[97, 1]),
        (&[116, 0, 0, 0, 1, 97, 1, 108, 0, 0, 0, 1, 106], &[]),
        (&[116, 0, 0, 0, 1, 116, 0, 0, 0, 1, 104, 1, 116, 0, 0, 0, 1, 97, 1], &[106, 106]),
    ];
    around.iter().map(|(before, after)| (before.to_vec(), after.to_vec())).collect()
}

/// Two keys of one map that are equal, in each order: 7 at the later one.
fn equal(first: &[u8], second: &[u8]) {
    for (first, second) in [(first, second), (second, first)] {
        // Judged when the key is read: before a value that is good, bad or missing, or has no row left.
        let to_key = join(&[&[131, 116, 0, 0, 0, 2], first, &[106], second]);
        let answer = format!("refused 7 {}", 7 + first.len());
        for value in [&[][..], &[106], &[255]] {
            assert_eq!(write("standalone", &join(&[&to_key, value]), 60), answer);
        }
        let alone = read("standalone", &join(&[&[131], first]), 60);
        let rows: usize = alone.strip_prefix("ok 1 ").expect("rows").parse().expect("a number");
        let message = join(&[&to_key, &[106]]);
        assert_eq!(read("standalone", &message, 2 + 2 * rows), answer);
        assert!(read("standalone", &message, 1 + 2 * rows).starts_with("refused 9 "));
    }
}

/// Likewise, by each call that reads messages, wherever the map stands.
fn equal_in_every_call(first: &[u8], second: &[u8]) {
    equal(first, second);
    for (first, second) in [(first, second), (second, first)] {
        for (form, message, before) in messages_of(&map(&[(first, [106]), (second, [106])])) {
            let answer = format!("refused 7 {}", before + 5 + first.len() + 1);
            refused_in_every_call(3, form, &message, &answer);
        }
    }
}

/// Two keys of one map that are different: accepted in each order.
fn different_keys(first: &[u8], second: &[u8]) {
    for (first, second) in [(first, second), (second, first)] {
        let answer = read("standalone", &join(&[&[131], &map(&[(first, [106]), (second, [106])])]), 60);
        assert!(answer.starts_with("ok "), "{answer} {} {}", hex(first), hex(second));
    }
}

#[test]
fn keys_that_differ_only_in_order() {
    let [one, turned] = both_ways((&[97, 1], &[97, 5]), (&[97, 2], &[97, 6]));
    for (before, after) in around_in_a_key() {
        let around = |term: &[u8]| join(&[&before, term, &after]);
        equal_in_every_call(&around(&one), &around(&turned));
        equal(&around(&one), &around(&one));
        // Other widths beside the other order.
        let [_, wide] = both_ways((&[98, 0, 0, 0, 1], &[110, 1, 0, 5]), (&[111, 0, 0, 0, 1, 0, 2], &[97, 6]));
        equal(&around(&one), &around(&wide));
        // Other pairs are other keys: a value, a key, values exchanged, a pair less or more.
        let [value, turned_value] = both_ways((&[97, 1], &[97, 5]), (&[97, 2], &[97, 7]));
        let [_, key] = both_ways((&[97, 1], &[97, 5]), (&[97, 3], &[97, 6]));
        let [exchanged, turned_exchanged] = both_ways((&[97, 1], &[97, 6]), (&[97, 2], &[97, 5]));
        let [_, as_value] = both_ways((&[97, 5], &[97, 1]), (&[97, 6], &[97, 2]));
        let less = map(&[([97, 1], [97, 5])]);
        let more = map(&[([97, 3], [97, 7]), ([97, 2], [97, 6]), ([97, 1], [97, 5])]);
        for other in [value, turned_value, key, exchanged, turned_exchanged, as_value, less, more] {
            different_keys(&around(&one), &around(&other));
            different_keys(&around(&turned), &around(&other));
        }
    }
    // In different places of one key, each turned or not.
    let key = |turns: usize| {
        let m = |bit: usize| if turns >> bit & 1 == 0 { &one } else { &turned };
        join(&[&[104, 2], &map(&[(m(0), m(1))]), &[108, 0, 0, 0, 1], m(2), m(3)])
    };
    for turns in 0..16 {
        equal(&key(0), &key(turns));
        equal(&key(5), &key(turns));
    }
}

#[test]
fn keys_of_three_pairs_in_every_order() {
    let pairs: [(&[u8], &[u8]); 3] = [(&[97, 1], &[106]), (&[106], &[97, 1]), (b"\x77\x01a", &[104, 0])];
    let keys: Vec<Vec<u8>> = every_order(3)
        .iter()
        .map(|order| map(&[pairs[order[0]], pairs[order[1]], pairs[order[2]]]))
        .collect();
    for first in &keys {
        for second in &keys {
            equal(first, second);
            // As the third key, behind another; the value of the first is its own.
            let message = join(&[&[131, 116, 0, 0, 0, 3], first, &[97, 1, 106, 97, 2], second, &[97, 3]]);
            refused(&message, 7, 6 + first.len() + 5);
        }
    }
}

#[test]
fn the_place_of_7_behind_wrappers() {
    // At the first 108 of length 0 before the later key (OP-04), not at what stands behind it.
    let [one, turned] = both_ways((&[97, 1], &[97, 5]), (&[97, 2], &[97, 6]));
    let wrapper = [108, 0, 0, 0, 0];
    for (before, after) in around_in_a_key() {
        let [first, second] = [&one, &turned].map(|map| join(&[&before, map, &after]));
        let wrapped = [first.clone(), join(&[&wrapper, &first]), join(&[&wrapper, &wrapper, &first])];
        for first in &wrapped {
            for second in [&second, &join(&[&wrapper, &second]), &join(&[&wrapper, &wrapper, &second])] {
                equal(first, second);
            }
        }
        // Behind a wrapper within the key.
        let inside = join(&[&before, &wrapper, &turned, &after]);
        equal(&first, &inside);
    }
}

#[test]
fn a_key_that_holds_two_such_keys_is_refused_inside() {
    let [one, turned] = both_ways((&[97, 1], &[97, 5]), (&[97, 2], &[97, 6]));
    // {one: 1, turned: 2} is 7 at its second key; as a key, a value, or part of them too.
    let inner = map(&[(&one, [97, 1]), (&turned, [97, 2])]);
    let inner_turned = map(&[(&turned, [97, 2]), (&one, [97, 1])]);
    let at = 5 + one.len() + 2;
    for (before, after) in around_in_a_key() {
        for inner in [&inner, &inner_turned] {
            let key = join(&[&before, inner, &after]);
            for (form, message, front) in messages_of(&key) {
                refused_in_every_call(3, form, &message, &format!("refused 7 {}", front + before.len() + at));
            }
            // The first of two such keys: the second is never read.
            let two = map(&[(&key, [106]), (&join(&[&before, &inner_turned, &after]), [106])]);
            refused(&join(&[&[131], &two]), 7, 6 + before.len() + at);
            // The later key, behind one that it would equal.
            let good = join(&[&before, &one, &after]);
            let two = map(&[(&good, [106]), (&key, [106])]);
            refused(&join(&[&[131], &two]), 7, 6 + good.len() + 1 + before.len() + at);
        }
    }
    // A later key that is equal so far and then cut off or bad: its own refusal, no comparison.
    let so_far = join(&[&[131, 116, 0, 0, 0, 2], &one, &[106, 116, 0, 0, 0, 2, 97, 2, 97, 6, 97, 1]]);
    refused(&so_far, 2, so_far.len());
    refused(&join(&[&so_far, &[255]]), 3, so_far.len());
}

#[test]
fn values_never_decide_the_order() {
    let values: [&[u8]; 6] =
        [&[70, 0, 0, 0, 0, 0, 0, 0, 0], &[97, 0], &[97, 255], &[106], &[119, 0], &[116, 0, 0, 0, 1, 97, 1, 106]];
    let mut driver = with_room(20, 100);
    for first in values {
        for second in values {
            for third in values {
                let pairs = [(&[97, 1][..], first), (&[97, 2], second), (b"\x77\x01a", third)];
                let pairs = pairs.map(|(key, value)| (key.to_vec(), value.to_vec()));
                written_in_order(&mut driver, &pairs, &pairs);
            }
        }
    }
    // A value within a key is part of the key's form and does.
    let low = map(&[([97, 1], [97, 3])]);
    let high = map(&[([97, 1], [97, 4])]);
    let [rising, falling] = both_ways((&low, &[97, 9]), (&high, &[97, 1]));
    ok(&join(&[&[131], &falling]), &join(&[&[131], &rising]));
    // A value is put in order itself, and stays with its key.
    let [inner, turned] = both_ways((&[97, 1], &[97, 8]), (&[97, 2], &[97, 7]));
    let [written, _] = both_ways((&[97, 3], &inner), (&[97, 4], &inner));
    let [_, given] = both_ways((&[97, 3], &turned), (&[97, 4], &turned));
    ok(&join(&[&[131], &given]), &join(&[&[131], &written]));
}

#[test]
fn lists_and_tuples_keep_their_order() {
    let orders: [&[u8]; 10] = [
        &[104, 2, 97, 2, 97, 1],
        &[104, 2, 97, 1, 97, 2],
        &[107, 0, 2, 2, 1],
        &[107, 0, 2, 1, 2],
        &[108, 0, 0, 0, 2, 106, 97, 1, 106],
        &[108, 0, 0, 0, 2, 97, 1, 106, 106],
        &[108, 0, 0, 0, 1, 97, 2, 97, 1],
        &[108, 0, 0, 0, 1, 97, 1, 97, 2],
        &[104, 2, 106, 97, 1],
        &[104, 2, 97, 1, 106],
    ];
    for (i, first) in orders.iter().enumerate() {
        ok(&join(&[&[131], first]), &join(&[&[131], first]));
        for (before, after) in around_in_a_key() {
            let around = |term: &[u8]| join(&[&before, term, &after]);
            for second in &orders[i + 1..] {
                different_keys(&around(first), &around(second));
            }
        }
    }
    // Maps in a tuple or a list are turned, not exchanged.
    let [one, turned_one] = both_ways((&[97, 1], &[106]), (&[97, 2], &[106]));
    let [two, turned_two] = both_ways((&[97, 0], &[106]), (&[97, 2], &[106]));
    ok(&join(&[&[131, 104, 2], &turned_one, &turned_two]), &join(&[&[131, 104, 2], &one, &two]));
    let list = |first: &[u8], second: &[u8]| join(&[&[131, 108, 0, 0, 0, 2], first, second, &[106]]);
    ok(&list(&turned_one, &turned_two), &list(&one, &two));
    different_keys(&join(&[&[104, 2], &one, &two]), &join(&[&[104, 2], &two, &one]));
    different_keys(&list(&one, &two)[1..], &list(&two, &one)[1..]);
}

#[test]
fn what_else_tells_keys_apart_stays() {
    let different: [(&[u8], &[u8]); 6] = [
        (&[97, 1], &[70, 63, 240, 0, 0, 0, 0, 0, 0]),
        (&[70, 0, 0, 0, 0, 0, 0, 0, 0], &[70, 128, 0, 0, 0, 0, 0, 0, 0]),
        (&reference(90, &[7]), &reference(90, &[7, 0])),
        (&[106], &[109, 0, 0, 0, 0]),
        (b"\x77\x01a", &[107, 0, 1, b'a']),
        (&[104, 0], &[116, 0, 0, 0, 0]),
    ];
    for (first, second) in different {
        different_keys(first, second);
        // As key or value of a map turned round.
        let [as_key, turned_key] = both_ways((first, &[97, 5]), (&[97, 9], &[97, 6]));
        let [other_key, turned_other_key] = both_ways((second, &[97, 5]), (&[97, 9], &[97, 6]));
        let [as_value, turned_value] = both_ways((&[97, 5], first), (&[97, 9], &[97, 6]));
        let [other_value, turned_other_value] = both_ways((&[97, 5], second), (&[97, 9], &[97, 6]));
        equal(&as_key, &turned_key);
        equal(&as_value, &turned_value);
        for (one, other) in [(&other_key, &as_key), (&other_value, &as_value)] {
            different_keys(one, other);
        }
        for (one, other) in [(&turned_other_key, &as_key), (&turned_other_value, &as_value)] {
            different_keys(one, other);
        }
    }
}

#[test]
fn rows_follow_from_the_bytes_as_they_came() {
    let mut driver = with(3);
    // {"b": [8], {1: 2.0, 0: []}: c} and the same turned at both depths.
    let b = b"\x73\x01b".to_vec();
    let c = b"\x77\x01c".to_vec();
    let inner = [(vec![97, 1], vec![70, 64, 0, 0, 0, 0, 0, 0, 0]), (vec![98, 0, 0, 0, 0], vec![106])];
    let came = map(&[(b.clone(), vec![107, 0, 1, 8]), (map(&inner), c.clone())]);
    let turned_inner = [inner[1].clone(), inner[0].clone()];
    let turned = map(&[(map(&turned_inner), c.clone()), (b.clone(), vec![107, 0, 1, 8])]);
    let whole = |n: i64| format!("whole {n}");
    let neither = "neither".to_string();
    let float = format!("float {}", 2f64.to_bits());
    // Of each row: kind, offset, whole; and what it answers, asked for its number.
    let came_rows = [
        ("map 0 -", &neither),
        ("atom 5 0", &neither),
        ("list 8 0", &neither),
        ("integer 11 2", &whole(8)),
        ("map 12 0", &neither),
        ("integer 17 4", &whole(1)),
        ("float 19 4", &float),
        ("integer 28 4", &whole(0)),
        ("list 33 4", &neither),
        ("atom 34 0", &neither),
    ];
    let turned_rows = [
        ("map 0 -", &neither),
        ("map 5 0", &neither),
        ("integer 10 1", &whole(0)),
        ("list 15 1", &neither),
        ("integer 16 1", &whole(1)),
        ("float 18 1", &float),
        ("atom 27 0", &neither),
        ("atom 30 0", &neither),
        ("list 33 0", &neither),
        ("integer 36 8", &whole(8)),
    ];
    let mut outputs = Vec::new();
    for (message, rows) in [(&came, &came_rows), (&turned, &turned_rows)] {
        let bytes = hex(message);
        assert_eq!(ask(&mut driver, &format!("read payload empty {bytes}")), "ok 1 10");
        for (row, (kind, number)) in rows.iter().enumerate() {
            assert_eq!(ask(&mut driver, &format!("kind {row}")), *kind);
            assert_eq!(ask(&mut driver, &format!("number payload empty {row} {bytes}")), **number);
        }
        assert_eq!(ask(&mut driver, "kind 10"), "- - -");
        assert_eq!(ask(&mut driver, &format!("number payload empty 10 {bytes}")), "neither");
        // 9 is at the row's offset as the bytes came, of a character at its 107's.
        for (row, (kind, _)) in rows.iter().enumerate() {
            let offset = match kind.split(' ').nth(1).expect("an offset") {
                "11" => "8",
                "36" => "33",
                offset => offset,
            };
            assert_eq!(read("payload", message, row), format!("refused 9 {offset}"));
            assert_eq!(write("payload", message, row), format!("refused 9 {offset}"));
        }
        outputs.push(write("payload", message, 10));
    }
    assert_eq!(outputs[0], outputs[1]);
    let inner_written = map(&[(&[97, 0][..], &[106][..]), (&[97, 1], &[70, 64, 0, 0, 0, 0, 0, 0, 0])]);
    let written = map(&[(inner_written, c), (b"\x77\x01b".to_vec(), vec![107, 0, 1, 8])]);
    assert_eq!(outputs[0], format!("ok {}", hex(&join(&[&[131], &written]))));
    // Texts and marks are asked for by the offsets as they came.
    for (message, latin1, utf8) in [(&came, 5, 34), (&turned, 30, 27)] {
        let bytes = hex(message);
        for offset in 0..message.len() {
            let text = ask(&mut driver, &format!("text payload empty {offset} {bytes}"));
            let mark = ask(&mut driver, &format!("mark payload empty {offset} {bytes}"));
            if offset == latin1 || offset == utf8 {
                assert_eq!(text, format!("message {} 1", offset + 2));
                assert_eq!(mark, if offset == latin1 { "latin1" } else { "utf8" });
            } else {
                assert_eq!([text, mark], ["empty".to_string(), format!("refused 4 {offset}")]);
            }
        }
    }
    // A second term's rows run on.
    let two = join(&[&turned, &came]);
    assert_eq!(ask(&mut driver, &format!("read payload empty {}", hex(&two))), "ok 2 20");
    assert_eq!(ask(&mut driver, "kind 11"), "atom 42 10");
    assert_eq!(ask(&mut driver, "kind 1"), "map 5 0");
    assert_eq!(write("payload", &two, 20), format!("ok {}", hex(&join(&[&[131], &written, &[131], &written]))));
}

#[test]
fn room_for_turned_pairs() {
    let [written, turned] = both_ways((&[97, 1], b"\x77\x01a"), (b"\x77\x01b", &[106]));
    for given in [&written, &turned] {
        let mut driver = with(3);
        let length = written.len() + 1;
        for room in [0, 1, length - 1] {
            ask(&mut driver, &format!("lend output {room}"));
            ask(&mut driver, "fill output ee");
            assert_eq!(ask(&mut driver, &format!("write payload empty {}", hex(given))), "refused 11 0");
            assert!(get(&mut driver, "output").iter().all(|byte| *byte == 0xee));
        }
        ask(&mut driver, &format!("lend output {}", length + 2));
        ask(&mut driver, "fill output ee");
        assert_eq!(ask(&mut driver, &format!("write payload empty {}", hex(given))), format!("ok {length}"));
        assert_eq!(get(&mut driver, "output"), join(&[&[131], &written, &[0xee, 0xee]]));
    }
}

#[test]
fn large_maps() {
    let mut driver = with(3);
    // Integers -n/2 .. n/2 - 1 as keys, given by 98: 0 to 255 by 97, then 256 and up, then the negative ones.
    for count in [33, 600, 4_095] {
        let value = |i: i32| vec![97, (i * 7 % 251).unsigned_abs() as u8];
        let wide = |i: i32| (join(&[&[98], &i.to_be_bytes()]), value(i));
        let half = count / 2;
        let rising: Vec<i32> = (0..count - half).chain(-half..0).collect();
        let given: Vec<(Vec<u8>, Vec<u8>)> = rising.iter().map(|i| wide(*i)).collect();
        let written: Vec<(Vec<u8>, Vec<u8>)> = rising
            .iter()
            .map(|i| u8::try_from(*i).map_or_else(|_| wide(*i), |small| (vec![97, small], value(*i))))
            .collect();
        written_in_order(&mut driver, &given, &written);
        for order in orders(given.len()) {
            let pairs: Vec<(Vec<u8>, Vec<u8>)> = order.iter().map(|i| given[*i].clone()).collect();
            let message = map(&pairs);
            assert_eq!(read("payload", &message, 8_192), format!("ok 1 {}", 1 + 2 * count));
            // The last key equal to some earlier one, in another width.
            for earlier in [0, pairs.len() / 2, pairs.len() - 2] {
                let mut pairs = pairs.clone();
                let last = pairs.len() - 1;
                let digits = &pairs[earlier].0[1..];
                let number = i32::from_be_bytes([digits[0], digits[1], digits[2], digits[3]]);
                let size = number.unsigned_abs().to_le_bytes();
                pairs[last].0 = join(&[&[110, 4, u8::from(number < 0)], &size]);
                assert_eq!(read("payload", &map(&pairs), 8_192), format!("refused 7 {}", 5 + 7 * last));
            }
        }
    }
    // 4,096 keys: no row is left for the last value.
    let key = |i: u32| join(&[&[98], &i.to_be_bytes()]);
    let pairs: Vec<(Vec<u8>, [u8; 1])> = (0..4_096).rev().map(|i| (key(i), [106])).collect();
    assert_eq!(read("payload", &map(&pairs), 8_192), format!("refused 9 {}", 5 + 6 * 4_096 - 1));
}

#[test]
fn large_maps_of_keys_that_are_maps() {
    let mut driver = with(3);
    // Keys {i: j, 200: j} with rising i and j, written so and given turned round by every second one.
    for count in [33usize, 1_365] {
        let key = |i: usize, turned: bool| {
            let [tens, ones, sevens] = [i / 40, i % 40, i % 7].map(|number| number as u8);
            let [as_is, round] = both_ways((&[97, tens], &[97, ones]), (&[97, 200], &[97, sevens]));
            if turned {
                round
            } else {
                as_is
            }
        };
        let value = |i: usize| vec![97, (255 - i % 256) as u8];
        let written: Vec<(Vec<u8>, Vec<u8>)> = (0..count).map(|i| (key(i, false), value(i))).collect();
        let given: Vec<(Vec<u8>, Vec<u8>)> = (0..count).map(|i| (key(i, i % 2 == 0), value(i))).collect();
        written_in_order(&mut driver, &given, &written);
        // The last key is the first one, turned round.
        for order in orders(count) {
            let mut pairs: Vec<(Vec<u8>, Vec<u8>)> = order.iter().map(|i| given[*i].clone()).collect();
            let first = order[0];
            pairs[count - 1].0 = key(first, first % 2 == 1);
            let message = map(&pairs);
            assert_eq!(read("payload", &message, 8_192), format!("refused 7 {}", 5 + 15 * (count - 1)));
        }
    }
}

#[test]
fn flags_do_not_change_the_order() {
    let [written, turned] = both_ways((b"\x77\x01b", &[97, 1]), (b"\x77\x02aa", &[97, 0]));
    for flags in 0..=3 {
        for given in [&written, &turned] {
            let answer = write_with(flags, "payload", given, 5);
            assert_eq!(answer, format!("ok {}", hex(&join(&[&[131], &written]))));
        }
        let two = map(&[(&written, [106]), (&turned, [106])]);
        refused_in_every_call(flags, "payload", &two, &format!("refused 7 {}", 5 + written.len() + 1));
    }
    // Wider identifiers are keys like others; without the flag they are 4, before 7.
    let [wide, wide_turned] = both_ways((&pid(88, 0x8000, 0), &[97, 1]), (&reference(90, &[1, 2, 3, 4]), &[97, 0]));
    let two = map(&[(&wide, [106]), (&wide_turned, [106])]);
    for flags in 0..=3 {
        let answer = if flags >= 2 {
            refused_in_every_call(flags, "payload", &two, &format!("refused 7 {}", 5 + wide.len() + 1));
            format!("ok {}", hex(&join(&[&[131], &wide])))
        } else {
            refused_in_every_call(flags, "payload", &two, "refused 4 10");
            "refused 4 5".to_string()
        };
        assert_eq!(write_with(flags, "payload", &wide_turned, 7), answer);
    }
}

#[test]
fn a_packet_whose_payload_is_a_turned_map() {
    // References zz, b, aa; the payload is {zz: 1, b: 2, aa: 3}, in a plain packet and in fragments.
    let header = join(&[&[3, 0x88, 0x08], &[1, 2], b"zz", &[2, 1], b"b", &[3, 2], b"aa"]);
    let payload = map(&[([82, 0], [97, 1]), ([82, 1], [97, 2]), ([82, 2], [97, 3])]);
    let in_order = map(&[(&b"\x77\x01b"[..], [97, 2]), (b"\x77\x02aa", [97, 3]), (b"\x77\x02zz", [97, 1])]);
    let written = join(&[&[131], &in_order]);
    let mut driver = with(3);
    let packet = join(&[&[131, 68], &header, &payload]);
    let answer = ask(&mut driver, &format!("packet {}", hex(&packet)));
    assert_eq!(answer, format!("plain {} {}", 2 + header.len(), payload.len()));
    assert_eq!(write_on(&mut driver, "payload", &payload), format!("ok {}", hex(&written)));
    let start = fragment(69, 1, 2, &join(&[&header, &payload[..8]]));
    assert_eq!(ask(&mut driver, &format!("packet {start}")), "pending 1 8");
    let last = fragment(70, 1, 1, &payload[8..]);
    assert_eq!(ask(&mut driver, &format!("packet {last}")), format!("complete {}", payload.len()));
    let gathered = hex(&get(&mut driver, "gather")[..payload.len()]);
    assert_eq!(ask(&mut driver, &format!("write payload pending {gathered}")), format!("ok {}", written.len()));
    assert_eq!(get(&mut driver, "output")[..written.len()], written);
}
