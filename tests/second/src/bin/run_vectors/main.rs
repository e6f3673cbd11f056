//! Runs the outside vectors through the protocol of DRIVE.md:
//!
//!     run_vectors [DIRECTORY] [PROGRAM]
//!
//! DIRECTORY holds standalone.jsonl, payload.jsonl, rows.jsonl and packets.jsonl (default
//! tests/vectors/data). Without PROGRAM the commands go to this crate's own driver, in this process;
//! with it, to that program's standard input. Prints the number of agreements and every disagreement;
//! exit status 1 if there is one.

mod json;
mod sha256;

use json::Json;
use second::drive::{hex, unhex, Driver};
use second::Connection;
use std::io::{BufRead, BufReader, Write};
use std::process::{Child, ChildStdin, ChildStdout, Command, Stdio};

enum Target {
    Here(Box<Driver>),
    There { _child: Child, input: ChildStdin, output: BufReader<ChildStdout> },
}

/// "the bench has both flags on"
const BENCH: Connection = Connection { flags: 3 };

/// The driver's "1 at the start", and before a session's first flags.
const AT_THE_START: Connection = Connection { flags: 1 };

struct Runner {
    target: Target,
    /// the connection record that the driven program holds
    connection: Connection,
    agreements: usize,
    disagreements: usize,
    /// how many vectors name the start of an empty stretch
    empty_stretches: usize,
    /// how many words of atom lists were asked for
    words: usize,
}

impl Runner {
    fn ask(&mut self, line: &str) -> String {
        match &mut self.target {
            Target::Here(driver) => driver.answer(line.as_bytes()),
            Target::There { input, output, .. } => {
                let mut answer = String::new();
                let sent = writeln!(input, "{line}").and_then(|()| input.flush());
                if sent.is_err() || output.read_line(&mut answer).unwrap_or(0) == 0 {
                    println!("the program ended at: {:.200}", line);
                    std::process::exit(2);
                }
                answer.trim_end_matches('\n').to_string()
            }
        }
    }

    /// A command that only prepares memory.
    fn order(&mut self, line: &str) {
        let answer = self.ask(line);
        if answer != "ok" {
            self.disagreements += 1;
            println!("ORDER {line:.100}: {answer:.100}");
        }
    }

    /// From here on the calls are handed this connection record.
    fn connect(&mut self, connection: Connection) {
        if self.connection != connection {
            self.order(&format!("flags {}", connection.flags));
            self.connection = connection;
        }
    }

    fn agree(&mut self, place: &str, expected: &str, got: &str) {
        if expected == got {
            self.agreements += 1;
        } else {
            self.disagreements += 1;
            println!("DISAGREE {place}\n  vector: {expected:.400}\n  here:   {got:.400}");
        }
    }

    fn get(&mut self, name: &str) -> Vec<u8> {
        let answer = self.ask(&format!("get {name}"));
        unhex(answer.as_bytes()).unwrap_or_default()
    }

    /// The writer's answer in the vectors' form: `ok` and hex, or the refusal, parted by tabs.
    fn written(&mut self, form: &str, list: &str, message: &str) -> String {
        let answer = self.ask(&format!("write {form} {list} {message}"));
        match answer.strip_prefix("ok ").map(|length| length.parse::<usize>()) {
            Some(Ok(length)) => {
                let output = self.get("output");
                format!("ok\t{}", plain_hex(output.get(..length).unwrap_or(&[])))
            }
            _ => answer.replace(' ', "\t"),
        }
    }

    /// Puts the vector's atom list into the plain list.
    fn lend_list(&mut self, vector: &Json) {
        let empty = Json::Null;
        let list = vector.get("list").unwrap_or(&empty);
        let n: u8 = list.get("n").and_then(Json::text).and_then(|n| n.parse().ok()).unwrap_or(0);
        self.order(&format!("set plain-count 0 {}", hex(&[n])));
        let mut texts = vec![0u8; 8_160];
        let mut lengths = vec![0u8; 510];
        for (i, text) in list.get("texts").map_or(&[][..], Json::array).iter().enumerate() {
            let text = from_plain_hex(text.text().unwrap_or(""));
            texts[i * 32..i * 32 + text.len()].copy_from_slice(&text);
        }
        for (i, length) in list.get("lengths").map_or(&[][..], Json::array).iter().enumerate() {
            let length: u16 = length.text().and_then(|l| l.parse().ok()).unwrap_or(0);
            lengths[i * 2..i * 2 + 2].copy_from_slice(&length.to_be_bytes());
        }
        self.order(&format!("set plain-texts 0 {}", hex(&texts)));
        self.order(&format!("set plain-lengths 0 {}", hex(&lengths)));
    }

    /// "`in`: hex of the bench's standard input; `out`: its line without the newline."
    fn standalone(&mut self, place: &str, vector: &Json) {
        self.connect(BENCH);
        let message = word(vector, "in");
        let got = self.written("standalone", "empty", &message);
        self.agree(place, text(vector, "out"), &got);
    }

    fn payload(&mut self, place: &str, vector: &Json) {
        self.connect(connection(vector));
        self.lend_list(vector);
        let (form, message) = (text(vector, "form"), word(vector, "in"));
        self.order(&format!("lend table {}", text(vector, "rows")));
        self.order(&format!("lend output {}", text(vector, "out_size")));
        // What the writer leaves: scratch rows zero; output unchanged past what it wrote.
        self.order("fill table a5");
        self.order("fill output a5");
        let got = self.written(form, "plain", &message);
        self.agree(&format!("{place} write"), text(vector, "out"), &got);
        let scratch_zero = self.get("table").iter().all(|byte| *byte == 0);
        self.agree(&format!("{place} scratch all zero"), "true", &scratch_zero.to_string());
        let written = got.strip_prefix("ok\t").map_or(0, |hex| hex.len() / 2);
        let stays = self.get("output").iter().skip(written).all(|byte| *byte == 0xa5);
        self.agree(&format!("{place} output stays"), "true", &stays.to_string());
        self.order("fill table a5");
        let answer = self.ask(&format!("read {form} plain {message}"));
        let rows_used = match vector.get("read") {
            Some(refusal) => {
                let refusal = refusal.text().unwrap_or("").replace('\t', " ");
                self.agree(&format!("{place} read"), &refusal, &answer);
                0
            }
            None => {
                let expected = format!("ok {} {}", text(vector, "terms"), text(vector, "rows_used"));
                self.agree(&format!("{place} read"), &expected, &answer);
                text(vector, "rows_used").parse().unwrap_or(0)
            }
        };
        for (i, row) in vector.get("table").map_or(&[][..], Json::array).iter().enumerate() {
            if let [kind, offset, whole] = row.array() {
                // DRIVE.md has one kind for the empty list and the others.
                let kind = kind.text().unwrap_or("").replace("nil", "list");
                let expected =
                    format!("{kind} {} {}", offset.text().unwrap_or("?"), whole.text().unwrap_or("-"));
                let got = self.ask(&format!("kind {i}"));
                self.agree(&format!("{place} row {i}"), &expected, &got);
            }
        }
        // "all past the rows is zero"
        let past: usize = rows_used;
        let zero = self.get("table").iter().skip(8 * past).all(|byte| *byte == 0);
        self.agree(&format!("{place} past the rows"), "true", &zero.to_string());
    }

    fn rows(&mut self, place: &str, vector: &Json) {
        self.connect(connection(vector));
        self.lend_list(vector);
        let (form, message) = (text(vector, "form"), word(vector, "in"));
        for (what, command) in [("numbers", "number"), ("texts", "text"), ("marks", "mark")] {
            for (i, expected) in vector.get(what).map_or(&[][..], Json::array).iter().enumerate() {
                let got = self.ask(&format!("{command} {form} plain {i} {message}"));
                let mut expected = expected.text().unwrap_or("?").replace('\t', " ");
                // The vectors tell where an empty atom's stretch lies (`message 6 0`); in the protocol's
                // form an empty stretch is `empty` (DRIVE.md, OP-44), so its start is not compared.
                if command == "text" && expected.ends_with(" 0") {
                    expected = "empty".to_string();
                    self.empty_stretches += 1;
                }
                self.agree(&format!("{place} {command} {i}"), &expected, &got);
            }
        }
    }

    fn packets(&mut self, place: &str, vector: &Json) {
        // "each begins with all memory as after a reset, lists and gather buffer all zero"
        for name in ["plain-count", "plain-texts", "plain-lengths", "pending-count", "pending-texts",
            "pending-lengths", "gather"]
        {
            self.order(&format!("fill {name} 00"));
        }
        self.order("reset");
        self.connect(AT_THE_START);
        self.order("lend table 8192");
        self.order("lend output 65536");
        let steps = vector.get("steps").map_or(&[][..], Json::array);
        let lists = ["plain", "pending"].map(|list| (list, texts_after(steps, list)));
        for (i, step) in steps.iter().enumerate() {
            let place = format!("{place} step {i} {}", text(step, "op"));
            self.step(&place, step);
            for (list, texts) in &lists {
                if let Some(texts) = texts[i] {
                    self.words(&place, list, texts.array());
                }
            }
            self.state(&place, step);
        }
    }

    /// Every word of a list that holds these texts, and 6 for indexes not below their number; with an
    /// unknown flag in the last step's record 14 for all of them, as it stands before 6.
    fn words(&mut self, place: &str, list: &str, texts: &[Json]) {
        let unknown = self.connection.flags > 3;
        let good = texts.iter().map(|text| format!("text {}", hex(&from_plain_hex(text.text().unwrap_or("")))));
        let over = [texts.len(), 255, 4_294_967_295].map(|i| (i, "refused 6 0".to_string()));
        for (i, text) in good.enumerate().chain(over) {
            let expected = if unknown { "refused 14 0".to_string() } else { text };
            let got = self.ask(&format!("word {list} {i}"));
            self.agree(&format!("{place} word {list} {i}"), &expected, &got);
            self.words += 1;
        }
    }

    fn step(&mut self, place: &str, step: &Json) {
        let zeros: usize = text(step, "zeros").parse().unwrap_or(0);
        let mut packet = from_plain_hex(text(step, "in"));
        packet.resize(packet.len() + zeros, 0);
        let args = step.get("args").map_or(&[][..], Json::array);
        let arg = |i: usize| args.get(i).and_then(Json::text).unwrap_or("0").to_string();
        let number = |i: usize| arg(i).parse::<u64>().unwrap_or(0);
        let got = match text(step, "op") {
            "packet" => {
                self.connect(connection(step));
                self.ask(&format!("packet {}", hex(&packet)))
            }
            "drop" => {
                self.connect(connection(step));
                self.ask("drop")
            }
            "reset" => self.ask("reset"),
            "set_length" => {
                let length = hex(&(number(1) as u16).to_be_bytes());
                return self.order(&format!("set lengths {} {length}", 2 * number(0)));
            }
            "set_text" => {
                let bytes = hex(&from_plain_hex(&arg(1)));
                self.order(&format!("set cache {} {bytes}", 32 * number(0)));
                let length = hex(&(number(2) as u16).to_be_bytes());
                return self.order(&format!("set lengths {} {length}", 2 * number(0)));
            }
            "set_record" => {
                let record: Vec<u8> = (0..3).flat_map(|i| number(i).to_be_bytes()).collect();
                return self.order(&format!("set record 0 {}", hex(&record)));
            }
            "fill_gather" => return self.order(&format!("fill gather {}", hex(&[number(0) as u8]))),
            "fill_lists" => {
                let byte = number(0) as u8;
                let lengths = vec![u16::from(byte).to_be_bytes(); 255].concat();
                for list in ["plain", "pending"] {
                    self.order(&format!("fill {list}-count {}", hex(&[byte])));
                    self.order(&format!("fill {list}-texts {}", hex(&[byte])));
                    self.order(&format!("set {list}-lengths 0 {}", hex(&lengths)));
                }
                return;
            }
            other => format!("unknown step {other}"),
        };
        self.agree(place, &text(step, "out").replace('\t', " "), &got);
        // "After plain and complete: `texts` of the list, and `payload`: what the writer answers for it";
        // "a payload is read with its packet's flags"
        if let Some(payload) = step.get("payload") {
            let numbers: Vec<usize> = got.split(' ').skip(1).filter_map(|n| n.parse().ok()).collect();
            let (list, bytes) = match numbers[..] {
                [offset, length] => ("plain", packet.get(offset..offset + length).unwrap_or(&[]).to_vec()),
                [gathered] => ("pending", self.get("gather").get(..gathered).unwrap_or(&[]).to_vec()),
                _ => return,
            };
            let written = self.written("payload", list, &hex(&bytes));
            self.agree(&format!("{place} payload"), payload.text().unwrap_or("?"), &written);
            let n = usize::from(self.get(&format!("{list}-count")).first().copied().unwrap_or(0));
            let (places, lengths) = (self.get(&format!("{list}-texts")), self.get(&format!("{list}-lengths")));
            let texts: Vec<String> = (0..n)
                .map(|i| {
                    let length = usize::from(lengths[2 * i]) * 256 + usize::from(lengths[2 * i + 1]);
                    plain_hex(places.get(32 * i..32 * i + length).unwrap_or(&[]))
                })
                .collect();
            let expected: Vec<&str> =
                step.get("texts").map_or(&[][..], Json::array).iter().filter_map(Json::text).collect();
            self.agree(&format!("{place} texts"), &expected.join(" "), &texts.join(" "));
        }
    }

    /// "`state` after each step: the first 16 hex digits of the SHA-256 of [...]"
    fn state(&mut self, place: &str, step: &Json) {
        let Some(state) = step.get("state") else { return };
        let mut got = Vec::new();
        for parts in [
            &["cache"][..],
            &["lengths"],
            &["plain-count", "plain-texts", "plain-lengths"],
            &["pending-count", "pending-texts", "pending-lengths"],
            &["gather"],
        ] {
            let bytes: Vec<u8> = parts.iter().flat_map(|name| self.get(name)).collect();
            got.push(plain_hex(&sha256::sha256(&bytes)[..8]));
        }
        for (name, got) in ["cache", "lengths", "plain", "pending", "gather"].iter().zip(&got) {
            self.agree(&format!("{place} state {name}"), text(state, name), got);
        }
        let record: Vec<String> = self
            .get("record")
            .chunks(8)
            .map(|bytes| bytes.iter().fold(0u64, |sum, byte| sum << 8 | u64::from(*byte)).to_string())
            .collect();
        let expected: Vec<&str> =
            state.get("record").map_or(&[][..], Json::array).iter().filter_map(Json::text).collect();
        self.agree(&format!("{place} state record"), &expected.join(" "), &record.join(" "));
    }
}

/// Whether a step writes this atom list: the tester does, or an accepted packet with a header for it.
fn writes_list(step: &Json, list: &str) -> bool {
    let out = text(step, "out");
    match list {
        _ if text(step, "op") == "fill_lists" => true,
        "plain" => out.starts_with("plain"),
        _ => text(step, "in").starts_with("8345") && (out.starts_with("pending") || out.starts_with("complete")),
    }
}

/// The texts that a list holds after each step, where the vectors tell them: from the step that writes
/// it to the next that does, they are those that the plain packet or the complete sequence has.
fn texts_after<'a>(steps: &'a [Json], list: &str) -> Vec<Option<&'a Json>> {
    let teller = if list == "plain" { "plain" } else { "complete" };
    let mut known = Vec::new();
    for stretch in steps.chunk_by(|_, next| !writes_list(next, list)) {
        let told = stretch.iter().find(|step| text(step, "out").starts_with(teller));
        let texts = told.and_then(|step| step.get("texts"));
        known.extend(stretch.iter().map(|_| texts));
    }
    known
}

/// The connection record of a line or a step.
fn connection(vector: &Json) -> Connection {
    Connection { flags: text(vector, "flags").parse().expect("flags in a vector") }
}

fn text<'a>(vector: &'a Json, key: &str) -> &'a str {
    vector.get(key).and_then(Json::text).unwrap_or("")
}

/// Hex as the vectors have it: nothing for no bytes.
fn plain_hex(bytes: &[u8]) -> String {
    if bytes.is_empty() { String::new() } else { hex(bytes) }
}

fn from_plain_hex(text: &str) -> Vec<u8> {
    if text.is_empty() { Vec::new() } else { unhex(text.as_bytes()).expect("hex in a vector") }
}

/// The vector's bytes as a word of the protocol.
fn word(vector: &Json, key: &str) -> String {
    hex(&from_plain_hex(text(vector, key)))
}

fn main() {
    let mut arguments = std::env::args().skip(1);
    let directory = arguments.next().unwrap_or_else(|| "tests/vectors/data".to_string());
    let target = match arguments.next() {
        None => Target::Here(Box::new(Driver::new())),
        Some(program) => {
            let mut child = Command::new(program)
                .stdin(Stdio::piped())
                .stdout(Stdio::piped())
                .spawn()
                .expect("the program starts");
            let input = child.stdin.take().expect("its input");
            let output = BufReader::new(child.stdout.take().expect("its output"));
            Target::There { _child: child, input, output }
        }
    };
    assert_eq!(plain_hex(&sha256::sha256(b"abc")[..8]), "ba7816bf8f01cfea");
    let mut runner = Runner {
        target,
        connection: AT_THE_START,
        agreements: 0,
        disagreements: 0,
        empty_stretches: 0,
        words: 0,
    };
    let files: [(&str, fn(&mut Runner, &str, &Json)); 4] = [
        ("standalone", Runner::standalone),
        ("payload", Runner::payload),
        ("rows", Runner::rows),
        ("packets", Runner::packets),
    ];
    let (mut agreements, mut disagreements) = (0, 0);
    for (file, run) in files {
        let lines = std::fs::read_to_string(format!("{directory}/{file}.jsonl")).expect("the vectors");
        (runner.agreements, runner.disagreements) = (0, 0);
        let (mut vectors, mut whole) = (0, 0);
        for (i, line) in lines.lines().enumerate() {
            let vector = json::parse(line).expect("JSON");
            let before = runner.disagreements;
            run(&mut runner, &format!("{file}:{} {}", i + 1, text(&vector, "name")), &vector);
            vectors += 1;
            whole += usize::from(runner.disagreements == before);
        }
        println!(
            "{file}: {whole} of {vectors} vectors agree; {} single answers agree, {} disagree",
            runner.agreements, runner.disagreements
        );
        agreements += runner.agreements;
        disagreements += runner.disagreements;
    }
    println!("(empty stretches of empty atoms, compared as `empty`: {})", runner.empty_stretches);
    println!("(words of atom lists asked for: {})", runner.words);
    println!("in all: {agreements} answers agree, {disagreements} disagree");
    std::process::exit(i32::from(disagreements > 0));
}
