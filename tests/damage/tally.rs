//! What the run met, and what disagreed.

use crate::flags;

/// The calls, by what they do.
#[derive(Clone, Copy, Debug, PartialEq)]
pub enum Call {
    Read,
    Write,
    Number,
    Text,
    Mark,
    Packet,
    Drop,
    Reset,
    Word,
}

const CALLS: [Call; 9] =
    [Call::Read, Call::Write, Call::Number, Call::Text, Call::Mark, Call::Packet, Call::Drop, Call::Reset, Call::Word];

/// One over the highest refusal number.
const NUMBERS: usize = 27;
const SHOWN_MOST: u64 = 10;
const HEX_MOST: usize = 4096;

pub struct Tally {
    seed: u64,
    case: u64,
    /// for each call the answers of this case, a bit each (bit 0: accepted)
    met: [u32; CALLS.len()],
    cases_met: [[u64; NUMBERS]; CALLS.len()],
    /// for each call how often it accepted with each known byte of flags, and how often it was asked with an unknown flag
    by_flags: [[u64; flags::KNOWN + 1]; CALLS.len()],
    /// how many messages with newer identifiers were refused for them, and accepted
    newer: [u64; 2],
    /// how many messages were refused for equal keys that were made so
    equal_keys: u64,
    /// how many messages had a twin that means the same, and one that does not
    twins: [u64; 2],
    pub calls: u64,
    case_failed: bool,
    shown: u64,
    pub passed: u64,
    pub failed: u64,
}

pub fn hex(bytes: &[u8]) -> String {
    let mut text: String = bytes.iter().take(HEX_MOST).map(|byte| format!("{byte:02x}")).collect();
    if bytes.len() > HEX_MOST {
        text += &format!(".. ({} bytes)", bytes.len());
    }
    text
}

impl Tally {
    pub fn new(seed: u64) -> Tally {
        let met = [0; CALLS.len()];
        let cases_met = [[0; NUMBERS]; CALLS.len()];
        let by_flags = [[0; flags::KNOWN + 1]; CALLS.len()];
        Tally {
            seed,
            case: 0,
            met,
            cases_met,
            by_flags,
            newer: [0; 2],
            equal_keys: 0,
            twins: [0; 2],
            calls: 0,
            case_failed: false,
            shown: 0,
            passed: 0,
            failed: 0,
        }
    }

    pub fn begin(&mut self, case: u64) {
        self.case = case;
        self.met = [0; CALLS.len()];
        self.case_failed = false;
    }

    pub fn end(&mut self) {
        for (met, counts) in self.met.iter().zip(&mut self.cases_met) {
            for (number, count) in counts.iter_mut().enumerate() {
                *count += u64::from(met >> number & 1);
            }
        }
        self.passed += u64::from(!self.case_failed);
        self.failed += u64::from(self.case_failed);
    }

    /// An answer of a call with these flags: 0 accepted, or the refusal.
    pub fn met(&mut self, call: Call, flags: u8, refusal: u64) {
        self.met_without_flags(call, refusal);
        if refusal == 0 || !flags::is_known(flags) {
            self.by_flags[call as usize][usize::from(flags).min(flags::KNOWN)] += 1;
        }
    }

    /// A message as it was made, with newer identifiers or not: 0 accepted, or the refusal.
    pub fn met_made(&mut self, newer: bool, refusal: u64) {
        match refusal {
            0 => self.newer[1] += u64::from(newer),
            4 => self.newer[0] += 1,
            7 => self.equal_keys += 1,
            _ => (),
        }
    }

    pub fn met_twins(&mut self, same: bool) {
        self.twins[usize::from(!same)] += 1;
    }

    /// An answer of the call that takes no flags.
    pub fn met_without_flags(&mut self, call: Call, refusal: u64) {
        self.calls += 1;
        self.met[call as usize] |= 1 << refusal.min(NUMBERS as u64 - 1);
    }

    /// Counts a disagreement unless `same`; the first ones are printed.
    pub fn check(&mut self, call: Call, same: bool, what: impl Fn() -> String) {
        if same {
            return;
        }
        self.case_failed = true;
        self.shown += 1;
        if self.shown <= SHOWN_MOST {
            println!("DISAGREE seed {} case {} {call:?}: {}", self.seed, self.case, what());
        }
    }

    /// What was not met: answers that a call can give, by its own list in document 01; flags; newer identifiers; equal keys; twins.
    pub fn unmet(&self) -> Vec<String> {
        let mut unmet = self.unmet_answers();
        for (call, counts) in CALLS.iter().zip(&self.by_flags).filter(|(call, _)| **call != Call::Reset) {
            let flags = (0..counts.len()).filter(|flags| counts[*flags] == 0);
            unmet.extend(flags.map(|flags| format!("{call:?} with flags {flags}")));
        }
        if self.newer.contains(&0) {
            unmet.push(format!("newer identifiers refused and accepted: {:?}", self.newer));
        }
        if self.equal_keys == 0 || self.twins.contains(&0) {
            unmet.push(format!("equal keys {}, twins that mean the same, and others {:?}", self.equal_keys, self.twins));
        }
        unmet
    }

    fn unmet_answers(&self) -> Vec<String> {
        let terms: &[usize] = &[0, 1, 2, 3, 4, 5, 6, 7, 8, 9, 10, 12, 13, 14];
        let mut unmet = Vec::new();
        for call in CALLS {
            let answers = match call {
                Call::Read | Call::Number | Call::Mark => terms,
                Call::Write => &[0, 1, 2, 3, 4, 5, 6, 7, 8, 9, 10, 11, 12, 13, 14],
                Call::Text => &[0],
                Call::Packet => &[0, 1, 2, 5, 12, 13, 14, 20, 21, 22, 23, 24, 25, 26],
                Call::Drop => &[0, 14, 25],
                Call::Reset => &[0, 13],
                Call::Word => &[0, 6, 13, 14],
            };
            let counts = &self.cases_met[call as usize];
            unmet.extend(answers.iter().filter(|n| counts[**n] == 0).map(|n| format!("{call:?} {n}")));
        }
        unmet
    }

    /// The table: in how many cases each call gave each answer.
    pub fn print(&self) {
        println!("cases in which a call gave an answer (0: accepted)");
        print!("{:>6}", "answer");
        CALLS.iter().for_each(|call| print!("{:>10}", format!("{call:?}")));
        println!();
        for number in 0..NUMBERS {
            if self.cases_met.iter().all(|counts| counts[number] == 0) {
                continue;
            }
            print!("{number:>6}");
            self.cases_met.iter().for_each(|counts| print!("{:>10}", counts[number]));
            println!();
        }
        println!("calls accepted with flags 0 to {}, and calls with an unknown flag", flags::KNOWN - 1);
        for flags in 0..=flags::KNOWN {
            print!("{flags:>6}");
            self.by_flags.iter().for_each(|counts| print!("{:>10}", counts[flags]));
            println!();
        }
        println!("messages refused for newer identifiers {}, accepted with them {}", self.newer[0], self.newer[1]);
        println!("messages refused for equal keys as made {}, twins that mean the same and others {:?}", self.equal_keys, self.twins);
    }
}
