//! Sessions: many packets over one memory, plain ones and fragments, damaged ones among them; a refusal does not end a session.

use crate::flags;
use crate::generate::{Encoded, Role};
use crate::headers::{self, Header};
use crate::memory::{self, Memory};
use crate::messages::{self, Messages};
use crate::random::Random;
use crate::tally::Tally;
use crate::twin::Twin;
use crate::{mutate, shapes};
use border::Form;
use second::packets::Record;
use std::collections::VecDeque;

const PACKET_MOST: usize = 260_000;

/// What a session knows of itself as a sender.
#[derive(Default)]
struct Sender {
    /// the flags agreed on
    flags: u8,
    /// whether they change from call to call
    changing: bool,
    /// the places that were filled, with their texts
    known: Vec<(usize, String)>,
    /// the fragments still to come, in order
    queue: VecDeque<Encoded>,
    sent: Vec<Vec<u8>>,
}

/// A packet to be sent, and what follows if it is accepted.
struct Step {
    packet: Encoded,
    filled: Vec<(usize, String)>,
    rest: VecDeque<Encoded>,
    from_queue: bool,
}

fn alone(packet: Encoded) -> Step {
    Step { packet, filled: Vec::new(), rest: VecDeque::new(), from_queue: false }
}

/// 131, the packet's kind, and the two ids of a fragment.
fn opening(kind: u8, ids: Option<(u64, u64)>) -> Encoded {
    let mut out = Encoded::default();
    out.tag(131);
    out.tag(kind);
    if let Some((sequence, fragment)) = ids {
        out.number(Role::Field, sequence, 8);
        out.number(Role::Length, fragment, 8);
    }
    out
}

/// Terms with the texts of a header; now and then about as many bytes as can be gathered.
fn payload(r: &mut Random, texts: &[String]) -> Vec<u8> {
    match r.below(300) {
        0 => shapes::many_bytes(r, 0).bytes,
        1..=10 => Vec::new(),
        _ => messages::message(r, Form::Payload, texts).bytes,
    }
}

impl Sender {
    /// The flags of a call: those agreed on, save now and then other ones, unknown ones among them.
    fn flags(&mut self, r: &mut Random) -> u8 {
        if self.changing {
            self.flags = flags::any(r);
        }
        match r.below(40) {
            0 => flags::unknown(r),
            1 => flags::any(r),
            _ => self.flags,
        }
    }

    fn header(&self, r: &mut Random) -> Header {
        let utf8 = flags::is_utf8(self.flags);
        if r.one_in(6) {
            headers::faulty(r, &self.known, utf8)
        } else {
            headers::valid(r, &self.known, utf8)
        }
    }

    fn plain(&self, r: &mut Random) -> Step {
        let header = self.header(r);
        let mut packet = opening(68, None);
        packet.append(&header.out);
        packet.bytes.extend(payload(r, &header.texts));
        Step { filled: header.filled, ..alone(packet) }
    }

    /// A sequence: the start to be sent, its other fragments to follow.
    fn start(&self, r: &mut Random) -> Step {
        let header = self.header(r);
        let payload = payload(r, &header.texts);
        let total = r.between(1, 5) as u64;
        let sequence = r.pick(&[0, 1, 2, 1 << 40, u64::MAX]);
        let first = if r.one_in(60) { r.pick(&[0, u64::MAX, 1 << 32]) } else { total };
        let mut packet = opening(69, Some((sequence, first)));
        packet.append(&header.out);
        let mut rest = VecDeque::new();
        let mut at = if total == 1 { payload.len() } else { r.below(payload.len() + 1) };
        packet.bytes.extend_from_slice(&payload[..at]);
        for fragment in (1..total).rev() {
            let end = if fragment == 1 { payload.len() } else { r.between(at, payload.len()) };
            let mut next = opening(70, Some((sequence, fragment)));
            next.bytes.extend_from_slice(&payload[at..end]);
            rest.push_back(next);
            at = end;
        }
        Step { filled: header.filled, rest, ..alone(packet) }
    }

    /// The fragment that is due, or a plain packet where none is.
    fn next_fragment(&self, r: &mut Random) -> Step {
        match self.queue.front() {
            Some(packet) => Step { from_queue: true, ..alone(packet.clone()) },
            None => self.plain(r),
        }
    }

    /// A fragment that is not due, or of another sequence, or a packet sent before.
    fn wrong_fragment(&self, r: &mut Random) -> Step {
        if !self.sent.is_empty() && r.one_in(2) {
            let bytes = self.sent[r.below(self.sent.len())].clone();
            return alone(Encoded { bytes, ..Encoded::default() });
        }
        if self.queue.len() > 1 && r.one_in(2) {
            return alone(self.queue[r.between(1, self.queue.len() - 1)].clone());
        }
        let ids = (r.below(3) as u64, r.below(4) as u64);
        let mut packet = opening(r.pick(&[69, 70, 70]), Some(ids));
        let count = r.below(6);
        packet.bytes.extend(r.bytes(count));
        alone(packet)
    }

    fn step(&self, r: &mut Random) -> Step {
        let mut step = match r.below(20) {
            0..=6 => self.plain(r),
            7..=10 => self.start(r),
            11..=16 => self.next_fragment(r),
            _ => self.wrong_fragment(r),
        };
        if r.one_in(4) {
            mutate::damage(r, &mut step.packet);
        }
        step
    }

    /// After an accepted packet.
    fn accepted(&mut self, step: Step, kind: u64) {
        self.known.retain(|(place, _)| step.filled.iter().all(|(filled, _)| filled != place));
        self.known.extend(step.filled);
        if step.from_queue {
            self.queue.pop_front();
        } else if kind != 1 {
            self.queue = step.rest;
        }
    }
}

pub struct Sessions {
    memory: Memory,
    packet: Twin<u8>,
}

impl Sessions {
    pub fn new() -> Sessions {
        Sessions { memory: Memory::new(), packet: Twin::new(PACKET_MOST) }
    }

    /// One session. Its memory is made ready by a reset, save now and then.
    pub fn case(&mut self, r: &mut Random, messages: &mut Messages, tally: &mut Tally) {
        self.memory.garbage(r);
        if !r.one_in(20) {
            self.memory.reset(tally);
        }
        let mut sender = Sender { flags: flags::known(r), changing: r.one_in(8), ..Sender::default() };
        for _ in 0..r.between(3, 16) {
            match r.below(40) {
                0 | 1 => self.drop_pending(r, &mut sender, tally),
                2 => self.reset(r, &mut sender, tally),
                3 | 4 => self.falsify(r, &mut sender, tally),
                5 => self.with_false_record(r, &mut sender, messages, tally),
                6 => self.with_wrong_size(r, &mut sender, messages, tally),
                _ => self.send(r, &mut sender, messages, tally),
            }
        }
    }

    /// A drop, one in four with an unknown flag, now and then of a false record.
    fn drop_pending(&mut self, r: &mut Random, sender: &mut Sender, tally: &mut Tally) {
        let flags = if r.one_in(4) { flags::unknown(r) } else { sender.flags(r) };
        let kept = self.memory.record();
        if r.one_in(8) {
            self.memory.set_record(Record { gathered: 65_537, ..kept });
        }
        if self.memory.drop_pending(flags, tally) {
            sender.queue.clear();
        } else {
            self.memory.set_record(kept);
        }
    }

    fn reset(&mut self, r: &mut Random, sender: &mut Sender, tally: &mut Tally) {
        if r.one_in(3) {
            self.memory.wrong_size(r);
        }
        if self.memory.reset(tally) {
            sender.queue.clear();
            sender.known.clear();
        }
        self.memory.right_sizes();
    }

    /// A filled place emptied, given a length over 32, or a text that is none; a list false; or odd leftovers in the record.
    fn falsify(&mut self, r: &mut Random, sender: &mut Sender, tally: &mut Tally) {
        let place = match sender.known.len() {
            0 => r.below(memory::CACHE_PLACES),
            count => sender.known[r.below(count)].0,
        };
        let length = r.pick(&[33, 32, 255, 65_534, 65_535]);
        let byte = r.pick(&[255, 128, 0xc3, 0xe0]);
        match r.below(7) {
            0 | 1 => self.memory.cache_lengths.edit(|lent| lent[place] = length),
            2 => self.memory.cache.edit(|lent| lent[32 * place] = byte),
            3 => self.memory.cache.edit(|lent| lent[32 * place + 31] = byte),
            4 => self.memory.plain.falsify(r),
            5 => self.memory.pending.falsify(r),
            _ if self.memory.record().due == 0 => {
                let gathered = r.pick(&[1, 65_535, 65_536]);
                self.memory.set_record(Record { sequence: r.next(), due: 0, gathered });
            }
            _ => (),
        }
        let flags = sender.flags(r);
        self.words(r, flags, tally);
    }

    /// A packet while the record is false, or gathered up to the end.
    fn with_false_record(&mut self, r: &mut Random, sender: &mut Sender, messages: &mut Messages, tally: &mut Tally) {
        let kept = self.memory.record();
        let gathered = r.pick(&[65_536, 65_535, 65_537, 65_538, u64::MAX, 1 << 32]);
        self.memory.set_record(Record { gathered, ..kept });
        self.send(r, sender, messages, tally);
        if self.memory.record().gathered == gathered {
            self.memory.set_record(kept);
        }
    }

    fn with_wrong_size(&mut self, r: &mut Random, sender: &mut Sender, messages: &mut Messages, tally: &mut Tally) {
        self.memory.wrong_size(r);
        let flags = if r.one_in(3) { flags::unknown(r) } else { sender.flags(r) };
        self.send_with(r, flags, sender, messages, tally);
        self.memory.right_sizes();
    }

    fn send(&mut self, r: &mut Random, sender: &mut Sender, messages: &mut Messages, tally: &mut Tally) {
        let flags = sender.flags(r);
        self.send_with(r, flags, sender, messages, tally);
    }

    /// One packet with these flags, the words of both lists after it, and its payload read where there is one.
    fn send_with(&mut self, r: &mut Random, flags: u8, sender: &mut Sender, messages: &mut Messages, tally: &mut Tally) {
        let step = sender.step(r);
        self.packet.hold(&step.packet.bytes);
        let answer = self.memory.packet(flags, &self.packet, tally);
        self.words(r, flags, tally);
        sender.sent.push(step.packet.bytes.clone());
        if answer.refusal != 0 {
            return;
        }
        let (payload, list) = match answer.kind {
            1 => (step.packet.bytes.get(answer.offset as usize..), &self.memory.plain),
            _ => (self.memory.gather.other().get(..answer.gathered as usize), &self.memory.pending),
        };
        if let (1 | 3, Some(payload)) = (answer.kind, payload) {
            messages.payload(r, flags, payload, list.twin(), tally);
        }
        sender.accepted(step, answer.kind);
    }

    /// Words by both lists.
    fn words(&self, r: &mut Random, flags: u8, tally: &mut Tally) {
        self.memory.plain.twin().words(r, flags, tally);
        self.memory.pending.twin().words(r, flags, tally);
    }
}
