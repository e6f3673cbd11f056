//! The exports of include/ikparumo.h, their structs, and one safe call for each. Flags: the connection's, bits `UTF8` and `V4_NC` of
//! `format`.

/// How a message stands: 131 and one term, or one or two terms.
#[derive(Clone, Copy, Debug, PartialEq, Eq)]
pub enum Form {
    Standalone,
    Payload,
}

#[repr(C)]
#[derive(Clone, Copy, Debug, Default, PartialEq)]
pub struct ReadReply {
    pub refusal: u64,
    pub place: u64,
    pub terms: u64,
    pub rows: u64,
}

#[repr(C)]
#[derive(Clone, Copy, Debug, Default, PartialEq)]
pub struct WriteReply {
    pub refusal: u64,
    pub place: u64,
    pub terms: u64,
    pub length: u64,
}

#[repr(C)]
#[derive(Clone, Copy, Debug, Default)]
pub struct NumberReply {
    pub refusal: u64,
    pub place: u64,
    pub kind: u64,
    pub integer: i64,
    pub real: f64,
}

/// Floats are the same where their 64 bits are.
impl PartialEq for NumberReply {
    fn eq(&self, other: &NumberReply) -> bool {
        let all = |n: &NumberReply| (n.refusal, n.place, n.kind, n.integer, n.real.to_bits());
        all(self) == all(other)
    }
}

#[repr(C)]
#[derive(Clone, Copy, Debug, Default, PartialEq)]
pub struct TextReply {
    pub from: u64,
    pub start: u64,
    pub length: u64,
}

#[repr(C)]
#[derive(Clone, Copy, Debug, Default, PartialEq)]
pub struct MarkReply {
    pub refusal: u64,
    pub place: u64,
    pub mark: u64,
}

#[repr(C)]
#[derive(Clone, Copy, Debug, Default, PartialEq)]
pub struct Pending {
    pub sequence: u64,
    pub due: u64,
    pub gathered: u64,
}

#[repr(C)]
#[derive(Clone, Copy, Debug, Default, PartialEq)]
pub struct PacketReply {
    pub refusal: u64,
    pub place: u64,
    pub kind: u64,
    pub offset: u64,
    pub length: u64,
    pub due: u64,
    pub gathered: u64,
}

#[repr(C)]
#[derive(Clone, Copy, Debug, Default, PartialEq)]
pub struct StateReply {
    pub refusal: u64,
    pub place: u64,
}

#[repr(C)]
#[derive(Clone, Copy, Debug, Default, PartialEq)]
pub struct WordReply {
    pub refusal: u64,
    pub place: u64,
    pub start: u64,
    pub length: u64,
}

/// An atom list lent for reading.
#[derive(Clone, Copy, Debug)]
pub struct AtomList<'a> {
    pub n: u8,
    pub places: &'a [u8],
    pub lengths: &'a [u16],
}

/// An atom list lent to be written.
pub struct ListOut<'a> {
    pub n: &'a mut u8,
    pub places: &'a mut [u8],
    pub lengths: &'a mut [u16],
}

/// All that is lent to the packet call.
pub struct Lent<'a> {
    pub cache: &'a mut [u8],
    pub cache_lengths: &'a mut [u16],
    pub plain: ListOut<'a>,
    pub pending: ListOut<'a>,
    pub record: &'a mut Pending,
    pub gather: &'a mut [u8],
}

/// The flags, a message with an atom list, then `$more`, as the ten calls on terms take them.
macro_rules! on_a_message {
    ($($name:ident($($more:ident: $kind:ty),*) -> $answer:ty;)*) => {
        extern "C" {
            $(fn $name(flags: u8, msg: *const u8, msg_len: usize, n: u8, places: *const u8, places_len: usize, lengths: *const u16,
                       lengths_len: usize, $($more: $kind),*) -> $answer;)*
        }
    };
}

on_a_message! {
    ik_read_standalone(table: *mut u64, table_len: usize) -> ReadReply;
    ik_read_payload(table: *mut u64, table_len: usize) -> ReadReply;
    ik_write_standalone(scratch: *mut u64, scratch_len: usize, output: *mut u8, output_len: usize) -> WriteReply;
    ik_write_payload(scratch: *mut u64, scratch_len: usize, output: *mut u8, output_len: usize) -> WriteReply;
    ik_number_standalone(row: usize) -> NumberReply;
    ik_number_payload(row: usize) -> NumberReply;
    ik_text_standalone(offset: usize) -> TextReply;
    ik_text_payload(offset: usize) -> TextReply;
    ik_mark_standalone(offset: usize) -> MarkReply;
    ik_mark_payload(offset: usize) -> MarkReply;
}

extern "C" {
    fn ik_packet(
        flags: u8,
        packet: *const u8,
        packet_len: usize,
        cache: *mut u8,
        cache_len: usize,
        cache_lengths: *mut u16,
        cache_lengths_len: usize,
        plain_n: *mut u8,
        plain_places: *mut u8,
        plain_places_len: usize,
        plain_lengths: *mut u16,
        plain_lengths_len: usize,
        pending_n: *mut u8,
        pending_places: *mut u8,
        pending_places_len: usize,
        pending_lengths: *mut u16,
        pending_lengths_len: usize,
        pending: *mut Pending,
        gather: *mut u8,
        gather_len: usize,
    ) -> PacketReply;
    fn ik_drop(flags: u8, pending: *mut Pending) -> StateReply;
    fn ik_reset(cache: *mut u8, cache_len: usize, cache_lengths: *mut u16, cache_lengths_len: usize, pending: *mut Pending) -> StateReply;
    fn ik_word(flags: u8, n: u8, places: *const u8, places_len: usize, lengths: *const u16, lengths_len: usize, index: usize) -> WordReply;
}

/// One of two calls on terms, with the flags, the message, the list and `$more`.
macro_rules! call {
    ($form:expr, $standalone:ident, $payload:ident, $flags:expr, $msg:expr, $list:expr, $($more:expr),*) => {{
        let call = match $form {
            Form::Standalone => $standalone,
            Form::Payload => $payload,
        };
        let (msg, list): (&[u8], &AtomList) = ($msg, $list);
        // SAFETY: each pointer goes with its slice's length, and what is written is lent by `&mut`.
        unsafe {
            call($flags, msg.as_ptr(), msg.len(), list.n, list.places.as_ptr(), list.places.len(), list.lengths.as_ptr(),
                 list.lengths.len(), $($more),*)
        }
    }};
}

pub fn read(flags: u8, form: Form, msg: &[u8], list: &AtomList, table: &mut [u64]) -> ReadReply {
    call!(form, ik_read_standalone, ik_read_payload, flags, msg, list, table.as_mut_ptr(), table.len())
}

pub fn write(flags: u8, form: Form, msg: &[u8], list: &AtomList, scratch: &mut [u64], output: &mut [u8]) -> WriteReply {
    let (table, rows, bytes, room) = (scratch.as_mut_ptr(), scratch.len(), output.as_mut_ptr(), output.len());
    call!(form, ik_write_standalone, ik_write_payload, flags, msg, list, table, rows, bytes, room)
}

pub fn number(flags: u8, form: Form, msg: &[u8], list: &AtomList, row: usize) -> NumberReply {
    call!(form, ik_number_standalone, ik_number_payload, flags, msg, list, row)
}

pub fn text(flags: u8, form: Form, msg: &[u8], list: &AtomList, offset: usize) -> TextReply {
    call!(form, ik_text_standalone, ik_text_payload, flags, msg, list, offset)
}

pub fn mark(flags: u8, form: Form, msg: &[u8], list: &AtomList, offset: usize) -> MarkReply {
    call!(form, ik_mark_standalone, ik_mark_payload, flags, msg, list, offset)
}

pub fn packet(flags: u8, packet: &[u8], lent: &mut Lent) -> PacketReply {
    let Lent { cache, cache_lengths, plain, pending, record, gather } = lent;
    // SAFETY: each pointer goes with its slice's length, and what is written is lent by `&mut`.
    unsafe {
        ik_packet(
            flags,
            packet.as_ptr(),
            packet.len(),
            cache.as_mut_ptr(),
            cache.len(),
            cache_lengths.as_mut_ptr(),
            cache_lengths.len(),
            plain.n,
            plain.places.as_mut_ptr(),
            plain.places.len(),
            plain.lengths.as_mut_ptr(),
            plain.lengths.len(),
            pending.n,
            pending.places.as_mut_ptr(),
            pending.places.len(),
            pending.lengths.as_mut_ptr(),
            pending.lengths.len(),
            *record,
            gather.as_mut_ptr(),
            gather.len(),
        )
    }
}

pub fn drop_pending(flags: u8, record: &mut Pending) -> StateReply {
    // SAFETY: a record lent by `&mut`.
    unsafe { ik_drop(flags, record) }
}

pub fn reset(cache: &mut [u8], lengths: &mut [u16], record: &mut Pending) -> StateReply {
    // SAFETY: each pointer goes with its slice's length, and what is written is lent by `&mut`.
    unsafe { ik_reset(cache.as_mut_ptr(), cache.len(), lengths.as_mut_ptr(), lengths.len(), record) }
}

pub fn word(flags: u8, list: &AtomList, index: usize) -> WordReply {
    // SAFETY: each pointer goes with its slice's length.
    unsafe { ik_word(flags, list.n, list.places.as_ptr(), list.places.len(), list.lengths.as_ptr(), list.lengths.len(), index) }
}
