//! Maps: the same pairs in other orders, keys that are equal but for order or nearly so, families of keys in every order.

use crate::random::Random;
use crate::shapes;
use crate::values::{self, whole, Pairs, Value};
use border::format::BOTH;
use second::text::empty_list;
use second::{canon, terms, Connection};

/// Most pairs of a map, mostly.
const PAIRS_MOST: usize = 40;

/// The same value, the pairs of its maps in other orders at any depth.
pub fn turned(r: &mut Random, value: &Value) -> Value {
    match value {
        Value::Tuple(elements) => Value::Tuple(all_turned(r, elements)),
        Value::List(elements, tail) => {
            let tail = tail.as_ref().map(|tail| Box::new(turned(r, tail)));
            Value::List(all_turned(r, elements), tail)
        }
        Value::Map(Pairs(pairs)) => {
            let mut pairs: Vec<_> = pairs.iter().map(|(key, value)| (turned(r, key), turned(r, value))).collect();
            reorder(r, &mut pairs);
            Value::Map(Pairs(pairs))
        }
        _ => value.clone(),
    }
}

fn all_turned(r: &mut Random, values: &[Value]) -> Vec<Value> {
    values.iter().map(|value| turned(r, value)).collect()
}

/// Kept, turned round, the first or the last moved to the other end, two exchanged, or mixed.
fn reorder<T>(r: &mut Random, items: &mut [T]) {
    let count = items.len();
    if count < 2 {
        return;
    }
    match r.below(8) {
        0 => (),
        1 => items.reverse(),
        2 => items.rotate_left(1),
        3 => items.rotate_right(1),
        4 => items.swap(count - 2, count - 1),
        5 => items.swap(r.below(count), r.below(count)),
        _ => (1..count).for_each(|i| items.swap(i, r.below(i + 1))),
    }
}

/// The value changed in one place, so that it means something else; no key of a map becomes another one.
pub fn altered(r: &mut Random, value: &Value) -> Value {
    match value {
        Value::Tuple(elements) if !elements.is_empty() => Value::Tuple(one_altered(r, elements)),
        Value::List(elements, tail) if !elements.is_empty() => Value::List(one_altered(r, elements), tail.clone()),
        Value::Map(pairs) if !pairs.0.is_empty() => Value::Map(pair_altered(r, pairs.clone())),
        Value::Float(bits) => Value::Float(bits ^ 1),
        Value::Bits(bytes, 8) => Value::Bits([&bytes[..], &[0]].concat(), 8),
        Value::Integer { negative, digits } if digits.len() > 1 => {
            let mut digits = digits.clone();
            digits[0] ^= 1;
            Value::Integer { negative: *negative, digits }
        }
        Value::Integer { digits, .. } if digits.is_empty() => whole(1),
        Value::Pid { node, id, serial, creation } => Value::Pid { node: node.clone(), id: *id, serial: *serial, creation: creation ^ 1 },
        Value::Reference { node, creation, words } => {
            let (mut words, last) = (words.clone(), words.len() - 1);
            words[last] ^= 1 << 16;
            Value::Reference { node: node.clone(), creation: *creation, words }
        }
        Value::Atom(text) if text.is_empty() => Value::Atom("b".into()),
        _ => Value::Atom(String::new()),
    }
}

fn one_altered(r: &mut Random, values: &[Value]) -> Vec<Value> {
    let mut values = values.to_vec();
    let at = r.below(values.len());
    values[at] = altered(r, &values[at]);
    values
}

/// One key, if it stays another than all others, or one value.
fn pair_altered(r: &mut Random, mut pairs: Pairs) -> Pairs {
    let at = r.below(pairs.0.len());
    let key = altered(r, &pairs.0[at].0);
    if r.one_in(2) && !pairs.has_key(&key) {
        pairs.0[at].0 = key;
    } else {
        pairs.0[at].1 = altered(r, &pairs.0[at].1);
    }
    pairs
}

/// What tells the keys of a family apart.
#[derive(Clone, Copy)]
enum Telling {
    Integers,
    /// integers whose low and high 32 bits have one sum
    Halves,
    Atoms,
    Binaries,
    Bits,
    Floats,
    Tuples,
    Lists,
    Creations,
    Ports,
    Words,
    Exports,
    MapValues,
    MapKeys,
}

const TELLING: [Telling; 14] = [
    Telling::Integers,
    Telling::Halves,
    Telling::Atoms,
    Telling::Binaries,
    Telling::Bits,
    Telling::Floats,
    Telling::Tuples,
    Telling::Lists,
    Telling::Creations,
    Telling::Ports,
    Telling::Words,
    Telling::Exports,
    Telling::MapValues,
    Telling::MapKeys,
];

/// Keys that are the same but for one place, which a number fills.
struct Family {
    telling: Telling,
    /// how much that is the same stands before that place, and after it
    before: usize,
    after: usize,
    step: i128,
    /// the layers around all of them
    levels: usize,
    layers: u64,
}

impl Family {
    /// A family of so many keys.
    fn any(r: &mut Random, count: usize) -> Family {
        let mut beside = || r.pick(&[0, 0, 1, 2, 15, 16, 17, 31, 32, 33, 126]) * PAIRS_MOST / count.max(PAIRS_MOST);
        let (before, after) = (beside(), beside());
        let levels = if r.one_in(2) { 0 } else { r.between(1, 4) };
        let step = r.pick(&[1, 60, 1 << 24, 1 << 32, (1 << 40) + 1]);
        Family { telling: r.pick(&TELLING), before, after, step, levels, layers: r.next() }
    }

    fn key(&self, number: usize) -> Value {
        values::nested(&mut Random::new(self.layers, 0), self.inmost(number), self.levels)
    }

    fn inmost(&self, number: usize) -> Value {
        let (own, node, bytes) = ((number as i128 - 3) * self.step, String::from("n"), (number as u16).to_be_bytes());
        match self.telling {
            Telling::Integers => whole(own),
            Telling::Halves => whole((number as i128) << 32 | (0xffff_ffff - number as i128)),
            Telling::Atoms => Value::Atom("\u{e9}".repeat(self.before) + &letters(number)),
            Telling::Binaries => Value::Bits([&vec![7; self.before][..], &bytes, &vec![7; self.after]].concat(), 8),
            Telling::Bits => Value::Bits([&vec![7; self.before][..], &bytes, &[128]].concat(), 1 + number as u8 % 7),
            Telling::Floats => Value::Float((number as u64) << (self.before % 40)),
            Telling::Tuples => Value::Tuple(self.elements(whole(own))),
            Telling::Lists => Value::List(self.elements(whole(number as i128)), None),
            Telling::Creations => Value::Pid { node, id: 1, serial: 1, creation: (number as u32) << (self.before % 20) },
            Telling::Ports => Value::Port { node, id: (number as u64) << (self.before % 50), creation: 1 },
            Telling::Words => Value::Reference { node, creation: 1, words: vec![7, number as u32] },
            Telling::Exports => Value::Export { module: letters(number), function: node, arity: 1 },
            Telling::MapValues => self.map((whole(0), whole(own))),
            Telling::MapKeys => self.map((whole(number as i128), whole(0))),
        }
    }

    fn elements(&self, own: Value) -> Vec<Value> {
        let beside = |count: usize| vec![whole(5); count % 64];
        [beside(self.before), vec![own], beside(self.after)].concat()
    }

    /// A pair, and some that all of the family have.
    fn map(&self, own: (Value, Value)) -> Value {
        let mut pairs: Vec<_> = (0..self.before % 5).map(|i| (whole(-1 - i as i128), whole(0))).collect();
        pairs.insert(self.after % (pairs.len() + 1), own);
        Value::Map(Pairs(pairs))
    }
}

/// A text for each number, the shorter ones first.
fn letters(number: usize) -> String {
    let (mut text, mut left) = (String::new(), number + 1);
    while left > 0 {
        text.push(['a', 'b', '\u{e9}'][(left - 1) % 3]);
        left = (left - 1) / 3;
    }
    text
}

/// So many keys, or fewer, that all differ: a family, the texts of the list, or any.
fn keys(r: &mut Random, texts: &[String], count: usize) -> Vec<Value> {
    let some: Vec<Value> = match r.below(6) {
        0 => texts.iter().take(count).map(|text| Value::Atom(text.clone())).collect(),
        1 => (0..count.min(12)).map(|_| values::key(r, texts, 4)).collect(),
        _ => {
            let family = Family::any(r, count);
            return (0..count).map(|number| family.key(number)).collect();
        }
    };
    let mut kept = Vec::new();
    some.into_iter().for_each(|key| {
        if !kept.contains(&key) {
            kept.push(key);
        }
    });
    kept
}

/// The canonical form of a value.
fn written(r: &mut Random, value: &Value) -> Vec<u8> {
    let message = shapes::encoded(r, &[], value).bytes;
    canon::canonical(Connection { flags: BOTH }, terms::Form::Payload, &message, &empty_list(), shapes::ROWS_MOST).unwrap_or_default()
}

/// Rising by what is written of them, then changed or not.
fn ordered(r: &mut Random, keys: Vec<Value>) -> Vec<Value> {
    let mut forms: Vec<(Vec<u8>, Value)> = keys.into_iter().map(|key| (written(r, &key), key)).collect();
    forms.sort_by(|one, other| one.0.cmp(&other.0));
    reorder(r, &mut forms);
    forms.into_iter().map(|(_, key)| key).collect()
}

/// A value of a pair: a number mostly, else any or a map.
fn held(r: &mut Random, texts: &[String]) -> Value {
    match r.below(12) {
        0 => values::value(r, texts, 6),
        1 => {
            let count = r.between(2, 4);
            pairs_of(r, count)
        }
        _ => whole(r.below(300) as i128),
    }
}

/// A map of so many pairs of a family.
fn pairs_of(r: &mut Random, count: usize) -> Value {
    let family = Family::any(r, count);
    let mut pairs: Vec<_> = (0..count).map(|number| (family.key(number), whole(r.below(9) as i128))).collect();
    reorder(r, &mut pairs);
    Value::Map(Pairs(pairs))
}

/// 2 to 40, now and then some hundreds.
fn count(r: &mut Random) -> usize {
    match r.below(600) {
        0 => r.between(100, 300),
        1..=120 => r.between(9, PAIRS_MOST),
        _ => r.between(2, 8),
    }
}

/// A map whose keys rise, fall or are mixed.
fn map(r: &mut Random, texts: &[String]) -> Value {
    let count = count(r);
    let keys = keys(r, texts, count);
    let keys = ordered(r, keys);
    Value::Map(Pairs(keys.into_iter().map(|key| (key, held(r, texts))).collect()))
}

/// A map with a key that holds a map, and later the same key in other orders, or one that is nearly the same.
fn like_keys(r: &mut Random) -> Value {
    let (count, levels) = if r.one_in(20) { (2, r.between(5, 63)) } else { (count(r), r.below(5)) };
    let inmost = pairs_of(r, count);
    let first = values::nested(r, inmost, levels);
    let mut later = turned(r, &first);
    if r.one_in(2) {
        later = altered(r, &later);
    }
    let mut keys = vec![first, later];
    for number in 0..r.below(4) {
        let at = r.below(keys.len() + 1);
        keys.insert(at, whole(number as i128));
    }
    Value::Map(Pairs(keys.into_iter().map(|key| (key, whole(r.below(3) as i128))).collect()))
}

/// A map, alone or in something.
pub fn value(r: &mut Random, texts: &[String]) -> Value {
    let inmost = if r.one_in(3) { like_keys(r) } else { map(r, texts) };
    let levels = if r.one_in(2) { 0 } else { r.between(1, 3) };
    values::nested(r, inmost, levels)
}
