//! Random lines for `vectors`: the algorithms on random, extreme and damaged operands, the key messages about the edges of their
//! numbers, texts as long as they may be, and all pairs of slots.

use crate::algorithms::{MAX_BITS, MAX_BLOCKS};
use crate::draw::{self, allowed_pair};
use crate::messages::{update, FirstBlock, Head, MAX_COUNTER};
use crate::modes::blocks_of_bits;
use crate::random::Random;
use crate::text::hex;

/// The first portions hold all pairs of slots, so many targets each. Those after them come in turns of fourteen.
const SWEEPS: u64 = 8;
const TARGETS: u64 = 256 / SWEEPS;

pub fn portion(seed: u64, number: u64) -> String {
    if number < SWEEPS {
        let targets = TARGETS * number..TARGETS * (number + 1);
        return draw::portion(targets.flat_map(all_of_target));
    }
    let mut random = Random::of_part(seed, number);
    let style = match number % 14 {
        0..=4 => PLAIN,
        5 => EXTREME,
        6..=8 => DAMAGED,
        9..=12 => MESSAGES,
        _ => LONG,
    };
    draw::portion((0..style.lines).map(|_| line(&style, &mut random)))
}

/// A slot byte, and the pairs of one target.
fn all_of_target(target: u64) -> impl Iterator<Item = String> {
    let pairs = (0..256).map(move |authority| format!("P{target:02x}/{authority:02x}"));
    std::iter::once(format!("B {target:02x}")).chain(pairs)
}

/// What an operand is.
#[derive(Clone, Copy)]
enum Kind {
    Block,
    TwoBlocks,
    Uid,
    /// Whole blocks, as many in each of a line.
    Text,
    /// A message, how many bits of it count, and how many blocks it has.
    Message,
    Bits,
    Count,
    Constant,
    Target,
    Authority,
    Counter,
    Flags,
    /// A part of messages that were sealed together: the authority's key, M1, M2, M3.
    Sealed(usize),
}

use Kind::*;

type Routine = (char, &'static [Kind]);

const MAC: &[Kind] = &[Block, Bits, Message, Block];
const WRITER: &[Kind] = &[Uid, Target, Authority, Block, Counter, Flags, Block, Block, TwoBlocks, Block];
const PROOF: &[Kind] = &[Uid, Target, Authority, Counter, Block, TwoBlocks, Block];
const OPENING: &[Kind] = &[Sealed(0), Sealed(1), Sealed(2), Sealed(3)];

/// With their operands; what stands here twice is drawn twice as often.
const ALGORITHMS: [Routine; 14] = [
    ('K', &[Block]),
    ('S', &[Block]),
    ('N', &[Block, Constant]),
    ('E', &[Block, Block]),
    ('D', &[Block, Block]),
    ('X', &[Block, Block]),
    ('e', &[Block, Block, Block]),
    ('d', &[Block, Block, Block]),
    ('F', &[Block, Block, Block]),
    ('C', &[Block, Block, Text, Text]),
    ('c', &[Block, Block, Text, Text]),
    ('H', &[Block, Text, Block]),
    ('M', MAC),
    ('M', MAC),
];
const LONG_ONES: [Routine; 2] = [('R', &[Block, Bits, Block, Count, Block]), ('L', &[Block, Block, Block, Count])];
const KEY_MESSAGES: [Routine; 8] =
    [('W', WRITER), ('W', WRITER), ('w', WRITER), ('f', WRITER), ('A', PROOF), ('A', PROOF), ('O', OPENING), ('O', OPENING)];

/// What a portion is made of. Of four lines so many have extreme operands, and so many a damaged one.
struct Style {
    routines: &'static [Routine],
    extreme: u64,
    damaged: u64,
    is_long: bool,
    lines: u64,
}

const PLAIN: Style = Style { routines: &ALGORITHMS, extreme: 0, damaged: 0, is_long: false, lines: u64::MAX };
const EXTREME: Style = Style { extreme: 4, ..PLAIN };
const DAMAGED: Style = Style { damaged: 4, ..PLAIN };
const MESSAGES: Style = Style { routines: &KEY_MESSAGES, extreme: 2, damaged: 2, ..PLAIN };
const LONG: Style = Style { routines: &LONG_ONES, is_long: true, lines: 8, ..PLAIN };

enum Operand {
    Bytes(Vec<u8>),
    Number(u64),
}

/// What the operands of one line have in common.
struct Line {
    is_extreme: bool,
    text: usize,
    bits: u64,
    pair: (u64, u64),
    sealed: [Vec<u8>; 4],
}

fn line(style: &Style, random: &mut Random) -> String {
    let is_damaged = random.below(4) < style.damaged;
    if is_damaged && random.one_in(10) {
        return random.one_of(&["G", "I", "J", "X", "Z", "a", "b", "z", "0", "9", "~", "E 00", "R", "L"]).to_string();
    }
    let (name, kinds) = random.one_of(style.routines);
    let line = Line::draw(style, random);
    let mut operands: Vec<Operand> = kinds.iter().map(|&kind| line.operand(kind, random)).collect();
    if is_damaged {
        let which = random.below(operands.len() as u64) as usize;
        operands[which] = damaged(&operands[which], random);
    }
    let is_spaced = random.one_in(4);
    let texts: Vec<String> = operands.iter().map(|operand| digits(operand, is_spaced, random)).collect();
    let more = if is_damaged { random.one_of(&["", "", "", "7", "F0", "g / 0"]) } else { "" };
    format!("{name} {}{more}", texts.join(" / "))
}

impl Line {
    fn draw(style: &Style, random: &mut Random) -> Line {
        let is_extreme = random.below(4) < style.extreme;
        let any = 1 + random.below(199) as usize;
        let text = 16 * random.one_of(&[1, 1, 1, 1, 2, 2, 2, 3, 3, 4, 7, any]);
        let bits = if style.is_long { long_bits(random) } else { bits(random) };
        Line { is_extreme, text, bits, pair: pair(random), sealed: sealed(random) }
    }

    fn operand(&self, kind: Kind, random: &mut Random) -> Operand {
        match kind {
            Block => self.bytes(16, random),
            TwoBlocks => self.bytes(32, random),
            Uid => self.bytes(15, random),
            Text => self.bytes(self.text, random),
            Message => self.bytes(16 * blocks_of_bits(self.bits) as usize, random),
            Bits => Operand::Number(self.bits),
            Count => Operand::Number(if random.one_in(4) { random.below(MAX_BLOCKS as u64) } else { blocks_of_bits(self.bits) }),
            Constant => Operand::Number(1 + random.below(5)),
            Target => Operand::Number(self.pair.0),
            Authority => Operand::Number(self.pair.1),
            Counter => Operand::Number(counter(random)),
            Flags => Operand::Number(flags(random)),
            Sealed(part) => Operand::Bytes(self.sealed[part].clone()),
        }
    }

    fn bytes(&self, length: usize, random: &mut Random) -> Operand {
        Operand::Bytes(if self.is_extreme { extreme_bytes(length, random) } else { random.bytes(length) })
    }
}

fn extreme_bytes(length: usize, random: &mut Random) -> Vec<u8> {
    let block = random.one_of(&[0, u128::MAX, 1 << 127, 1, 0x0001_0203_0405_0607_0809_0a0b_0c0d_0e0f]);
    block.to_be_bytes().into_iter().cycle().take(length).collect()
}

fn bits(random: &mut Random) -> u64 {
    let (few, many) = (random.below(1000), random.below(20_000));
    random.one_of(&[0, 1, 7, 8, 127, 128, 129, 255, 256, 257, few, many])
}

/// Up to the most that are taken, and one more.
fn long_bits(random: &mut Random) -> u64 {
    let any = random.below(MAX_BITS);
    random.one_of(&[any, any, MAX_BITS - 128, MAX_BITS, MAX_BITS + 1])
}

/// Mostly one that is allowed.
fn pair(random: &mut Random) -> (u64, u64) {
    if random.one_in(4) {
        return (slot(random), slot(random));
    }
    let (target, authority) = allowed_pair(random);
    (target.into(), authority.into())
}

fn slot(random: &mut Random) -> u64 {
    let few = random.below(16);
    random.one_of(&[few, few, few, 0x11, 0x1E, 0x41, 0xE1, 0xFE, 0xFF, 0x101, 0x104, 1 << 32, u64::MAX])
}

fn counter(random: &mut Random) -> u64 {
    let most = u64::from(MAX_COUNTER);
    let any = random.below(most);
    let edge = random.one_of(&[0, 1, 5, most, most + 1, most + 2, (1 << 32) - 1, 1 << 32, (1 << 32) + 1, u64::MAX]);
    random.one_of(&[edge, any, any])
}

fn flags(random: &mut Random) -> u64 {
    let any = random.below(32);
    let edge = random.one_of(&[32, 33, 63, 128, 255, 256, 0x103, u64::MAX]);
    random.one_of(&[edge, any, any, any, any])
}

/// Messages whose first block is any, or has one bit after the flags, or is as it should be.
fn sealed(random: &mut Random) -> [Vec<u8>; 4] {
    let (key, new_key) = (random.block(), random.block());
    let any = FirstBlock::unpack(random.block());
    let one_bit = 1 << random.below(95);
    let first = FirstBlock { filler: random.one_of(&[any.filler, one_bit, 0]), ..any };
    let sent = update(&Head::unpack(&random.block()), &key, &first, &new_key);
    [key.to_vec(), sent.m1.to_vec(), sent.m2.to_vec(), sent.m3.to_vec()]
}

fn damaged(operand: &Operand, random: &mut Random) -> Operand {
    match operand {
        Operand::Bytes(bytes) => Operand::Bytes(other_bytes(bytes, random)),
        Operand::Number(number) => Operand::Number(other_number(*number, random)),
    }
}

/// A byte, a block or all of it gone or added, or one bit changed.
fn other_bytes(bytes: &[u8], random: &mut Random) -> Vec<u8> {
    match random.below(10) {
        0 => bytes[1..].to_vec(),
        1 => bytes[..bytes.len() - 1].to_vec(),
        2 => bytes[..bytes.len().saturating_sub(16)].to_vec(),
        3 => [bytes, &[0x5A]].concat(),
        4 => [bytes, &[0; 16]].concat(),
        5 => bytes.repeat(2),
        6 => Vec::new(),
        _ => {
            let mut changed = bytes.to_vec();
            changed[random.below(bytes.len() as u64) as usize] ^= 1 << random.below(8);
            changed
        }
    }
}

fn other_number(number: u64, random: &mut Random) -> u64 {
    let one_bit = 1 << random.below(64);
    random.one_of(&[number ^ one_bit, number.wrapping_add(1), number.wrapping_add(128), 0, u64::MAX])
}

/// A number comes in 8 bytes or in as many as it needs. Spaces may stand anywhere.
fn digits(operand: &Operand, is_spaced: bool, random: &mut Random) -> String {
    let digits = match operand {
        Operand::Bytes(bytes) => hex(bytes),
        Operand::Number(number) if random.one_in(2) => format!("{number:016x}"),
        Operand::Number(number) => hex(&number.to_be_bytes()[number.leading_zeros() as usize / 8..]),
    };
    let groups: Vec<&[u8]> = digits.as_bytes().chunks(if is_spaced { 8 } else { usize::MAX }).collect();
    String::from_utf8_lossy(&groups.join(&b' ')).into_owned()
}
