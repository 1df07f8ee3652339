//! The pool: 256 floats from which the parts of records are drawn, so that a line names a part
//! by two hex digits.
use crate::random::Random;
use std::ops::Range;

pub const EDGES: Range<usize> = 0..64;
pub const UNIT: Range<usize> = 64..128;
pub const MODERATE: Range<usize> = 128..192;
pub const WIDE: Range<usize> = 192..224;
pub const ANY: Range<usize> = 0..256;
pub const TURNS: Range<usize> = 253..256;

/// Places of the edges that single parts are set to.
pub const NAN: u8 = 14;
pub const INFINITY: u8 = 12;

/// Zeros, ones, the ends of the number line, both sides of 2^-52 and of 1, squares that vanish or
/// overflow, and the places where outside functions turn.
#[rustfmt::skip]
pub const EDGE_WORDS: [u64; 64] = [
    0x0000000000000000, 0x8000000000000000, 0x3ff0000000000000, 0xbff0000000000000, // 0, 1
    0x0000000000000001, 0x8000000000000001, 0x000fffffffffffff, 0x800fffffffffffff, // subnormal
    0x0010000000000000, 0x8010000000000000, 0x7fefffffffffffff, 0xffefffffffffffff, // normal ends
    0x7ff0000000000000, 0xfff0000000000000, 0x7ff8000000000000, 0x3cb0000000000000, // 2^-52
    0x3cafffffffffffff, 0x3cb0000000000001, 0xbcb0000000000000, 0xbcafffffffffffff,
    0xbcb0000000000001, 0x3ca0000000000000, 0x3fefffffffffffff, 0x3ff0000000000001, // by 1
    0xbfefffffffffffff, 0xbff0000000000001, 0x4000000000000000, 0xc000000000000000, // 2
    0x3fe0000000000000, 0xbfe0000000000000, 0x4008000000000000, 0x3fd5555555555555, // 1/2 3 1/3
    0x4048800000000000, 0x4014000000000000, 0x4024000000000000, 0x400921fb54442d18, // 49 5 10 pi
    0x3ff921fb54442d18, 0xc00921fb54442d18, 0x4005bf0a8b145769, 0x3fe62e42fefa39ef, // e, ln 2
    0x408f400000000000, 0xc08f400000000000, 0x4086300000000000, 0xc087499999999999, // exp's ends
    0x4480f0cf064dd592, 0x54b249ad2594c37d, 0x2b2bff2ee48e0530, 0x4190000000000000, // 1e22 1e100
    0x3e50000000000000, 0x4340000000000000, 0xc340000000000000, 0x1e60000000000000, // 2^-26 2^53
    0x1a70000000000000, 0x6570000000000000, 0x5fe0000000000000, 0x5ff0000000000000, // 2^-600 2^512
    0x2000000000000000, 0x1e50000000000000, 0x7fd0000000000000, 0x7fe0000000000000, // 2^1022
    0xffe0000000000000, 0x7fd0000000000001, 0x3fb999999999999a, 0x3fe6666666666666, // 0.1 0.7
];

/// The last of the pool: real parts at which a grouping shows that shows nowhere else. Derivatives
/// of a logarithm and a reciprocal (at 2^346) and of a root (at 2^685) are subnormal before they are
/// doubled or halved; at 1.125 a logarithm's to a base near 1 overflows if it is doubled too soon.
const TURN_WORDS: [u64; 3] = [0x559377b900000000, 0x6ac28dbd00000000, 0x3ff2000000000000];

pub struct Pool(pub Vec<f64>);

impl Pool {
    pub fn new(random: &mut Random) -> Self {
        let mut floats: Vec<f64> = EDGE_WORDS.map(f64::from_bits).to_vec();
        floats.extend(UNIT.map(|_| random.unit()));
        floats.extend(MODERATE.map(|_| random.scaled(-6, 6)));
        floats.extend(WIDE.map(|_| random.scaled(-300, 300)));
        floats.extend((WIDE.end..ANY.end).map(|_| random.bits()));
        floats.splice(TURNS, TURN_WORDS.map(f64::from_bits));
        Self(floats)
    }

    pub fn floats(&self, places: &[u8]) -> Vec<f64> {
        places.iter().map(|place| self.0[usize::from(*place)]).collect()
    }

    /// A place in this range.
    pub fn place(random: &mut Random, range: Range<usize>) -> u8 {
        (range.start + random.below(range.len())) as u8
    }

    /// The places of all floats below 2^-52 in magnitude, zeros among them.
    pub fn small(&self) -> Vec<u8> {
        let small = |place: &u8| self.0[usize::from(*place)].abs() < f64::EPSILON;
        (0..=u8::MAX).filter(small).collect()
    }

    /// The first three places of floats whose products with this one are nearest 1 by their exponents.
    pub fn reciprocals(&self, x: f64) -> [u8; 3] {
        let exponent = |place: &u8| (x * self.0[usize::from(*place)]).to_bits() >> 52 & 0x7ff;
        let mut places: Vec<u8> = (0..=u8::MAX).collect();
        places.sort_by_key(|place| exponent(place).abs_diff(1023));
        [places[0], places[1], places[2]]
    }

    /// A moderate or unit float for which `wanted` holds.
    pub fn apt(&self, random: &mut Random, wanted: impl Fn(f64) -> bool) -> u8 {
        let places: Vec<usize> =
            (UNIT.start..MODERATE.end).filter(|place| wanted(self.0[*place])).collect();
        random.choose(&places) as u8
    }
}
