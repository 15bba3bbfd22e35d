//! The calls on iris codes: ours, the second implementation's, and the same in plain C.

use crate::calls::Calls;
use crate::foreign::iris::Iris;
use crate::foreign::ours::Ours;
use crate::measure::{row, way, Row, Who};
use second::{iris, refusal};
use std::hint::black_box;

const BYTES: usize = 64;
const BITS: usize = 512;

type Code = [u8; BYTES];
type Vector = [u32; BITS];

/// The rows, in the order of the table.
pub const NAMES: [&str; 6] = [
    "iris, to rings",
    "iris, to angles",
    "iris, unpack",
    "iris, pack",
    HAMMING,
    "iris, pack, last element out of range (8)",
];

pub const HAMMING: &str = "iris, Hamming";

/// What the calls are handed.
pub struct Input {
    codes: [Code; 2],
    vector: Vector,
    /// With a last element that is refused.
    wide: Vector,
}

impl Input {
    pub fn new() -> Input {
        let codes = [7, 5].map(|step: usize| std::array::from_fn(|i| (i * i * step + i / 3) as u8));
        let vector: Vector = std::array::from_fn(|i| u32::from(i % 5 < 2 || i % 7 == 3));
        let mut wide = vector;
        wide[BITS - 1] = 2;
        // The compiler must not know the codes.
        black_box(Input {
            codes,
            vector,
            wide,
        })
    }
}

/// What a call leaves: the buffer of its row.
#[repr(C, align(64))]
#[derive(Clone, PartialEq)]
struct Left<T> {
    out: T,
    why: u32,
}

/// What no call leaves.
const NOTHING: u32 = u32::MAX;

pub fn rows(input: &Input) -> Vec<Box<dyn Row + '_>> {
    NAMES.iter().map(|name| named(name, input)).collect()
}

/// The row of this name, which is one of `NAMES`.
pub fn named<'a>(name: &str, input: &'a Input) -> Box<dyn Row + 'a> {
    let [code, other] = &input.codes;
    let [to_rings, to_angles, unpack, pack, hamming, _] = NAMES;
    if name == to_rings {
        compared(
            name,
            [0; BYTES],
            |iris, out: &mut Code| iris.to_rings(code, out),
            |out| refusal::number(&iris::to_rings(code, out)),
        )
    } else if name == to_angles {
        compared(
            name,
            [0; BYTES],
            |iris, out: &mut Code| iris.to_angles(code, out),
            |out| refusal::number(&iris::to_angles(code, out)),
        )
    } else if name == unpack {
        compared(
            name,
            [0; BITS],
            |iris, out: &mut Vector| iris.unpack(code, out),
            |out| refusal::number(&iris::unpack(code, out)),
        )
    } else if name == hamming {
        compared(
            name,
            0,
            |iris, out| iris.hamming(code, other, out),
            |out| match iris::hamming(code, other) {
                Ok(distance) => {
                    *out = distance;
                    0
                }
                Err(why) => why as u32,
            },
        )
    } else {
        let v = if name == pack {
            &input.vector
        } else {
            &input.wide
        };
        compared(
            name,
            [0; BYTES],
            |iris, out: &mut Code| iris.pack(v, out),
            |out| refusal::number(&iris::pack(v, out)),
        )
    }
}

/// A row with a way of ours and of plain C at each level, and of the second implementation. Each
/// answers why not.
fn compared<'a, T: Clone + PartialEq + 'a>(
    name: &str,
    out: T,
    at_level: impl Fn(Iris, &mut T) -> u32 + Copy + 'a,
    second: impl Fn(&mut T) -> u32 + 'a,
) -> Box<dyn Row + 'a> {
    let run = move |iris: Iris| move |left: &mut Left<T>| left.why = at_level(iris, &mut left.out);
    let ours = Ours::all().map(|ours| way(ours.who(), run(Iris::ours(ours))));
    let plain = Ours::all().map(|ours| way(Who::PlainC(ours.level()), run(Iris::plain(ours))));
    let second = way(Who::Second, move |left: &mut Left<T>| {
        left.why = second(&mut left.out);
    });
    let ways = ours.chain(plain).chain([second]);
    row(name, Left { out, why: NOTHING }, ways.collect())
}
