//! The baseline for `bench/run fractions`: the operations of crates/bench in plain Rust, over the same operands, once without
//! the short path for 64-bit parts ("plain") and once with it ("short"). VARIANT pairs writes the operands, a pair on a line.
//! Usage: fractions VARIANT KERNEL PARTS TURNS
use std::cmp::Ordering;
use std::marker::PhantomData;

const PAIRS: u32 = 256;
const LIMIT: u128 = 1 << 126;
const LARGEST: u128 = i128::MAX as u128;
const SHORT: u128 = u64::MAX as u128;

struct Wide;

/// The steps that the two variants make in different ways.
trait Steps: Copy {
    const SHORT: bool;
    fn common(a: u128, b: u128) -> u128;
    fn divided(a: u128, k: u128) -> u128;
    fn product(a: i128, b: i128) -> Option<i128>;
}

#[derive(Clone, Copy)]
struct Plain;

impl Steps for Plain {
    const SHORT: bool = false;

    fn common(a: u128, b: u128) -> u128 {
        let (mut larger, mut smaller) = (a, b);
        while smaller != 0 {
            (larger, smaller) = (smaller, larger % smaller);
        }
        larger
    }

    fn divided(a: u128, k: u128) -> u128 {
        a / k
    }

    fn product(a: i128, b: i128) -> Option<i128> {
        a.checked_mul(b)
    }
}

#[derive(Clone, Copy)]
struct Short;

fn short_common(a: u64, b: u64) -> u64 {
    let (mut larger, mut smaller) = (a, b);
    while smaller != 0 {
        (larger, smaller) = (smaller, larger % smaller);
    }
    larger
}

fn long_common(a: u128, b: u128) -> u128 {
    let (mut larger, mut smaller) = (a, b);
    while smaller > u128::from(u64::MAX) {
        (larger, smaller) = (smaller, larger % smaller);
    }
    if smaller == 0 {
        return larger;
    }
    u128::from(short_common(smaller as u64, (larger % smaller) as u64))
}

impl Steps for Short {
    const SHORT: bool = true;

    #[inline]
    fn common(a: u128, b: u128) -> u128 {
        if a == 1 || b == 1 {
            return 1;
        }
        match (u64::try_from(a), u64::try_from(b)) {
            (Ok(a), Ok(b)) => u128::from(short_common(a, b)),
            _ => long_common(a, b),
        }
    }

    #[inline]
    fn divided(a: u128, k: u128) -> u128 {
        if k == 1 {
            return a;
        }
        match (u64::try_from(a), u64::try_from(k)) {
            (Ok(a), Ok(k)) => u128::from(a / k),
            _ => a / k,
        }
    }

    #[inline]
    fn product(a: i128, b: i128) -> Option<i128> {
        if let (Ok(a), Ok(b)) = (i64::try_from(a), i64::try_from(b)) {
            return Some(i128::from(a) * i128::from(b));
        }
        a.checked_mul(b)
    }
}

#[derive(Clone, Copy)]
struct Fraction<S> {
    numerator: i128,
    denominator: u128,
    steps: PhantomData<S>,
}

fn narrow(number: Option<i128>) -> Result<i128, Wide> {
    match number {
        Some(number) if number != i128::MIN => Ok(number),
        _ => Err(Wide),
    }
}

fn unsigned_product(a: u128, b: u128) -> Result<u128, Wide> {
    match a.checked_mul(b) {
        Some(product) if product <= LARGEST => Ok(product),
        _ => Err(Wide),
    }
}

fn signed_divided<S: Steps>(a: i128, k: u128) -> i128 {
    let size = S::divided(a.unsigned_abs(), k) as i128;
    if a < 0 { -size } else { size }
}

fn short_compare(a: u64, b: u64, c: u64, d: u64) -> Ordering {
    let (mut numerator, mut denominator, mut other_numerator, mut other_denominator) = (a, b, c, d);
    loop {
        let (whole, other_whole) = (numerator / denominator, other_numerator / other_denominator);
        if whole != other_whole {
            return whole.cmp(&other_whole);
        }
        let (rest, other_rest) = (numerator % denominator, other_numerator % other_denominator);
        if rest == 0 || other_rest == 0 {
            return rest.cmp(&other_rest);
        }
        (numerator, denominator, other_numerator, other_denominator) = (other_denominator, other_rest, denominator, rest);
    }
}

fn compare_parts<S: Steps>(a: u128, b: u128, c: u128, d: u128) -> Ordering {
    let (mut numerator, mut denominator, mut other_numerator, mut other_denominator) = (a, b, c, d);
    loop {
        if S::SHORT && numerator <= SHORT && denominator <= SHORT && other_numerator <= SHORT && other_denominator <= SHORT {
            return short_compare(numerator as u64, denominator as u64, other_numerator as u64, other_denominator as u64);
        }
        let (whole, other_whole) = (numerator / denominator, other_numerator / other_denominator);
        if whole != other_whole {
            return whole.cmp(&other_whole);
        }
        let (rest, other_rest) = (numerator % denominator, other_numerator % other_denominator);
        if rest == 0 || other_rest == 0 {
            return rest.cmp(&other_rest);
        }
        (numerator, denominator, other_numerator, other_denominator) = (other_denominator, other_rest, denominator, rest);
    }
}

impl<S: Steps> Fraction<S> {
    fn made(numerator: i128, denominator: u128) -> Self {
        Fraction { numerator, denominator, steps: PhantomData }
    }

    fn lowest(numerator: i128, denominator: u128) -> Self {
        let shared = S::common(numerator.unsigned_abs(), denominator);
        Self::made(signed_divided::<S>(numerator, shared), denominator / shared)
    }

    #[inline]
    fn add(self, other: Self) -> Result<Self, Wide> {
        if S::SHORT {
            if self.denominator == 1 && other.denominator == 1 {
                return Ok(Self::made(narrow(self.numerator.checked_add(other.numerator))?, 1));
            }
            if self.numerator == 0 {
                return Ok(other);
            }
            if other.numerator == 0 {
                return Ok(self);
            }
        }
        self.full_add(other)
    }

    fn full_add(self, other: Self) -> Result<Self, Wide> {
        let shared = S::common(self.denominator, other.denominator);
        let left_factor = S::divided(other.denominator, shared);
        let right_factor = S::divided(self.denominator, shared);
        let left = narrow(S::product(self.numerator, left_factor as i128))?;
        let right = narrow(S::product(other.numerator, right_factor as i128))?;
        let total = narrow(left.checked_add(right))?;
        let rest = S::common(total.unsigned_abs(), shared);
        let denominator = unsigned_product(right_factor, S::divided(other.denominator, rest))?;
        Ok(Self::made(signed_divided::<S>(total, rest), denominator))
    }

    #[inline]
    fn mul(self, other: Self) -> Result<Self, Wide> {
        if S::SHORT {
            if self.denominator == 1 && other.denominator == 1 {
                return Ok(Self::made(narrow(S::product(self.numerator, other.numerator))?, 1));
            }
            if self.numerator == 0 || other.numerator == 0 {
                return Ok(Self::made(0, 1));
            }
        }
        self.full_mul(other)
    }

    fn full_mul(self, other: Self) -> Result<Self, Wide> {
        let left_shared = S::common(self.numerator.unsigned_abs(), other.denominator);
        let right_shared = S::common(other.numerator.unsigned_abs(), self.denominator);
        let numerator = narrow(S::product(
            signed_divided::<S>(self.numerator, left_shared),
            signed_divided::<S>(other.numerator, right_shared),
        ))?;
        let denominator = unsigned_product(
            S::divided(self.denominator, right_shared),
            S::divided(other.denominator, left_shared),
        )?;
        Ok(Self::made(numerator, denominator))
    }

    fn compare(self, other: Self) -> Ordering {
        if S::SHORT && self.denominator == other.denominator {
            return self.numerator.cmp(&other.numerator);
        }
        match (self.numerator < 0, other.numerator < 0) {
            (false, false) => self.compare_size(other),
            (false, true) => Ordering::Greater,
            (true, false) => Ordering::Less,
            (true, true) => other.compare_size(self),
        }
    }

    fn compare_size(self, other: Self) -> Ordering {
        let (numerator, other_numerator) = (self.numerator.unsigned_abs(), other.numerator.unsigned_abs());
        compare_parts::<S>(numerator, self.denominator, other_numerator, other.denominator)
    }
}

fn next(state: &mut u64) -> u64 {
    let mut x = *state;
    x ^= x << 13;
    x ^= x >> 7;
    x ^= x << 17;
    *state = x;
    x
}

fn short(state: &mut u64) -> u64 {
    next(state) >> 44
}

fn middle(state: &mut u64) -> u64 {
    next(state) >> 24
}

fn long(state: &mut u64) -> u64 {
    next(state) >> 4
}

fn product(a: u64, b: u64) -> u128 {
    u128::from(a) * u128::from(b)
}

fn fraction<S: Steps>(numerator: u128, denominator: u128, state: &mut u64) -> Fraction<S> {
    let size = (numerator % LIMIT) as i128;
    let numerator = if next(state) % 2 == 0 { size } else { -size };
    Fraction::lowest(numerator, (denominator % LIMIT).max(1))
}

type Pair<S> = (Fraction<S>, Fraction<S>);

fn wide_pair<S: Steps>(kernel: &str, state: &mut u64) -> Pair<S> {
    let (p, q) = (long(state), long(state));
    let (t, u, v, w) = (middle(state), middle(state), middle(state), middle(state));
    match kernel {
        "add" => (
            fraction(product(q, t), product(p, short(state)), state),
            fraction(product(q, u), product(p, short(state)), state),
        ),
        "mul" => (
            fraction(product(p, t), product(q, u), state),
            fraction(product(q, v), product(p, w), state),
        ),
        _ => {
            let left = fraction(product(p, t), product(q, u), state);
            let numerator = product(p, t) + u128::from(short(state));
            let denominator = product(q, u) + u128::from(short(state));
            (left, fraction(numerator, denominator, state))
        }
    }
}

fn made_pair<S: Steps>(kernel: &str, parts: &str, state: &mut u64) -> Pair<S> {
    match parts {
        "whole" => (
            fraction(u128::from(short(state)), 1, state),
            fraction(u128::from(short(state)), 1, state),
        ),
        "small" => (
            fraction(u128::from(short(state)), u128::from(short(state)), state),
            fraction(u128::from(short(state)), u128::from(short(state)), state),
        ),
        _ => wide_pair(kernel, state),
    }
}

fn counted<S>(sum: i128, result: Result<Fraction<S>, Wide>) -> i128 {
    match result {
        Ok(fraction) => sum.wrapping_add(fraction.numerator).wrapping_add(fraction.denominator as i128),
        Err(Wide) => sum.wrapping_sub(1),
    }
}

fn pairs<S: Steps>(kernel: &str, parts: &str) -> Vec<Pair<S>> {
    let mut state = 0x9e37_79b9_7f4a_7c15;
    (0..PAIRS).map(|_| made_pair(kernel, parts, &mut state)).collect()
}

fn run<S: Steps>(kernel: &str, parts: &str, turns: u32) -> i128 {
    let pairs = pairs::<S>(kernel, parts);
    let mut sum: i128 = 0;
    let mut orders: i64 = 0;
    for _ in 0..turns {
        match kernel {
            "add" => pairs.iter().for_each(|(x, y)| sum = counted(sum, x.add(*y))),
            "mul" => pairs.iter().for_each(|(x, y)| sum = counted(sum, x.mul(*y))),
            _ => pairs.iter().for_each(|(x, y)| {
                orders = match x.compare(*y) {
                    Ordering::Less => orders.wrapping_sub(1),
                    Ordering::Equal => orders,
                    Ordering::Greater => orders.wrapping_add(1),
                }
            }),
        }
    }
    sum.wrapping_add(i128::from(orders))
}

fn main() {
    let words: Vec<String> = std::env::args().skip(1).collect();
    let [variant, kernel, parts, turns] = words.as_slice() else {
        println!("usage: fractions VARIANT KERNEL PARTS TURNS");
        return;
    };
    let turns = turns.parse().unwrap_or(0);
    if variant == "pairs" {
        for (x, y) in pairs::<Plain>(kernel, parts) {
            println!("{} {} {} {}", x.numerator, x.denominator, y.numerator, y.denominator);
        }
        return;
    }
    let sum = match variant.as_str() {
        "plain" => run::<Plain>(kernel, parts, turns),
        _ => run::<Short>(kernel, parts, turns),
    };
    println!("{sum}");
}
