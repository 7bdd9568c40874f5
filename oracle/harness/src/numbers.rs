//! Random numbers of each kind, with a bias to where its operations turn.

/// Random numbers (splitmix64): the same start gives the same questions on every machine.
pub struct Random(pub u64);

impl Random {
    pub fn next(&mut self) -> u64 {
        self.0 = self.0.wrapping_add(0x9e37_79b9_7f4a_7c15);
        let z = (self.0 ^ (self.0 >> 30)).wrapping_mul(0xbf58_476d_1ce4_e5b9);
        let z = (z ^ (z >> 27)).wrapping_mul(0x94d0_49bb_1331_11eb);
        z ^ (z >> 31)
    }
    pub fn below(&mut self, end: usize) -> usize {
        (self.next() % end as u64) as usize
    }
    pub fn between(&mut self, least: i32, greatest: i32) -> i32 {
        least + self.below((greatest - least + 1) as usize) as i32
    }
    pub fn among<V: Copy>(&mut self, values: &[V]) -> V {
        values[self.below(values.len())]
    }
}

/// A number as it stands in a question: the bits of a Real, else an i32.
pub type Number = i64;

/// Which of the five scalars.
#[derive(Clone, Copy, PartialEq)]
pub enum Kind {
    Real,
    Count,
    Residue,
    Pixel,
    Whole,
}

pub const KINDS: [(Kind, &str); 5] = [
    (Kind::Real, "Real"),
    (Kind::Count, "Count"),
    (Kind::Residue, "Residue"),
    (Kind::Pixel, "Pixel"),
    (Kind::Whole, "Whole"),
];

const EDGES_OF_F64: [f64; 12] = [
    0.0,
    1.0,
    f64::INFINITY,
    f64::NAN,
    f64::MAX,
    f64::MIN_POSITIVE,
    f64::EPSILON,
    5e-324, // the least above zero
    2.2250738585072009e-308, // the greatest subnormal
    9007199254740992.0, // 2^53: the next whole number is missing
    1.3407807929942596e154, // just below 2^512: its square is still finite
    1.1113793747425387e-162, // 2^-538: its square is zero
];

const EDGES_OF_I32: [i32; 14] =
    [0, 1, 2, i32::MAX, i32::MAX - 1, i32::MIN, i32::MIN + 1, 255, 256, 257, 65520, 65521, 32760, 46341];

pub fn bits(x: f64) -> Number {
    x.to_bits() as Number
}

impl Kind {
    pub fn ordered(self) -> bool {
        !matches!(self, Kind::Count | Kind::Residue)
    }

    pub fn written(self, n: Number) -> String {
        if self == Kind::Real { format!("{n:016x}") } else { n.to_string() }
    }

    pub fn is_nan(self, n: Number) -> bool {
        self == Kind::Real && f64::from_bits(n as u64).is_nan()
    }

    /// The whole number k.
    pub fn whole(self, k: i32) -> Number {
        match self {
            Kind::Real => bits(k.into()),
            Kind::Pixel => (256 * k).into(),
            _ => k.into(),
        }
    }

    pub fn less(self, a: Number, b: Number) -> bool {
        if self == Kind::Real { f64::from_bits(a as u64) < f64::from_bits(b as u64) } else { a < b }
    }

    /// Above zero, and so small that sums and products of some are exact, or nearly.
    pub fn positive(self, random: &mut Random) -> Number {
        match self {
            Kind::Real => bits(f64::from(random.between(1, 40)) / random.among(&[1.0, 2.0, 8.0, 10.0])),
            Kind::Pixel => random.between(1, 1500).into(),
            _ => random.between(1, 12).into(),
        }
    }

    pub fn negative(self, random: &mut Random) -> Number {
        let n = self.positive(random);
        self.negated(n)
    }

    /// Small: of either sign, or zero or one, which are also what matrices are mostly made of.
    pub fn small(self, random: &mut Random) -> Number {
        match random.below(8) {
            0 => 0,
            1 => self.whole(1),
            2..=4 => self.negative(random),
            _ => self.positive(random),
        }
    }

    fn negated(self, n: Number) -> Number {
        if self == Kind::Real { n ^ i64::MIN } else { (n as i32).wrapping_neg().into() }
    }

    /// Next to where the scalar's operations round, clamp, wrap or give up.
    pub fn edge(self, random: &mut Random) -> Number {
        let n = match (self, random.below(4)) {
            // a power of two by its exponent's bits, the last of which is infinity, or next to one
            (Kind::Real, 0) => (Number::from(random.between(0, 2047)) << 52) + Number::from(random.between(-1, 1)),
            (Kind::Real, _) => bits(random.among(&EDGES_OF_F64)),
            (_, 0) => ((1 << random.between(0, 30)) + random.between(-1, 0)).into(),
            (_, _) => random.among(&EDGES_OF_I32).into(),
        };
        if random.below(2) == 0 { n } else { self.negated(n) }
    }

    /// Any bits at all; for an i32 of any length.
    pub fn any(self, random: &mut Random) -> Number {
        if self == Kind::Real {
            random.next() as Number
        } else {
            (random.next() as i32 >> random.below(31)).into()
        }
    }

    /// A little beside n: too little for some tests to see.
    pub fn beside(self, n: Number, random: &mut Random) -> Number {
        let step = random.among(&[-1, 1]);
        let tiny = random.among(&[5e-324, 1e-12, 1e-6, 1e-2]);
        match self {
            Kind::Real if random.below(2) == 0 && n << 1 != 0 => n.wrapping_add(step.into()),
            Kind::Real => bits(f64::from_bits(n as u64) + f64::from(step) * tiny),
            _ => (n as i32).wrapping_add(step).into(),
        }
    }

    /// The same value, written otherwise where that can be: the other zero, or another number of the residue class.
    pub fn alias(self, n: Number) -> Number {
        match self {
            Kind::Real if n << 1 == 0 => self.negated(n),
            Kind::Residue if n > 0 => n - 65521,
            Kind::Residue => n + 65521,
            _ => n,
        }
    }
}
