//! Draws the arguments of a question, with a bias to where answers turn: matrices that are singular or nearly the
//! identity, points on and behind the plane w = 0, values that are all but equal.
use crate::numbers::{bits, Kind, Number, Random};

/// What a question is made of as a whole.
#[derive(Clone, Copy, PartialEq)]
pub enum Temper {
    /// small numbers, matrices with w above zero, boxes with their minimum below their maximum
    Calm,
    /// half of the numbers are edges
    Edged,
    /// transforms at or beside the identity or a plane one
    NearIdentity,
    /// matrices with a row or a column repeated or zero, scales of zero
    Singular,
    /// w zero, below zero or NaN
    Behind,
    /// any bits
    Wild,
}

/// The tempers take turns.
pub const TEMPERS: [Temper; 8] = [
    Temper::Calm,
    Temper::Edged,
    Temper::NearIdentity,
    Temper::Singular,
    Temper::Calm,
    Temper::Behind,
    Temper::NearIdentity,
    Temper::Wild,
];

/// Draws the arguments of one question.
pub struct Draw<'a> {
    pub random: &'a mut Random,
    pub kind: Kind,
    pub temper: Temper,
}

impl Draw<'_> {
    /// The numbers of all arguments of a function, given its notation.
    pub fn arguments(&mut self, notation: &str) -> Vec<Number> {
        let (arguments, result) = notation.split_once("->").expect("arguments -> result");
        let words: Vec<&str> = arguments.split_whitespace().collect();
        self.settle(&words);
        match words[..] {
            [first, second] if first == second && result.trim() == "bool" => self.pair(first),
            _ => words.iter().flat_map(|word| self.argument(word)).collect(),
        }
    }

    /// A temper that means no argument here makes way for edges.
    fn settle(&mut self, words: &[&str]) {
        let meant: &[&str] = match self.temper {
            Temper::NearIdentity | Temper::Singular => &["T2", "T3", "SO"],
            Temper::Behind => &["T3", "HV"],
            Temper::Calm | Temper::Edged | Temper::Wild => words,
        };
        if !words.iter().any(|word| meant.contains(word)) {
            self.temper = Temper::Edged;
        }
    }

    /// Two values to be compared: the same, or the same but for one number, or written otherwise, or unrelated.
    fn pair(&mut self, word: &str) -> Vec<Number> {
        let mut first = self.argument(word);
        let at = self.random.below(first.len());
        let mut second = first.clone();
        match self.random.below(8) {
            0..=2 => {}
            3 => second[at] = self.kind.beside(first[at], self.random),
            4 => second[at] = self.kind.small(self.random),
            5 => second[at] = self.kind.edge(self.random),
            6 => {
                first[at] = 0;
                second = first.iter().map(|&n| self.kind.alias(n)).collect();
            }
            _ => second = self.argument(word),
        }
        first.into_iter().chain(second).collect()
    }

    fn argument(&mut self, word: &str) -> Vec<Number> {
        match word {
            "T2" => self.transform2d(),
            "T3" => self.transform3d(),
            "SO" => self.scale_offset(),
            "HV" => self.homogeneous(),
            "B2" => self.corners(2),
            "B3" => self.corners(3),
            "R" => self.rect(),
            "P2" | "V2" | "Sz" => self.numbers(2),
            "P3" | "V3" => self.numbers(3),
            "P2*" => self.points(2),
            "P3*" => self.points(3),
            "eps" => vec![self.epsilon()],
            count_or_name => self.numbers(count_or_name.parse().unwrap_or(1)),
        }
    }

    fn number(&mut self) -> Number {
        match (self.temper, self.random.below(6)) {
            (Temper::Wild, _) | (Temper::Edged, 0) => self.kind.any(self.random),
            (Temper::Edged, 1..=3) => self.kind.edge(self.random),
            _ => self.kind.small(self.random),
        }
    }

    fn numbers(&mut self, count: usize) -> Vec<Number> {
        (0..count).map(|_| self.number()).collect()
    }

    fn points(&mut self, dimensions: usize) -> Vec<Number> {
        let count = self.random.below(7);
        self.numbers(count * dimensions)
    }

    /// Above zero and small where matrices are near the identity, so that the test with it goes both ways.
    fn epsilon(&mut self) -> Number {
        match (self.temper, self.kind) {
            (Temper::Calm | Temper::NearIdentity, Kind::Real) => bits(self.random.among(&[0.5, 1e-3, 1e-6, 1e-9])),
            (Temper::Calm | Temper::NearIdentity, _) => self.random.between(1, 3).into(),
            _ => self.number(),
        }
    }

    /// w as a point behind the eye, or at infinity, has it.
    fn w_not_above_zero(&mut self) -> Number {
        match (self.random.below(4), self.kind) {
            (0, _) => 0,
            (1, Kind::Real) => bits(-0.0),
            (2, Kind::Real) => bits(f64::NAN),
            _ => self.kind.negative(self.random),
        }
    }

    fn w(&mut self) -> Number {
        match self.temper {
            Temper::Behind => self.w_not_above_zero(),
            Temper::Edged | Temper::Wild => self.number(),
            _ if self.random.below(3) == 0 => self.kind.whole(1),
            _ => self.kind.positive(self.random),
        }
    }

    fn homogeneous(&mut self) -> Vec<Number> {
        let mut v = self.numbers(3);
        v.push(self.w());
        v
    }

    /// A box by its two corners.
    fn corners(&mut self, dimensions: usize) -> Vec<Number> {
        let mut b = self.numbers(2 * dimensions);
        if matches!(self.temper, Temper::Calm | Temper::NearIdentity) {
            for low in 0..dimensions {
                if self.kind.less(b[low + dimensions], b[low]) {
                    b.swap(low, low + dimensions);
                }
            }
        }
        b
    }

    fn rect(&mut self) -> Vec<Number> {
        let mut r = self.numbers(4);
        if self.temper == Temper::Calm {
            r[2] = self.kind.positive(self.random);
            r[3] = self.kind.positive(self.random);
        }
        r
    }

    fn scale_offset(&mut self) -> Vec<Number> {
        let mut m = self.numbers(4);
        match self.temper {
            Temper::NearIdentity => self.near(&[1, 1, 0, 0], &[&[], &[0, 1], &[2, 3]]),
            Temper::Singular => {
                let at = self.random.below(2);
                m[at] = if self.random.below(2) == 0 { 0 } else { self.kind.alias(0) };
                m
            }
            _ => m,
        }
    }

    fn transform2d(&mut self) -> Vec<Number> {
        let m = self.numbers(6);
        match self.temper {
            Temper::NearIdentity => self.near(&[1, 0, 0, 1, 0, 0], &[&[], &[0, 3, 4, 5], &[4, 5]]),
            Temper::Singular => self.without_a_rank(m, 2),
            _ => m,
        }
    }

    fn transform3d(&mut self) -> Vec<Number> {
        const IDENTITY: [i32; 16] = [1, 0, 0, 0, 0, 1, 0, 0, 0, 0, 1, 0, 0, 0, 0, 1];
        const DIAGONAL: [usize; 4] = [0, 5, 10, 15];
        const SCALE_OFFSET: [usize; 4] = [0, 5, 12, 13];
        const PLANE: [usize; 6] = [0, 1, 4, 5, 12, 13];
        let mut m = self.numbers(16);
        match self.temper {
            Temper::NearIdentity => self.near(&IDENTITY, &[&[], &DIAGONAL, &SCALE_OFFSET, &PLANE]),
            Temper::Singular => self.without_a_rank(m, 4),
            Temper::Calm | Temper::Behind => {
                // mostly with a last column that leaves w to m44
                if self.random.below(4) != 0 {
                    (m[3], m[7], m[11], m[15]) = (0, 0, 0, self.w());
                }
                m
            }
            _ => m,
        }
    }

    /// These whole numbers, with one of the sets of places free, and in half of the cases one number a little beside.
    fn near(&mut self, plain: &[i32], free: &[&[usize]]) -> Vec<Number> {
        let mut m: Vec<Number> = plain.iter().map(|&k| self.kind.whole(k)).collect();
        for &at in self.random.among(free) {
            m[at] = match self.random.below(4) {
                0 => self.kind.edge(self.random),
                _ => self.number(),
            };
        }
        if self.random.below(2) == 0 {
            let at = self.random.below(m.len());
            m[at] = match self.random.below(4) {
                0 => self.number(),
                1 => self.kind.alias(m[at]),
                _ => self.kind.beside(m[at], self.random),
            };
        }
        m
    }

    /// The matrix with a row or a column (of its first `size` rows, `size` wide) made zero or equal to another.
    fn without_a_rank(&mut self, mut m: Vec<Number>, size: usize) -> Vec<Number> {
        let line = self.random.below(size);
        let other = (line + 1 + self.random.below(size - 1)) % size;
        let (zero, column) = (self.random.below(2) == 0, self.random.below(2) == 0);
        for k in 0..size {
            let place = |line| if column { k * size + line } else { line * size + k };
            m[place(line)] = if zero { 0 } else { m[place(other)] };
        }
        m
    }
}
