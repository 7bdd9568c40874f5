//! How euclid's types stand in a question and in an answer: as their numbers, in the order of their fields.
use crate::scalars::Scalar;
use euclid::*;
use std::fmt::{Display, Write};

/// The numbers of a question that are not taken yet.
pub struct Numbers<'a, T>(pub &'a [T]);

impl<T: Scalar> Numbers<'_, T> {
    /// The next value; None where too few numbers are left.
    pub fn take<S: Shape<T>>(&mut self) -> Option<S> {
        S::taken(self)
    }
}

/// What can be asked about: a value made from its numbers.
pub trait Shape<T>: Sized {
    fn taken(numbers: &mut Numbers<T>) -> Option<Self>;
}

/// What can be answered: a value as words.
pub trait Answer {
    fn say(self, line: &mut String);
}

/// Adds a word to a line, with one blank between.
pub fn word(line: &mut String, word: impl Display) {
    if !line.is_empty() {
        line.push(' ');
    }
    write!(line, "{word}").expect("a String takes any text");
}

impl<T: Scalar> Shape<T> for T {
    fn taken(numbers: &mut Numbers<T>) -> Option<T> {
        let (&first, rest) = numbers.0.split_first()?;
        numbers.0 = rest;
        Some(first)
    }
}

/// As many as there are; the last must be whole.
impl<T: Scalar, S: Shape<T>> Shape<T> for Vec<S> {
    fn taken(numbers: &mut Numbers<T>) -> Option<Vec<S>> {
        let mut all = Vec::new();
        while !numbers.0.is_empty() {
            all.push(numbers.take()?);
        }
        Some(all)
    }
}

impl<T: Scalar> Answer for T {
    fn say(self, line: &mut String) {
        word(line, self);
    }
}

impl Answer for bool {
    fn say(self, line: &mut String) {
        word(line, self);
    }
}

impl<A: Answer> Answer for Option<A> {
    fn say(self, line: &mut String) {
        match self {
            None => word(line, "None"),
            Some(value) => {
                word(line, "Some");
                value.say(line);
            }
        }
    }
}

impl<A: Answer, B: Answer> Answer for (A, B) {
    fn say(self, line: &mut String) {
        self.0.say(line);
        self.1.say(line);
    }
}

impl<A: Answer, B: Answer, C: Answer> Answer for (A, B, C) {
    fn say(self, line: &mut String) {
        (self.0, self.1).say(line);
        self.2.say(line);
    }
}

/// The fields of a type are the arguments of its `new`.
macro_rules! fields {
    ($($kind:ident<$($tag:ident),+>: $($field:ident)+;)+) => {$(
        impl<T: Scalar, $($tag),+> Shape<T> for $kind<T, $($tag),+> {
            fn taken(numbers: &mut Numbers<T>) -> Option<Self> {
                $(let $field = numbers.take()?;)+
                Some($kind::new($($field),+))
            }
        }
        impl<T: Scalar, $($tag),+> Answer for $kind<T, $($tag),+> {
            fn say(self, line: &mut String) {
                $(self.$field.say(line);)+
            }
        }
    )+};
}

fields! {
    Point2D<U>: x y;
    Point3D<U>: x y z;
    Vector2D<U>: x y;
    Vector3D<U>: x y z;
    Size2D<U>: width height;
    Rect<U>: origin size;
    Box2D<U>: min max;
    Box3D<U>: min max;
    HomogeneousVector<U>: x y z w;
    ScaleOffset2D<Src, Dst>: sx sy tx ty;
    Transform2D<Src, Dst>: m11 m12 m21 m22 m31 m32;
    Transform3D<Src, Dst>: m11 m12 m13 m14 m21 m22 m23 m24 m31 m32 m33 m34 m41 m42 m43 m44;
}
