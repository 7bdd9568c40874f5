//! The functions that can be asked about, each by the name it has in euclid.
use crate::scalars::Scalar;
use crate::shapes::{Answer, Numbers};
use euclid::*;

/// A function as `oracle --list` shows it.
pub struct Function {
    pub name: &'static str,
    /// arguments -> result; a word is a type of the short names below, a number that many scalars, else one scalar
    pub notation: &'static str,
    /// whether it needs the scalar's less-than or absolute value
    pub ordered: bool,
}

/// Why a question has no answer of euclid's, in the order in which it is tested.
pub enum Refusal {
    NotText,
    ShortLine,
    UnknownScalar,
    BadNumber,
    UnknownFunction,
    Unordered,
    TooFewNumbers,
    TooManyNumbers,
}

impl Refusal {
    pub fn text(&self) -> &'static str {
        match self {
            Refusal::NotText => "ERROR not text",
            Refusal::ShortLine => "ERROR short line",
            Refusal::UnknownScalar => "ERROR unknown scalar",
            Refusal::BadNumber => "ERROR bad number",
            Refusal::UnknownFunction => "ERROR unknown function",
            Refusal::Unordered => "UNORDERED",
            Refusal::TooFewNumbers => "ERROR too few numbers",
            Refusal::TooManyNumbers => "ERROR too many numbers",
        }
    }
}

// Three spaces, so that each call is typed as a user's would be.
pub struct A;
pub struct B;
pub struct C;

// The short names of the notation.
type T2<T, Src = A, Dst = B> = Transform2D<T, Src, Dst>;
type T3<T, Src = A, Dst = B> = Transform3D<T, Src, Dst>;
type SO<T, Src = A, Dst = B> = ScaleOffset2D<T, Src, Dst>;
type HV<T> = HomogeneousVector<T, A>;
type P2<T> = Point2D<T, A>;
type P3<T> = Point3D<T, A>;
type V2<T> = Vector2D<T, A>;
type V3<T> = Vector3D<T, A>;
type Sz<T> = Size2D<T, A>;
type R<T> = Rect<T, A>;
type B2<T> = Box2D<T, A>;
type B3<T> = Box3D<T, A>;

// What a row needs of its scalar: a Scalar's operations, or an Ordered one's.
const S: bool = false;
const O: bool = true;

macro_rules! functions {
    ($($needs:ident $name:literal $notation:literal ($($argument:ident $(: $kind:ty)?),*) $answer:expr;)+) => {
        pub const FUNCTIONS: &[Function] =
            &[$(Function { name: $name, notation: $notation, ordered: $needs }),+];

        /// Adds the answer of the function, given these numbers, to an empty line.
        pub fn call<T: Scalar>(name: &str, numbers: &[T], line: &mut String) -> Result<(), Refusal> {
            let mut numbers = Numbers(numbers);
            match name {
                $($name => {
                    if $needs && !T::ORDERED {
                        return Err(Refusal::Unordered);
                    }
                    $(let $argument $(: $kind)? = numbers.take().ok_or(Refusal::TooFewNumbers)?;)*
                    if !numbers.0.is_empty() {
                        return Err(Refusal::TooManyNumbers);
                    }
                    $answer.say(line);
                    Ok(())
                })+
                _ => Err(Refusal::UnknownFunction),
            }
        }
    };
}

// Every argument that is a value is made by its type's `new`, so the rows of `new` only hand it back.
functions! {
    S "Transform2D::new" "6 -> T2" (m: T2<T>) m;
    S "Transform2D::eq" "T2 T2 -> bool" (m: T2<T>, n) m == n;
    S "Transform2D::to_untyped" "T2 -> T2" (m: T2<T>) m.to_untyped();
    S "Transform2D::from_untyped" "T2 -> T2" (m) T2::<T>::from_untyped(&m);
    S "Transform2D::with_source" "T2 -> T2" (m: T2<T>) m.with_source::<C>();
    S "Transform2D::with_destination" "T2 -> T2" (m: T2<T>) m.with_destination::<C>();
    S "Transform2D::to_3d" "T2 -> T3" (m: T2<T>) m.to_3d();
    O "Transform2D::is_scale_offset_eps" "T2 eps -> bool" (m: T2<T>, eps) m.is_scale_offset_eps(eps);
    S "Transform2D::to_scale_offset" "T2 -> SO" (m: T2<T>) m.to_scale_offset();
    S "Transform2D::identity" "-> T2" () T2::<T>::identity();
    S "Transform2D::then" "T2 T2 -> T2" (m: T2<T>, n: T2<T, B, C>) m.then(&n);
    S "Transform2D::translation" "x y -> T2" (x, y) T2::<T>::translation(x, y);
    S "Transform2D::then_translate" "T2 V2 -> T2" (m: T2<T>, v) m.then_translate(v);
    S "Transform2D::pre_translate" "T2 V2 -> T2" (m: T2<T>, v) m.pre_translate(v);
    S "Transform2D::scale" "x y -> T2" (x, y) T2::<T>::scale(x, y);
    S "Transform2D::then_scale" "T2 x y -> T2" (m: T2<T>, x, y) m.then_scale(x, y);
    S "Transform2D::pre_scale" "T2 x y -> T2" (m: T2<T>, x, y) m.pre_scale(x, y);
    S "Transform2D::transform_point" "T2 P2 -> P2" (m: T2<T>, p) m.transform_point(p);
    S "Transform2D::transform_vector" "T2 V2 -> V2" (m: T2<T>, v) m.transform_vector(v);
    O "Transform2D::outer_transformed_rect" "T2 R -> R" (m: T2<T>, r: R<T>) m.outer_transformed_rect(&r);
    O "Transform2D::outer_transformed_box" "T2 B2 -> B2" (m: T2<T>, b: B2<T>) m.outer_transformed_box(&b);
    S "Transform2D::determinant" "T2 -> s" (m: T2<T>) m.determinant();
    S "Transform2D::is_invertible" "T2 -> bool" (m: T2<T>) m.is_invertible();
    S "Transform2D::inverse" "T2 -> T2?" (m: T2<T>) m.inverse();
    S "Transform2D::from_ScaleOffset2D" "SO -> T2" (m: SO<T>) T2::from(m);

    S "ScaleOffset2D::identity" "-> SO" () SO::<T>::identity();
    S "ScaleOffset2D::new" "4 -> SO" (m: SO<T>) m;
    S "ScaleOffset2D::scale" "sx sy -> SO" (sx, sy) SO::<T>::scale(sx, sy);
    S "ScaleOffset2D::offset" "tx ty -> SO" (tx, ty) SO::<T>::offset(tx, ty);
    S "ScaleOffset2D::transform_point" "SO P2 -> P2" (m: SO<T>, p) m.transform_point(p);
    S "ScaleOffset2D::transform_vector" "SO V2 -> V2" (m: SO<T>, v) m.transform_vector(v);
    O "ScaleOffset2D::transform_box" "SO B2 -> B2" (m: SO<T>, b: B2<T>) m.transform_box(&b);
    O "ScaleOffset2D::transform_rect" "SO R -> R" (m: SO<T>, r: R<T>) m.transform_rect(&r);
    S "ScaleOffset2D::then" "SO SO -> SO" (m: SO<T>, n: SO<T, B, C>) m.then(&n);
    S "ScaleOffset2D::pre_translate" "SO V2 -> SO" (m: SO<T>, v) m.pre_translate(v);
    S "ScaleOffset2D::then_translate" "SO V2 -> SO" (m: SO<T>, v) m.then_translate(v);
    S "ScaleOffset2D::pre_scale" "SO x y -> SO" (m: SO<T>, x, y) m.pre_scale(x, y);
    S "ScaleOffset2D::then_scale" "SO x y -> SO" (m: SO<T>, x, y) m.then_scale(x, y);
    S "ScaleOffset2D::is_invertible" "SO -> bool" (m: SO<T>) m.is_invertible();
    S "ScaleOffset2D::inverse" "SO -> SO?" (m: SO<T>) m.inverse();
    S "ScaleOffset2D::to_transform2d" "SO -> T2" (m: SO<T>) m.to_transform2d();
    S "ScaleOffset2D::to_transform3d" "SO -> T3" (m: SO<T>) m.to_transform3d();
    S "ScaleOffset2D::with_source" "SO -> SO" (m: SO<T>) m.with_source::<C>();
    S "ScaleOffset2D::with_destination" "SO -> SO" (m: SO<T>) m.with_destination::<C>();
    S "ScaleOffset2D::to_untyped" "SO -> SO" (m: SO<T>) m.to_untyped();
    S "ScaleOffset2D::from_untyped" "SO -> SO" (m) SO::<T>::from_untyped(m);
    S "ScaleOffset2D::eq" "SO SO -> bool" (m: SO<T>, n) m == n;

    S "Transform3D::new" "16 -> T3" (m: T3<T>) m;
    S "Transform3D::new_2d" "6 -> T3" (m11, m12, m21, m22, m41, m42) T3::<T>::new_2d(m11, m12, m21, m22, m41, m42);
    S "Transform3D::is_2d" "T3 -> bool" (m: T3<T>) m.is_2d();
    S "Transform3D::from_untyped" "T3 -> T3" (m) T3::<T>::from_untyped(&m);
    S "Transform3D::to_untyped" "T3 -> T3" (m: T3<T>) m.to_untyped();
    S "Transform3D::with_source" "T3 -> T3" (m: T3<T>) m.with_source::<C>();
    S "Transform3D::with_destination" "T3 -> T3" (m: T3<T>) m.with_destination::<C>();
    S "Transform3D::to_2d" "T3 -> T2" (m: T3<T>) m.to_2d();
    O "Transform3D::is_scale_offset_2d_eps" "T3 eps -> bool" (m: T3<T>, eps) m.is_scale_offset_2d_eps(eps);
    S "Transform3D::to_scale_offset2d" "T3 -> SO?" (m: T3<T>) m.to_scale_offset2d();
    S "Transform3D::identity" "-> T3" () T3::<T>::identity();
    S "Transform3D::perspective" "d -> T3" (d) T3::<T>::perspective(d);
    S "Transform3D::then" "T3 T3 -> T3" (m: T3<T>, n: T3<T, B, C>) m.then(&n);
    S "Transform3D::translation" "x y z -> T3" (x, y, z) T3::<T>::translation(x, y, z);
    S "Transform3D::pre_translate" "T3 V3 -> T3" (m: T3<T>, v) m.pre_translate(v);
    S "Transform3D::then_translate" "T3 V3 -> T3" (m: T3<T>, v) m.then_translate(v);
    S "Transform3D::scale" "x y z -> T3" (x, y, z) T3::<T>::scale(x, y, z);
    S "Transform3D::pre_scale" "T3 x y z -> T3" (m: T3<T>, x, y, z) m.pre_scale(x, y, z);
    S "Transform3D::then_scale" "T3 x y z -> T3" (m: T3<T>, x, y, z) m.then_scale(x, y, z);
    S "Transform3D::transform_point2d_homogeneous" "T3 P2 -> HV" (m: T3<T>, p) m.transform_point2d_homogeneous(p);
    O "Transform3D::transform_point2d" "T3 P2 -> P2?" (m: T3<T>, p) m.transform_point2d(p);
    S "Transform3D::transform_vector2d" "T3 V2 -> V2" (m: T3<T>, v) m.transform_vector2d(v);
    S "Transform3D::transform_point3d_homogeneous" "T3 P3 -> HV" (m: T3<T>, p) m.transform_point3d_homogeneous(p);
    O "Transform3D::transform_point3d" "T3 P3 -> P3?" (m: T3<T>, p) m.transform_point3d(p);
    S "Transform3D::transform_vector3d" "T3 V3 -> V3" (m: T3<T>, v) m.transform_vector3d(v);
    O "Transform3D::outer_transformed_rect" "T3 R -> R?" (m: T3<T>, r: R<T>) m.outer_transformed_rect(&r);
    O "Transform3D::outer_transformed_box2d" "T3 B2 -> B2?" (m: T3<T>, b: B2<T>) m.outer_transformed_box2d(&b);
    O "Transform3D::outer_transformed_box3d" "T3 B3 -> B3?" (m: T3<T>, b: B3<T>) m.outer_transformed_box3d(&b);
    S "Transform3D::ortho" "left right bottom top near far -> T3" (left, right, bottom, top, near, far)
        T3::<T>::ortho(left, right, bottom, top, near, far);
    O "Transform3D::is_backface_visible" "T3 -> bool" (m: T3<T>) m.is_backface_visible();
    S "Transform3D::is_invertible" "T3 -> bool" (m: T3<T>) m.is_invertible();
    S "Transform3D::inverse" "T3 -> T3?" (m: T3<T>) m.inverse();
    S "Transform3D::determinant" "T3 -> s" (m: T3<T>) m.determinant();
    S "Transform3D::mul_s" "T3 x -> T3" (m: T3<T>, x) m.mul_s(x);
    S "Transform3D::project_to_2d" "T3 -> T3" (m: T3<T>) m.project_to_2d();
    S "Transform3D::from_Transform2D" "T2 -> T3" (m: T2<T>) T3::from(m);
    S "Transform3D::eq" "T3 T3 -> bool" (m: T3<T>, n) m == n;

    S "HomogeneousVector::new" "4 -> HV" (v: HV<T>) v;
    S "HomogeneousVector::eq" "HV HV -> bool" (v: HV<T>, w) v == w;
    O "HomogeneousVector::to_point2d" "HV -> P2?" (v: HV<T>) v.to_point2d();
    O "HomogeneousVector::to_point3d" "HV -> P3?" (v: HV<T>) v.to_point3d();
    S "HomogeneousVector::from_Vector2D" "V2 -> HV" (v: V2<T>) HV::from(v);
    S "HomogeneousVector::from_Vector3D" "V3 -> HV" (v: V3<T>) HV::from(v);
    S "HomogeneousVector::from_Point2D" "P2 -> HV" (p: P2<T>) HV::from(p);
    S "HomogeneousVector::from_Point3D" "P3 -> HV" (p: P3<T>) HV::from(p);

    S "Point2D::new" "x y -> P2" (p: P2<T>) p;
    S "Point2D::origin" "-> P2" () P2::<T>::origin();
    S "Point2D::zero" "-> P2" () P2::<T>::zero();
    S "Point2D::to_tuple" "P2 -> x y" (p: P2<T>) p.to_tuple();
    S "Point2D::eq" "P2 P2 -> bool" (p: P2<T>, q) p == q;
    S "Point2D::add" "P2 Sz -> P2" (p: P2<T>, size: Sz<T>) p + size;
    S "Point2D::sub" "P2 P2 -> V2" (p: P2<T>, q: P2<T>) p - q;
    S "point2" "x y -> P2" (x, y) point2::<T, A>(x, y);
    S "Point3D::new" "x y z -> P3" (p: P3<T>) p;
    S "Point3D::origin" "-> P3" () P3::<T>::origin();
    S "Point3D::zero" "-> P3" () P3::<T>::zero();
    S "Point3D::to_tuple" "P3 -> x y z" (p: P3<T>) p.to_tuple();
    S "Point3D::eq" "P3 P3 -> bool" (p: P3<T>, q) p == q;
    S "point3" "x y z -> P3" (x, y, z) point3::<T, A>(x, y, z);

    S "Vector2D::new" "x y -> V2" (v: V2<T>) v;
    S "Vector2D::eq" "V2 V2 -> bool" (v: V2<T>, w) v == w;
    S "Vector2D::to_size" "V2 -> Sz" (v: V2<T>) v.to_size();
    S "vec2" "x y -> V2" (x, y) vec2::<T, A>(x, y);
    S "Vector3D::new" "x y z -> V3" (v: V3<T>) v;
    S "Vector3D::eq" "V3 V3 -> bool" (v: V3<T>, w) v == w;
    S "vec3" "x y z -> V3" (x, y, z) vec3::<T, A>(x, y, z);

    S "Size2D::new" "x y -> Sz" (size: Sz<T>) size;
    S "Size2D::eq" "Sz Sz -> bool" (size: Sz<T>, other) size == other;
    S "size2" "x y -> Sz" (x, y) size2::<T, A>(x, y);

    S "Rect::new" "P2 Sz -> R" (r: R<T>) r;
    S "Rect::eq" "R R -> bool" (r: R<T>, other) r == other;
    S "Rect::min" "R -> P2" (r: R<T>) r.min();
    S "Rect::max" "R -> P2" (r: R<T>) r.max();
    S "Rect::to_box2d" "R -> B2" (r: R<T>) r.to_box2d();
    O "Rect::from_points" "P2* -> R" (points: Vec<P2<T>>) R::from_points(points);

    S "Box2D::new" "P2 P2 -> B2" (b: B2<T>) b;
    S "Box2D::eq" "B2 B2 -> bool" (b: B2<T>, other) b == other;
    S "Box2D::zero" "-> B2" () B2::<T>::zero();
    S "Box2D::size" "B2 -> Sz" (b: B2<T>) b.size();
    S "Box2D::to_rect" "B2 -> R" (b: B2<T>) b.to_rect();
    O "Box2D::from_points" "P2* -> B2" (points: Vec<P2<T>>) B2::from_points(points);
    S "Box3D::new" "P3 P3 -> B3" (b: B3<T>) b;
    S "Box3D::eq" "B3 B3 -> bool" (b: B3<T>, other) b == other;
    S "Box3D::zero" "-> B3" () B3::<T>::zero();
    O "Box3D::from_points" "P3* -> B3" (points: Vec<P3<T>>) B3::from_points(points);

    S "Scalar::zero" "-> s" () T::zero();
    S "Scalar::one" "-> s" () T::one();
    S "Scalar::add" "s s -> s" (a: T, b: T) a + b;
    S "Scalar::sub" "s s -> s" (a: T, b: T) a - b;
    S "Scalar::mul" "s s -> s" (a: T, b: T) a * b;
    S "Scalar::neg" "s -> s" (a: T) -a;
    S "Scalar::div" "s s -> s" (a: T, b: T) a / b;
    S "Scalar::eq" "s s -> bool" (a: T, b: T) a == b;
    O "Scalar::lt" "s s -> bool" (a: T, b: T) a < b;
    O "Scalar::abs" "s -> s" (a: T) a.abs();
}
