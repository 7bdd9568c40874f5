//! What upstream's files import from files that are not there, as little of it as lets them compile.
//! No function that the harness asks about calls any of this.
use crate::num::Zero;
use crate::{Angle, Transform2D, Trig};
use core::marker::PhantomData;
use core::ops::{Add, Mul, Sub};

// Used by min, max, clamp, union and intersection of points, vectors, sizes and boxes.
pub mod approxord {
    pub fn min<T: PartialOrd>(x: T, y: T) -> T {
        if x <= y { x } else { y }
    }
    pub fn max<T: PartialOrd>(x: T, y: T) -> T {
        if x >= y { x } else { y }
    }
}

// Used by the from_lengths of points, vectors and sizes.
pub mod length {
    use super::PhantomData;
    pub struct Length<T, Unit>(pub T, pub PhantomData<Unit>);
}

// Used by the products and quotients of everything with a Scale, and by the From<Scale> of the transforms.
pub mod scale {
    use super::PhantomData;
    pub struct Scale<T, Src, Dst>(pub T, pub PhantomData<(Src, Dst)>);
    impl<T: Copy, Src, Dst> Copy for Scale<T, Src, Dst> {}
    impl<T: Copy, Src, Dst> Clone for Scale<T, Src, Dst> {
        fn clone(&self) -> Self {
            *self
        }
    }
    impl<T, Src, Dst> Scale<T, Src, Dst> {
        pub const fn new(factor: T) -> Self {
            Scale(factor, PhantomData)
        }
        pub fn get(self) -> T {
            self.0
        }
    }
}

// Used by inner_box, outer_box, inner_rect and outer_rect.
pub mod side_offsets {
    use super::{Add, PhantomData};
    pub struct SideOffsets2D<T, Unit> {
        pub top: T,
        pub right: T,
        pub bottom: T,
        pub left: T,
        pub _unit: PhantomData<Unit>,
    }
    impl<T: Copy + Add<T, Output = T>, Unit> SideOffsets2D<T, Unit> {
        pub fn horizontal(&self) -> T {
            self.left + self.right
        }
        pub fn vertical(&self) -> T {
            self.top + self.bottom
        }
    }
}

// Used by the From<Translation2D> of ScaleOffset2D.
pub mod translation {
    use super::PhantomData;
    pub struct Translation2D<T, Src, Dst> {
        pub x: T,
        pub y: T,
        pub _unit: PhantomData<(Src, Dst)>,
    }
}

// Used by the From<Rotation2D> of Transform2D.
pub struct Rotation2D<T, Src, Dst> {
    pub angle: T,
    pub _unit: PhantomData<(Src, Dst)>,
}
impl<T, Src, Dst> Rotation2D<T, Src, Dst>
where
    T: Copy + Add<Output = T> + Sub<Output = T> + Mul<Output = T> + Zero + Trig,
{
    pub fn to_transform(&self) -> Transform2D<T, Src, Dst> {
        Transform2D::rotation(Angle::radians(self.angle))
    }
}

// Used by sums and differences of Point3D with a size, Vector3D::to_size, and the size and From of Box3D.
pub struct Size3D<T, Unit> {
    pub width: T,
    pub height: T,
    pub depth: T,
    pub _unit: PhantomData<Unit>,
}
impl<T, Unit> Size3D<T, Unit> {
    pub const fn new(width: T, height: T, depth: T) -> Self {
        Size3D { width, height, depth, _unit: PhantomData }
    }
}
pub const fn size3<T, Unit>(width: T, height: T, depth: T) -> Size3D<T, Unit> {
    Size3D::new(width, height, depth)
}
