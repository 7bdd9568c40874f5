//! euclid 0.22.14, from its own files in ../upstream, with stand-ins for what those files import and is not there.

// Upstream exports more than this root hands on.
#![allow(dead_code, unused_imports)]

// Upstream's macros.rs: conversions to another crate's types, of which there are none without the feature `mint`.
macro_rules! mint_vec {
    ($($t:tt)*) => {};
}

#[path = "../upstream/angle.rs"]
mod angle;
#[path = "../upstream/approxeq.rs"]
pub mod approxeq;
#[path = "../upstream/box2d.rs"]
mod box2d;
#[path = "../upstream/box3d.rs"]
mod box3d;
#[path = "../upstream/homogen.rs"]
mod homogen;
#[path = "../upstream/num.rs"]
pub mod num;
#[path = "../upstream/point.rs"]
mod point;
#[path = "../upstream/rect.rs"]
mod rect;
#[path = "../upstream/transform2d.rs"]
mod transform2d;
#[path = "../upstream/transform3d.rs"]
mod transform3d;
#[path = "../upstream/trig.rs"]
mod trig;
#[path = "../upstream/vector.rs"]
mod vector;

// Upstream's size.rs has Size2D alone, and its other files look for Size3D in the same module.
mod size {
    include!("../upstream/size.rs");
    pub use crate::stand_ins::{size3, Size3D};
}

mod stand_ins;
use stand_ins::{approxord, length, scale, side_offsets, translation, Rotation2D};

pub use crate::angle::Angle;
pub use crate::box2d::Box2D;
pub use crate::box3d::Box3D;
pub use crate::homogen::HomogeneousVector;
pub use crate::point::{point2, point3, Point2D, Point3D};
pub use crate::rect::Rect;
pub use crate::size::{size2, Size2D};
pub use crate::transform2d::{ScaleOffset2D, Transform2D};
pub use crate::transform3d::Transform3D;
pub use crate::trig::Trig;
pub use crate::vector::{vec2, vec3, Vector2D, Vector3D};

/// The unit of what has none.
pub struct UnknownUnit;
