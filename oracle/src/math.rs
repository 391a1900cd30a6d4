//! A stand-in for the crate's vector and its tolerance. `normalize` is document 01's reading: the length rounded once, its reciprocal, two products.
use std::ops::{Div, Neg, Sub};

pub type Real = f32;

pub const DEFAULT_EPSILON: Real = Real::EPSILON;

#[derive(Clone, Copy, Debug, PartialEq)]
pub struct Vector {
    pub x: Real,
    pub y: Real,
}

pub type Vector2 = Vector;

impl Vector {
    pub const ZERO: Vector = Vector::new(0.0, 0.0);
    pub const X: Vector = Vector::new(1.0, 0.0);
    pub const Y: Vector = Vector::new(0.0, 1.0);

    pub const fn new(x: Real, y: Real) -> Vector {
        Vector { x, y }
    }

    pub fn dot(self, o: Vector) -> Real {
        self.x * o.x + self.y * o.y
    }

    pub fn perp_dot(self, o: Vector) -> Real {
        self.x * o.y - self.y * o.x
    }

    pub fn length_squared(self) -> Real {
        self.dot(self)
    }

    pub fn length(self) -> Real {
        self.dot(self).sqrt()
    }

    pub fn normalize(self) -> Vector {
        let r = 1.0 / self.length();
        Vector { x: self.x * r, y: self.y * r }
    }
}

impl Sub for Vector {
    type Output = Vector;
    fn sub(self, o: Vector) -> Vector {
        Vector { x: self.x - o.x, y: self.y - o.y }
    }
}

impl Sub<&Vector> for Vector {
    type Output = Vector;
    fn sub(self, o: &Vector) -> Vector {
        self - *o
    }
}

impl Neg for Vector {
    type Output = Vector;
    fn neg(self) -> Vector {
        Vector { x: -self.x, y: -self.y }
    }
}

impl Div<Real> for Vector {
    type Output = Vector;
    fn div(self, by: Real) -> Vector {
        Vector { x: self.x / by, y: self.y / by }
    }
}
