// The stand-ins as methods, under names of their own: a method of f64 itself
// would win over a trait's of the same name.

use crate::standins;

pub trait Leaf {
    fn leaf_abs(self) -> f64;
    fn leaf_max(self, other: f64) -> f64;
    fn leaf_min(self, other: f64) -> f64;
    fn leaf_is_finite(self) -> bool;
    fn leaf_ceil(self) -> f64;
    fn leaf_round(self) -> f64;
    fn leaf_rem_euclid_360(self) -> f64;
    fn leaf_root(self) -> f64;
    fn leaf_hypot(self, other: f64) -> f64;
    fn leaf_sin(self) -> f64;
    fn leaf_cos(self) -> f64;
    fn leaf_tan(self) -> f64;
    fn leaf_ln(self) -> f64;
    fn leaf_exp(self) -> f64;
    fn leaf_atan(self) -> f64;
    fn leaf_atan2(self, x: f64) -> f64;
    fn leaf_acos(self) -> f64;
    fn leaf_to_radians(self) -> f64;
    fn leaf_to_degrees(self) -> f64;
}

impl Leaf for f64 {
    fn leaf_abs(self) -> f64 {
        standins::abs(self)
    }
    fn leaf_max(self, other: f64) -> f64 {
        standins::max(self, other)
    }
    fn leaf_min(self, other: f64) -> f64 {
        standins::min(self, other)
    }
    fn leaf_is_finite(self) -> bool {
        standins::is_finite(self)
    }
    fn leaf_ceil(self) -> f64 {
        standins::ceil(self)
    }
    fn leaf_round(self) -> f64 {
        standins::round(self)
    }
    fn leaf_rem_euclid_360(self) -> f64 {
        standins::rem_euclid_360(self)
    }
    fn leaf_root(self) -> f64 {
        standins::root(self)
    }
    fn leaf_hypot(self, other: f64) -> f64 {
        standins::hypot(self, other)
    }
    fn leaf_sin(self) -> f64 {
        standins::sin(self)
    }
    fn leaf_cos(self) -> f64 {
        standins::cos(self)
    }
    fn leaf_tan(self) -> f64 {
        standins::tan(self)
    }
    fn leaf_ln(self) -> f64 {
        standins::ln(self)
    }
    fn leaf_exp(self) -> f64 {
        standins::exp(self)
    }
    fn leaf_atan(self) -> f64 {
        standins::atan(self)
    }
    fn leaf_atan2(self, x: f64) -> f64 {
        standins::atan2(self, x)
    }
    fn leaf_acos(self) -> f64 {
        standins::acos(self)
    }
    fn leaf_to_radians(self) -> f64 {
        standins::to_radians(self)
    }
    fn leaf_to_degrees(self) -> f64 {
        standins::to_degrees(self)
    }
}
