// The C symbols of the static library. Floats in, numbers out: every call is safe.

use crate::digits::RootDigits;

unsafe extern "C" {
    #[link_name = "leaf_abs"]
    pub safe fn abs(x: f64) -> f64;
    #[link_name = "leaf_max"]
    pub safe fn max(x: f64, y: f64) -> f64;
    #[link_name = "leaf_min"]
    pub safe fn min(x: f64, y: f64) -> f64;
    // A byte, so that an answer other than 0 and 1 would show.
    #[link_name = "leaf_is_finite"]
    pub safe fn is_finite(x: f64) -> u8;
    #[link_name = "leaf_trunc"]
    pub safe fn trunc(x: f64) -> f64;
    #[link_name = "leaf_ceil"]
    pub safe fn ceil(x: f64) -> f64;
    #[link_name = "leaf_round"]
    pub safe fn round(x: f64) -> f64;
    #[link_name = "leaf_rem_euclid_360"]
    pub safe fn rem_euclid_360(x: f64) -> f64;
    #[link_name = "leaf_root"]
    pub safe fn root(x: f64) -> f64;
    #[link_name = "leaf_root_digits"]
    pub safe fn root_digits(x: f64) -> RootDigits;
    #[link_name = "leaf_hypot"]
    pub safe fn hypot(x: f64, y: f64) -> f64;
    #[link_name = "leaf_sin"]
    pub safe fn sin(t: f64) -> f64;
    #[link_name = "leaf_cos"]
    pub safe fn cos(t: f64) -> f64;
    #[link_name = "leaf_tan"]
    pub safe fn tan(t: f64) -> f64;
    #[link_name = "leaf_ln"]
    pub safe fn ln(v: f64) -> f64;
    #[link_name = "leaf_exp"]
    pub safe fn exp(v: f64) -> f64;
    #[link_name = "leaf_atan"]
    pub safe fn atan(v: f64) -> f64;
    #[link_name = "leaf_atan2"]
    pub safe fn atan2(y: f64, x: f64) -> f64;
    #[link_name = "leaf_acos"]
    pub safe fn acos(v: f64) -> f64;
    #[link_name = "leaf_to_radians"]
    pub safe fn to_radians(x: f64) -> f64;
    #[link_name = "leaf_to_degrees"]
    pub safe fn to_degrees(x: f64) -> f64;
}
