// Stands in for geographiclib: frame enu and the residual are left out, so
// every geodesic has length 0 and no residual is warned of.

pub struct Geodesic;

impl Geodesic {
    pub fn wgs84() -> Geodesic {
        Geodesic
    }
}

pub trait DirectGeodesic<T> {
    fn direct(&self, lat: f64, lon: f64, azimuth: f64, length: f64) -> T;
}

impl DirectGeodesic<(f64, f64)> for Geodesic {
    fn direct(&self, lat: f64, lon: f64, _azimuth: f64, _length: f64) -> (f64, f64) {
        (lat, lon)
    }
}

pub trait InverseGeodesic<T> {
    fn inverse(&self, lat1: f64, lon1: f64, lat2: f64, lon2: f64) -> T;
}

impl InverseGeodesic<f64> for Geodesic {
    fn inverse(&self, _: f64, _: f64, _: f64, _: f64) -> f64 {
        0.0
    }
}

impl InverseGeodesic<(f64, f64, f64, f64)> for Geodesic {
    fn inverse(&self, _: f64, _: f64, _: f64, _: f64) -> (f64, f64, f64, f64) {
        (0.0, 0.0, 0.0, 0.0)
    }
}
