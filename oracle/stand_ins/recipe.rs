//! Document 01's stand-in for `ln((1 - p) / p)`, each operation rounded once.
pub fn weight(p: f64) -> f64 {
    if p == 0. {
        return f64::INFINITY;
    }
    let mut m = (1. - p) / p;
    let mut k = 0;
    while m >= 2. {
        m /= 2.;
        k += 1;
    }
    let s = (m - 1.) / (m + 1.);
    let z = s * s;
    let mut h = 1. / 35.;
    for n in (0..=16).rev() {
        h = h * z + 1. / ((2 * n + 1) as f64);
    }
    k as f64 * f64::from_bits(0x3fe62e42fefa39ef) + (2. * s) * h
}
