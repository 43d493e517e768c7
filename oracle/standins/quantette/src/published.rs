//! The published Oklab definition (Björn Ottosson's) over the sRGB decoding of
//! IEC 61966-2-1, in floating point.

use std::sync::OnceLock;

/// From linear red, green, blue to the three cone responses.
const TO_CONES: [[f64; 3]; 3] = [
    [0.4122214708, 0.5363325363, 0.0514459929],
    [0.2119034982, 0.6806995451, 0.1073969566],
    [0.0883024619, 0.2817188376, 0.6299787005],
];

/// From the cube roots of the cone responses to lightness, a, b.
const TO_LAB: [[f64; 3]; 3] = [
    [0.2104542553, 0.7936177850, -0.0040720468],
    [1.9779984951, -2.4285922050, 0.4505937099],
    [0.0259040371, 0.7827717662, -0.8086757660],
];

/// The linear value of a byte, from 0 to 1.
pub fn linear_f64(byte: u8) -> f64 {
    let c = f64::from(byte) / 255.0;
    if c <= 0.04045 { c / 12.92 } else { ((c + 0.055) / 1.055).powf(2.4) }
}

/// In f64, rounded to f32 at the end.
pub fn to_oklab_f64(r: u8, g: u8, b: u8) -> [f32; 3] {
    let linear = [r, g, b].map(linear_f64);
    let dot = |row: [f64; 3], v: [f64; 3]| row[0] * v[0] + row[1] * v[1] + row[2] * v[2];
    let roots = TO_CONES.map(|row| dot(row, linear).cbrt());
    TO_LAB.map(|row| dot(row, roots) as f32)
}

/// In f32 throughout, with a table of linear values.
pub fn to_oklab_f32(r: u8, g: u8, b: u8) -> [f32; 3] {
    static LINEAR: OnceLock<[f32; 256]> = OnceLock::new();
    let table = LINEAR.get_or_init(|| std::array::from_fn(|k| linear_f64(k as u8) as f32));
    let linear = [r, g, b].map(|k| table[usize::from(k)]);
    let dot = |row: [f64; 3], v: [f32; 3]| row[0] as f32 * v[0] + row[1] as f32 * v[1] + row[2] as f32 * v[2];
    let roots = TO_CONES.map(|row| dot(row, linear).cbrt());
    TO_LAB.map(|row| dot(row, roots))
}

#[cfg(test)]
mod tests {
    use super::*;
    use crate::exact;

    /// How far two conversions are apart over a grid of colours, at most.
    fn apart(f: fn(u8, u8, u8) -> [f32; 3], g: fn(u8, u8, u8) -> [f32; 3]) -> f32 {
        let mut most = 0.0f32;
        for n in (0..1u32 << 24).step_by(997) {
            let [_, r, g8, b] = n.to_be_bytes();
            for (p, q) in f(r, g8, b).into_iter().zip(g(r, g8, b)) {
                most = most.max((p - q).abs());
            }
        }
        most
    }

    #[test]
    fn conversions_are_near_each_other_and_not_the_same() {
        for (f, g, far) in [
            (to_oklab_f64 as fn(u8, u8, u8) -> [f32; 3], to_oklab_f32 as fn(u8, u8, u8) -> [f32; 3], 2e-6),
            (to_oklab_f64, exact::to_oklab, 6e-6),
        ] {
            let most = apart(f, g);
            assert!(most > 0.0 && most < far, "{most}");
        }
    }
}
