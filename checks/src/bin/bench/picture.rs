//! What the benchmarks' planes are made of.

use checks::chance::Chance;
use checks::mosaic::{Colour, Mosaic};
use checks::mosaics::filled;

/// A mosaic that looks like a picture: slow changes of light, rings and bars with hard edges, a tint for each
/// colour, noise.
pub fn picture(chance: &mut Chance, width: usize, height: usize, layout: u32) -> Vec<u16> {
    let mosaic = Mosaic { width, height, layout, samples: &[] };
    filled(width, height, |i, j| {
        let (y, x) = (i as f64 / height as f64, j as f64 / width as f64);
        let light = 1400.0 + 700.0 * (9.0 * x).sin() * (7.0 * y).cos();
        let ring = if (20.0 * (x - 0.4).hypot(y - 0.6)) as u64 % 3 == 0 { 800.0 } else { 0.0 };
        let bar = if (i + 2 * j) / 23 % 5 == 0 { 500.0 } else { 0.0 };
        let tint = match mosaic.colour(i as i64, j as i64) {
            Colour::Red => 1.3,
            Colour::Green => 1.0,
            Colour::Blue => 0.6,
        };
        let noise = f64::from(chance.within(40));
        (tint * (light + ring + bar) + noise).clamp(0.0, 4095.0) as u16
    })
}
