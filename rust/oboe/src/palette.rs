//! The colours in which a map's colours are drawn.

/// Red, green and blue.
pub type Paint = [u8; 3];

/// The first colours: white for WHITE, then eight that people who see colours differently tell apart too (Okabe and Ito).
const FIRST: [Paint; 9] = [
    [255, 255, 255],
    [0, 0, 0],
    [230, 159, 0],
    [86, 180, 233],
    [0, 158, 115],
    [240, 228, 66],
    [0, 114, 178],
    [213, 94, 0],
    [204, 121, 167],
];

/// The paint of a colour; no two colours have the same.
pub fn paint(colour: u8) -> Paint {
    match FIRST.get(usize::from(colour)) {
        Some(paint) => *paint,
        None => on_the_wheel(f64::from(colour) * 0.618_034, [0.45, 0.7, 0.85][usize::from(colour) % 3]),
    }
}

/// A paint by its hue, in turns around the wheel, and its brightness.
fn on_the_wheel(turns: f64, brightness: f64) -> Paint {
    let part = |third: f64| {
        let away = ((turns + third).fract() * 6.0 - 3.0).abs() - 1.0;
        (255.0 * brightness * (0.25 + 0.75 * away.clamp(0.0, 1.0))).round() as u8
    };
    [part(0.0), part(2.0 / 3.0), part(1.0 / 3.0)]
}

/// The paints of all colours, in order.
pub fn all() -> Vec<Paint> {
    (0..=255).map(paint).collect()
}

#[cfg(test)]
mod tests {
    use super::*;
    use std::collections::HashSet;

    #[test]
    fn no_two_colours_look_the_same() {
        assert_eq!(all().into_iter().collect::<HashSet<_>>().len(), 256);
    }
}
