//! What the signs of the levels' picture mean.

use super::axis::LEFT;
use super::marks::Shape;
use super::markup::At;

/// The height of all rows.
pub const LEGEND_HEIGHT: f64 = 2.0 * ROW;

const ROW: f64 = 16.0;
const COLUMN: f64 = 158.0;

/// From a sign's middle to its text.
const TEXT: f64 = 13.0;

/// A sign that is explained.
enum Sign {
    Line,
    Band,
    Mark(Shape),
}

impl Sign {
    fn svg(&self, x: f64, y: f64) -> String {
        let left = At(x - 8.0);
        match self {
            Sign::Line => format!("<path class=\"line\" d=\"M{left} {}h16\"/>", At(y)),
            Sign::Band => format!(
                "<rect class=\"band\" fill=\"url(#hatch)\" x=\"{left}\" y=\"{}\" width=\"16\" \
                 height=\"10\"/>",
                At(y - 5.0)
            ),
            Sign::Mark(shape) => shape.svg(x, y),
        }
    }
}

/// The signs, each with its column and row.
const SIGNS: [(f64, f64, Sign, &str); 7] = [
    (0.0, 0.0, Sign::Line, "current level"),
    (1.0, 0.0, Sign::Band, "fade, old to new level"),
    (2.0, 0.0, Sign::Mark(Shape::Seek), "seek"),
    (3.0, 0.0, Sign::Mark(Shape::Refused), "refused line"),
    (0.0, 1.0, Sign::Mark(Shape::Up), "fade to a higher level"),
    (1.0, 1.0, Sign::Mark(Shape::Down), "fade to a lower level"),
    (2.0, 1.0, Sign::Mark(Shape::Both), "fades of both kinds"),
];

/// The legend from a height on.
pub fn legend(top: f64) -> String {
    let explain = |(column, row, sign, text): &(f64, f64, Sign, &str)| {
        let (x, y) = (LEFT + 8.0 + COLUMN * column, top + ROW * (row + 0.5));
        let (at, baseline) = (At(x + TEXT), At(y + 3.5));
        let sign = sign.svg(x, y);
        format!("{sign}<text x=\"{at}\" y=\"{baseline}\">{text}</text>\n")
    };
    SIGNS.iter().map(explain).collect()
}
