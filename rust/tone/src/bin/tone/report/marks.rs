//! Marks along the time axis, over the frame: fades, seeks and refused lines. Those
//! that would lie on one another are drawn as one.

use super::axis::LEFT;
use super::markup::At;

/// The least distance of two marks.
const MARK_GAP: f64 = 10.0;
/// The least distance of a mark with a label from its neighbours.
const LABEL_GAP: f64 = 24.0;

/// A mark's shape.
#[derive(Clone, Copy, Debug, PartialEq, Eq)]
pub enum Shape {
    /// A fade to a higher level.
    Up,
    /// A fade to a lower level.
    Down,
    /// Fades of both kinds.
    Both,
    /// A seek.
    Seek,
    /// A refused line.
    Refused,
}

impl Shape {
    /// The shape around a place.
    pub fn svg(self, x: f64, y: f64) -> String {
        let (name, path) = match self {
            Shape::Up => ("solid", "m0 -4l4.5 8h-9z"),
            Shape::Down => ("hollow", "m0 4l4.5 -8h-9z"),
            Shape::Both => ("solid", "m0 -4.5l4.5 4.5l-4.5 4.5l-4.5 -4.5z"),
            Shape::Seek => ("hollow", "m-3.5 0a3.5 3.5 0 0 0 7 0a3.5 3.5 0 0 0 -7 0z"),
            Shape::Refused => ("cross", "m-3.5 -3.5l7 7m0 -7l-7 7"),
        };
        format!("<path class=\"{name}\" d=\"M{} {}{path}\"/>", At(x), At(y))
    }
}

/// A mark in a lane.
#[derive(Clone, Debug, PartialEq)]
pub struct Mark {
    /// Its place.
    pub x: f64,
    /// Its shape.
    pub shape: Shape,
    /// What stands over it, where there is room.
    pub label: Option<String>,
}

/// Joins each mark with those that are too near after it.
pub fn joined(marks: impl Iterator<Item = Mark>) -> Vec<Mark> {
    let mut apart: Vec<Mark> = Vec::new();
    for mark in marks {
        match apart.last_mut() {
            Some(last) if mark.x - last.x < MARK_GAP => {
                last.label = None;
                if last.shape != mark.shape {
                    last.shape = Shape::Both;
                }
            }
            _ => apart.push(mark),
        }
    }
    apart
}

/// A lane of marks around a height, with its name at the left.
pub fn lane(name: &str, y: f64, marks: &[Mark]) -> String {
    let (x, baseline) = (At(LEFT - 10.0), At(y + 3.5));
    let name = format!("<text x=\"{x}\" y=\"{baseline}\" class=\"end\">{name}</text>\n");
    let draw = |(index, mark): (usize, &Mark)| {
        let label = mark.label.as_deref();
        let label = label.filter(|_| has_room(marks, index));
        let label = label.map_or(String::new(), |label| label_svg(label, mark.x, y));
        format!("{}{label}\n", mark.shape.svg(mark.x, y))
    };
    [name]
        .into_iter()
        .chain(marks.iter().enumerate().map(draw))
        .collect()
}

fn label_svg(label: &str, x: f64, y: f64) -> String {
    let (x, y) = (At(x), At(y - 7.0));
    format!("<text x=\"{x}\" y=\"{y}\" class=\"middle\">{label}</text>")
}

/// Whether a mark stands far enough from its neighbours for a label.
fn has_room(marks: &[Mark], index: usize) -> bool {
    let far = |pair: &[Mark]| pair[1].x - pair[0].x >= LABEL_GAP;
    let from = index.saturating_sub(1);
    let to = (index + 2).min(marks.len());
    marks[from..to].windows(2).all(far)
}

#[cfg(test)]
mod tests {
    use super::*;

    fn mark(x: f64, shape: Shape) -> Mark {
        let label = Some(format!("at {x}"));
        Mark { x, shape, label }
    }

    #[test]
    fn near_marks_are_one() {
        let marks = [
            mark(0.0, Shape::Up),
            mark(9.9, Shape::Up),
            mark(10.0, Shape::Up),
            mark(12.0, Shape::Down),
            mark(40.0, Shape::Down),
        ];
        let drawn = joined(marks.into_iter());
        let shapes: Vec<(f64, Shape)> = drawn.iter().map(|mark| (mark.x, mark.shape)).collect();
        let expected = [(0.0, Shape::Up), (10.0, Shape::Both), (40.0, Shape::Down)];
        assert_eq!(shapes, expected);
        assert_eq!(drawn[0].label, None);
        assert_eq!(drawn[2].label, Some("at 40".to_owned()));
    }

    #[test]
    fn marks_are_few() {
        let many = (0..100_000).map(|at| mark(f64::from(at) * 0.006, Shape::Seek));
        assert!(joined(many).len() <= 60);
    }

    #[test]
    fn labels_where_there_is_room() {
        let marks = [0.0, 30.0, 50.0, 80.0].map(|x| mark(x, Shape::Up));
        let room: Vec<bool> = (0..4).map(|index| has_room(&marks, index)).collect();
        assert_eq!(room, [true, false, false, true]);
        let svg = lane("fades", 40.0, &marks);
        assert!(svg.contains(">at 0<") && svg.contains(">at 80<"), "{svg}");
        assert!(
            !svg.contains(">at 30<") && !svg.contains(">at 50<"),
            "{svg}"
        );
    }
}
