//! Where boxes and arrows of a drawing stand, in pixels; y grows downwards.

use super::{graphviz, layered};

/// The width of a letter of the page's font, and the height of its lines.
pub const LETTER: f64 = 7.9;
pub const LINE: f64 = 18.0;

/// The height of a box, and the length of an arrow's head, which stands behind the end of its curve.
pub const BOX: f64 = 32.0;
pub const HEAD: f64 = 9.0;

/// Room around the drawing.
const BORDER: f64 = 16.0;

#[derive(Clone, Copy, Debug, PartialEq)]
pub struct Point {
    pub x: f64,
    pub y: f64,
}

/// What is to be drawn: the widths of boxes, the first of which is the start, and arrows between them.
pub struct Drawing {
    pub widths: Vec<f64>,
    pub arrows: Vec<Arrow>,
}

pub struct Arrow {
    pub from: usize,
    pub to: usize,
    /// The lines of its label, and the letters of the longest.
    pub lines: usize,
    pub letters: usize,
}

impl Arrow {
    /// The width of its label.
    pub fn wide(&self) -> f64 {
        self.letters as f64 * LETTER
    }

    /// The height of its label.
    pub fn high(&self) -> f64 {
        self.lines as f64 * LINE
    }
}

/// The middle of each box, and the arrows' curves.
#[derive(Debug, PartialEq)]
pub struct Layout {
    pub boxes: Vec<Point>,
    pub curves: Vec<Curve>,
    pub width: f64,
    pub height: f64,
}

/// Cubic curves, each from the end of the one before it, by 1 + 3n points; and the middle of the label.
#[derive(Debug, PartialEq)]
pub struct Curve {
    pub points: Vec<Point>,
    pub label: Point,
}

impl Drawing {
    /// The layout of Graphviz if it can be had, else a plain one.
    pub fn layout(&self) -> Layout {
        let layout = graphviz::layout(self);
        layout.unwrap_or_else(|| layered::layout(self)).moved(self)
    }
}

impl Layout {
    /// The same with the border around all that is drawn, which is thereby as large as said.
    fn moved(mut self, drawing: &Drawing) -> Layout {
        let boxes = self.boxes.iter().zip(&drawing.widths);
        let boxes = boxes.map(|(at, width)| (*at, width / 2.0, BOX / 2.0));
        let curves = self.curves.iter().zip(&drawing.arrows);
        let curves = curves.flat_map(|(curve, arrow)| {
            let points = curve.points.iter().map(|at| (*at, 0.0, 0.0));
            points.chain([(curve.label, arrow.wide() / 2.0, arrow.high() / 2.0)])
        });
        let mut least = Point { x: 0.0, y: 0.0 };
        let mut most = least;
        for (at, wide, high) in boxes.chain(curves) {
            least.x = least.x.min(at.x - wide);
            least.y = least.y.min(at.y - high);
            most.x = most.x.max(at.x + wide);
            most.y = most.y.max(at.y + high);
        }
        let points = self.curves.iter_mut();
        let points = points.flat_map(|curve| curve.points.iter_mut().chain([&mut curve.label]));
        for at in self.boxes.iter_mut().chain(points) {
            at.x += BORDER - least.x;
            at.y += BORDER - least.y;
        }
        self.width = most.x - least.x + 2.0 * BORDER;
        self.height = most.y - least.y + 2.0 * BORDER;
        self
    }
}
