//! A plain layout: columns by the number of steps from the start, arrows back under the boxes.

use super::layout::{Arrow, Curve, Drawing, Layout, Point, BOX, HEAD, LINE};

/// Room between two boxes of a column, and between columns beside the longest label.
const BELOW: f64 = 28.0;
const BESIDE: f64 = 56.0;

/// How much lower an arrow back is for each column that it passes.
const LOWER: f64 = 26.0;

pub fn layout(drawing: &Drawing) -> Layout {
    let columns = columns(drawing);
    let boxes = places(drawing, &columns);
    let curves = drawing.arrows.iter().map(|arrow| {
        let ends = Ends::of(drawing, &boxes, arrow);
        let (from, to) = (columns[arrow.from], columns[arrow.to]);
        match arrow.from == arrow.to {
            true => ends.around(),
            false if to > from => ends.forth(),
            false => ends.back(from - to),
        }
    });
    let curves = curves.collect();
    Layout {
        boxes,
        curves,
        width: 0.0,
        height: 0.0,
    }
}

/// The column of each box: one behind the first box that leads to it. Arrows are in the order of what they come from, and
/// boxes in the order in which they are reached.
fn columns(drawing: &Drawing) -> Vec<usize> {
    let mut columns = vec![None; drawing.widths.len()];
    columns[0] = Some(0);
    for arrow in &drawing.arrows {
        let next = columns[arrow.from].map_or(0, |column| column + 1);
        columns[arrow.to].get_or_insert(next);
    }
    columns.into_iter().map(Option::unwrap_or_default).collect()
}

/// The boxes of a column below each other, around the middle.
fn places(drawing: &Drawing, columns: &[usize]) -> Vec<Point> {
    let count = columns.iter().max().map_or(0, |last| last + 1);
    let mut wide = vec![0.0_f64; count];
    let mut gaps = vec![0.0_f64; count];
    let mut heights = vec![0_usize; count];
    let mut high = LINE;
    for (width, column) in drawing.widths.iter().zip(columns) {
        wide[*column] = width.max(wide[*column]);
        heights[*column] += 1;
    }
    for arrow in &drawing.arrows {
        let column = columns[arrow.from];
        if columns[arrow.to] > column {
            gaps[column] = arrow.wide().max(gaps[column]);
            high = arrow.high().max(high);
        }
    }
    let mut next = vec![0_usize; count];
    let place = columns.iter().zip(&drawing.widths).map(|(&column, width)| {
        let before: f64 = (0..column)
            .map(|left| wide[left] + gaps[left] + BESIDE)
            .sum();
        let above = next[column] as f64 - (heights[column] - 1) as f64 / 2.0;
        next[column] += 1;
        Point {
            x: before + width / 2.0,
            y: above * (BOX + BELOW + high - LINE),
        }
    });
    place.collect()
}

/// The two boxes of an arrow.
struct Ends {
    from: Point,
    to: Point,
    /// Half the widths of the boxes.
    from_half: f64,
    to_half: f64,
    /// The height of the label.
    high: f64,
}

impl Ends {
    fn of(drawing: &Drawing, boxes: &[Point], arrow: &Arrow) -> Self {
        Ends {
            from: boxes[arrow.from],
            to: boxes[arrow.to],
            from_half: drawing.widths[arrow.from] / 2.0,
            to_half: drawing.widths[arrow.to] / 2.0,
            high: arrow.high(),
        }
    }

    /// From the right side of a box to the left side of one further right.
    fn forth(&self) -> Curve {
        let start = at(self.from.x + self.from_half, self.from.y);
        let end = at(self.to.x - self.to_half - HEAD, self.to.y);
        let third = (end.x - start.x) / 3.0;
        let first = at(start.x + third, start.y);
        self.curve([start, first, at(end.x - third, end.y), end])
    }

    /// From the bottom of a box to the bottom of one further left or in the same column.
    fn back(&self, columns: usize) -> Curve {
        let columns = columns as f64;
        let aside = (columns * 6.0).min(self.to_half - 8.0);
        let start = at(self.from.x - self.from_half / 2.0, self.from.y + BOX / 2.0);
        let end = at(self.to.x + aside, self.to.y + BOX / 2.0 + HEAD);
        let lowest = start.y.max(end.y) + BELOW + columns * LOWER + (self.high - LINE) * 1.5;
        self.curve([start, at(start.x, lowest), at(end.x, lowest), end])
    }

    /// From a box to itself, above it.
    fn around(&self) -> Curve {
        let (wide, top) = (self.from_half / 2.0, self.from.y - BOX / 2.0);
        let highest = top - BELOW - HEAD;
        let start = at(self.from.x + wide, top);
        let end = at(self.from.x - wide, top - HEAD);
        self.curve([start, at(start.x, highest), at(end.x, highest), end])
    }

    /// A curve with its label above its middle.
    fn curve(&self, points: [Point; 4]) -> Curve {
        let [start, first, second, end] = points;
        let middle =
            |of: fn(Point) -> f64| (of(start) + 3.0 * of(first) + 3.0 * of(second) + of(end)) / 8.0;
        let label = at(middle(|at| at.x), middle(|at| at.y) - self.high / 2.0);
        let points = points.to_vec();
        Curve { points, label }
    }
}

fn at(x: f64, y: f64) -> Point {
    Point { x, y }
}
