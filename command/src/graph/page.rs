//! A page that stands alone: the graph drawn, and a little script by which a click takes a step.

use std::collections::HashMap;
use std::fmt::Write;

use super::layout::{Arrow, Curve, Drawing, Point, BOX, LETTER, LINE};
use super::{Edge, End, Graph};
use crate::naming::Naming;

const STYLE: &str = include_str!("page.css");
const SCRIPT: &str = include_str!("page.js");

/// The longest text in a box; the page shows the whole beside the drawing.
const LONGEST: usize = 40;

/// Room in a box beside its text.
const BESIDE: f64 = 22.0;

/// So many labels stand at an arrow; the page lists all steps beside the drawing.
const LABELS: usize = 6;

/// A graph as it is drawn.
struct Picture<'g> {
    graph: &'g Graph<'g>,
    naming: &'g Naming,
    /// The texts of boxes: of stacks, and behind them of marks.
    texts: Vec<String>,
    bundles: Vec<Bundle<'g>>,
}

/// All steps from one box to another.
struct Bundle<'g> {
    from: usize,
    to: usize,
    steps: Vec<&'g Edge>,
}

/// The page of a graph.
pub fn page(name: &str, graph: &Graph, naming: &Naming) -> String {
    let (name, counts) = (escaped(name), graph.counts());
    let drawn = Picture::of(graph, naming).svg();
    format!(
        "<!DOCTYPE html>\n<html lang=\"en\">\n<head>\n<meta charset=\"utf-8\">\n\
         <meta name=\"viewport\" content=\"width=device-width\">\n<title>{name}</title>\n\
         <style>\n{STYLE}</style>\n</head>\n<body>\n\
         <header><h1>{name}</h1><p>{counts}</p></header>\n\
         <main>\n<div id=\"drawing\">\n{drawn}</div>\n{ASIDE}</main>\n\
         <script>\n{SCRIPT}</script>\n</body>\n</html>\n",
    )
}

const ASIDE: &str = "\
<aside>
<h2>Stack</h2>
<ol id=\"stack\"></ol>
<h2>Steps</h2>
<ul id=\"steps\"></ul>
<h2>Path</h2>
<p><button id=\"back\">back</button> <button id=\"again\">to the start</button></p>
<ol id=\"path\"></ol>
</aside>
";

impl<'g> Picture<'g> {
    fn of(graph: &'g Graph, naming: &'g Naming) -> Self {
        let numbers = 0..graph.stacks.len();
        let mut picture = Picture {
            graph,
            naming,
            texts: numbers.map(|number| graph.title(number, naming)).collect(),
            bundles: Vec::new(),
        };
        let mut known: HashMap<_, usize> = HashMap::new();
        for step in &graph.edges {
            let (stack, mark) = match step.to {
                End::Stack(to) => (Some(to), ""),
                _ => (None, step.to.mark()),
            };
            let bundle = *known.entry((step.from, stack, mark)).or_insert_with(|| {
                picture.bundle(step.from, stack, mark);
                picture.bundles.len() - 1
            });
            picture.bundles[bundle].steps.push(step);
        }
        picture
    }

    /// A new bundle, to a stack or to a mark of its own.
    fn bundle(&mut self, from: usize, stack: Option<usize>, mark: &str) {
        let to = stack.unwrap_or(self.texts.len());
        if stack.is_none() {
            self.texts.push(mark.to_string());
        }
        let steps = Vec::new();
        self.bundles.push(Bundle { from, to, steps });
    }

    fn svg(&self) -> String {
        let widths = self.texts.iter().map(|text| cut(text).chars().count());
        let drawing = Drawing {
            widths: widths.map(|count| count as f64 * LETTER + BESIDE).collect(),
            arrows: self.bundles.iter().map(Bundle::arrow).collect(),
        };
        let layout = drawing.layout();
        let (width, height) = (layout.width.ceil(), layout.height.ceil());
        let heads: String = ["head", "open-head", "taken-head"].map(head).concat();
        let arrows = self.bundles.iter().zip(&layout.curves);
        let arrows: String = arrows.map(|(bundle, curve)| bundle.drawn(curve)).collect();
        let boxes = layout.boxes.iter().zip(&drawing.widths).enumerate();
        let boxes = boxes.map(|(number, (at, width))| self.drawn(number, *at, *width));
        let boxes: String = boxes.collect();
        format!(
            "<svg width=\"{width}\" height=\"{height}\" viewBox=\"0 0 {width} {height}\">\n\
             <defs>\n{heads}</defs>\n{arrows}{boxes}</svg>\n"
        )
    }

    /// A box. Its title has the whole text, a stack's frames in lines.
    fn drawn(&self, number: usize, at: Point, width: f64) -> String {
        let text = &self.texts[number];
        let (class, title) = match self.graph.stacks.get(number) {
            None => ("mark", text.clone()),
            Some(stack) if stack.is_ended() => ("stack ended", text.clone()),
            Some(stack) => {
                let frames = stack.frames().iter().rev();
                let frames = frames.map(|frame| self.naming.frame(frame));
                ("stack", frames.collect::<Vec<_>>().join("\n"))
            }
        };
        let (x, y) = (at.x - width / 2.0, at.y - BOX / 2.0);
        let (title, text) = (escaped(&title), escaped(&cut(text)));
        format!(
            "<g class=\"{class}\"><title>{title}</title>\
             <rect x=\"{x:.1}\" y=\"{y:.1}\" width=\"{width:.1}\" height=\"{BOX}\" rx=\"5\"/>\
             <text x=\"{:.1}\" y=\"{:.1}\">{text}</text></g>\n",
            at.x, at.y,
        )
    }
}

impl Bundle<'_> {
    /// The labels that stand at the arrow.
    fn labels(&self) -> impl Iterator<Item = &str> {
        let (shown, more) = match self.steps.len() {
            ..=LABELS => (LABELS, None),
            _ => (LABELS - 1, Some("..")),
        };
        let labels = self.steps.iter().take(shown);
        labels.map(|step| &step.label[..]).chain(more)
    }

    fn arrow(&self) -> Arrow {
        let lengths = self.labels().map(|label| label.chars().count());
        Arrow {
            from: self.from,
            to: self.to,
            lines: self.labels().count(),
            letters: lengths.max().unwrap_or(0),
        }
    }

    /// The arrow, and a broad one that is not seen and is there to be hit, with its labels. A step that has none is there
    /// unseen too.
    fn drawn(&self, curve: &Curve) -> String {
        let mut path = String::new();
        for (index, at) in curve.points.iter().enumerate() {
            let before = match index {
                0 => "M",
                1 => "C",
                _ => " ",
            };
            let _ = write!(path, "{before}{:.1} {:.1}", at.x, at.y);
        }
        let count = self.labels().count();
        let top = curve.label.y - (count as f64 - 1.0) * LINE / 2.0;
        let place = |line: usize| {
            let (x, y) = (curve.label.x, top + line as f64 * LINE);
            format!("x=\"{x:.1}\" y=\"{y:.1}\"")
        };
        let shown = match self.steps.len() > count {
            true => count - 1,
            false => count,
        };
        let steps = self.steps.iter().enumerate();
        let steps = steps.map(|(line, step)| match line < shown {
            true => step.drawn(&place(line)),
            false => step.drawn("class=\"unseen\""),
        });
        let steps: String = steps.collect();
        let more = match self.steps.len() > shown {
            true => format!("<text {}>..</text>", place(shown)),
            false => String::new(),
        };
        format!(
            "<g class=\"arrow\"><path class=\"near\" d=\"{path}\"/><path class=\"line\" d=\"{path}\"/>\n{steps}{more}</g>\n"
        )
    }
}

impl Edge {
    /// The label of a step, with what the script must know of it.
    fn drawn(&self, place: &str) -> String {
        let to = match self.to {
            End::Stack(to) => to.to_string(),
            _ => String::new(),
        };
        let (from, k, mark, label) = (self.from, self.k, self.to.mark(), escaped(&self.label));
        format!(
            "<text {place} data-from=\"{from}\" data-to=\"{to}\" data-k=\"{k}\" data-mark=\"{mark}\">{label}</text>\n"
        )
    }
}

/// A text that fits a box.
fn cut(text: &str) -> String {
    match text.char_indices().nth(LONGEST) {
        Some((end, _)) => format!("{}..", &text[..end]),
        None => text.to_string(),
    }
}

/// The head of an arrow, in the colour that the style gives it.
fn head(name: &str) -> String {
    format!(
        "<marker id=\"{name}\" viewBox=\"0 0 9 8\" refX=\"0\" refY=\"4\" markerWidth=\"9\" markerHeight=\"8\" \
         markerUnits=\"userSpaceOnUse\" orient=\"auto\"><path d=\"M0 0L9 4L0 8z\"/></marker>\n"
    )
}

/// A text in HTML.
fn escaped(text: &str) -> String {
    let text = text.replace('&', "&amp;").replace('"', "&quot;");
    text.replace('<', "&lt;").replace('>', "&gt;")
}
