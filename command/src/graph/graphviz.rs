//! The layout of Graphviz, by its program `dot`, where it is found. It gets numbers and lengths, and no text of a sheet.

use std::fmt::Write as _;
use std::io::{Read, Write as _};
use std::process::{Command, Stdio};
use std::sync::mpsc;
use std::time::Duration;

use super::layout::{Curve, Drawing, Layout, Point, BOX};

/// So many boxes and arrows are laid out by it at most, and so long is waited: its time grows much faster than they do.
const BOXES: usize = 150;
const ARROWS: usize = 400;
const PATIENCE: Duration = Duration::from_secs(10);

/// It counts in inches of 72 of the page's pixels.
const INCH: f64 = 72.0;

/// Its layout; none if it is not there, fails, takes long or writes something else.
pub fn layout(drawing: &Drawing) -> Option<Layout> {
    if drawing.widths.len() > BOXES || drawing.arrows.len() > ARROWS {
        return None;
    }
    read(&run(&input(drawing))?, drawing)
}

/// The drawing for `dot`. The label of an arrow is its number, which the answer has again, filled to the label's lines.
fn input(drawing: &Drawing) -> String {
    let mut text = String::from(
        "digraph{rankdir=LR;nodesep=0.4;node[shape=box,fixedsize=true,label=\"\"];\
         edge[fontname=Courier,fontsize=13,arrowsize=0.9];\n",
    );
    for (number, width) in drawing.widths.iter().enumerate() {
        let (width, height) = (width / INCH, BOX / INCH);
        let _ = writeln!(text, "{number}[width={width:.3},height={height:.3}];");
    }
    for (number, arrow) in drawing.arrows.iter().enumerate() {
        let (from, to, letters) = (arrow.from, arrow.to, arrow.letters);
        let more = format!("\\n{:x<letters$}", "").repeat(arrow.lines - 1);
        let _ = writeln!(text, "{from}->{to}[label=\"{number:x<letters$}{more}\"];");
    }
    text + "}\n"
}

/// What `dot` answers.
fn run(input: &str) -> Option<String> {
    let mut child = Command::new("dot")
        .arg("-Tplain")
        .stdin(Stdio::piped())
        .stdout(Stdio::piped())
        .stderr(Stdio::null())
        .spawn()
        .ok()?;
    let (mut stdin, mut stdout) = (child.stdin.take()?, child.stdout.take()?);
    let (sender, receiver) = mpsc::channel();
    let input = input.to_string();
    std::thread::spawn(move || {
        // one that closes its input fails below
        let _ = stdin.write_all(input.as_bytes());
        drop(stdin);
        let mut answer = String::new();
        let read = stdout.read_to_string(&mut answer);
        let _ = sender.send(read.ok().map(|_| answer));
    });
    let answer = receiver.recv_timeout(PATIENCE).ok().flatten();
    if answer.is_none() {
        let _ = child.kill();
    }
    let status = child.wait().ok()?;
    answer.filter(|_| status.success())
}

/// Reads the answer: lines `node NAME X Y ..` and `edge FROM TO N X Y .. LABEL X Y ..`, y upwards.
fn read(answer: &str, drawing: &Drawing) -> Option<Layout> {
    let mut boxes = vec![None; drawing.widths.len()];
    let mut curves: Vec<Option<Curve>> = drawing.arrows.iter().map(|_| None).collect();
    for line in answer.lines() {
        let mut words = line.split(' ');
        match words.next()? {
            "node" => {
                let number: usize = words.next()?.parse().ok()?;
                *boxes.get_mut(number)? = Some(point(&mut words)?);
            }
            "edge" => {
                let count: usize = words.nth(2)?.parse().ok()?;
                let points: Option<Vec<Point>> = (0..count).map(|_| point(&mut words)).collect();
                let label = words.next()?.trim_start_matches('"');
                let digits = label
                    .split(|letter: char| !letter.is_ascii_digit())
                    .next()?;
                let curve = Curve {
                    points: points.filter(|points| points.len() % 3 == 1)?,
                    label: point(&mut words)?,
                };
                *curves.get_mut(digits.parse::<usize>().ok()?)? = Some(curve);
            }
            _ => {}
        }
    }
    Some(Layout {
        boxes: boxes.into_iter().collect::<Option<_>>()?,
        curves: curves.into_iter().collect::<Option<_>>()?,
        width: 0.0,
        height: 0.0,
    })
}

fn point<'w>(words: &mut impl Iterator<Item = &'w str>) -> Option<Point> {
    let mut inches = || words.next()?.parse::<f64>().ok();
    let (x, y) = (inches()? * INCH, -inches()? * INCH);
    (x.is_finite() && y.is_finite()).then_some(Point { x, y })
}

#[cfg(test)]
mod tests {
    use super::super::layout::Arrow;
    use super::*;

    fn drawing() -> Drawing {
        let arrow = |from, to, lines| Arrow {
            from,
            to,
            lines,
            letters: 4,
        };
        Drawing {
            widths: vec![36.0, 72.0],
            arrows: vec![arrow(0, 1, 1), arrow(1, 0, 2)],
        }
    }

    #[test]
    fn what_it_is_given() {
        let text = input(&drawing());
        assert!(text.contains("\n0[width=0.500,height=0.444];\n"), "{text}");
        assert!(text.contains("\n0->1[label=\"0xxx\"];\n"), "{text}");
        assert!(text.contains("\n1->0[label=\"1xxx\\nxxxx\"];\n"), "{text}");
    }

    #[test]
    fn what_it_answers() {
        let nodes = "graph 1 3 1\nnode 0 0.5 0.5 0.5 0.4 \"\" solid box black lightgrey\nnode 1 2 0.5 1 0.4 \"\" solid\n";
        let edge = |ends: &str, label: &str| {
            format!("edge {ends} 4 1 0 1 0 1 0 2 0.5 {label} 1.5 0.25 solid black\n")
        };
        let (forth, back) = (edge("0 1", "0xxx"), edge("1 0", "\"1xxx\\nxxxx\""));
        let whole = format!("{nodes}{back}{forth}stop\n");
        let layout = read(&whole, &drawing()).unwrap();
        assert_eq!(layout.boxes[1], Point { x: 144.0, y: -36.0 });
        assert_eq!(layout.curves[0].label, Point { x: 108.0, y: -18.0 });
        assert_eq!(layout.curves[1].points.len(), 4);
        for wrong in [
            format!("{nodes}{forth}stop\n"),
            format!("{back}{forth}"),
            whole.replace("edge 1 0 4", "edge 1 0 3"),
            whole.replace("0.25", "NaN"),
            whole.replace("1xxx", "7xxx"),
            whole.replace("node 1", "node x"),
            String::new(),
        ] {
            assert_eq!(read(&wrong, &drawing()), None, "{wrong}");
        }
    }
}
