//! The shapes that a drawing needs, written as SVG. Places are in pixels from the top left; that of
//! a text is at half its height.

pub type Point = (f64, f64);

/// How far a line of text stands above its lower edge, where SVG places it.
const HALF_LETTER: f64 = 4.5;

/// Where a text stands: to the right of its place, around it, or to the left of it.
#[derive(Clone, Copy)]
pub enum Side {
    Right,
    Around,
    Left,
}

/// How a stroke looks; dashes are lengths by turns drawn and left out, or "none".
#[derive(Clone, Copy)]
pub struct Pen<'a> {
    pub colour: &'a str,
    pub width: f64,
    pub dashes: &'static str,
}

/// The shapes drawn so far; a later one covers an earlier one.
#[derive(Default)]
pub struct Shapes(String);

impl Shapes {
    /// The whole picture. It has a white ground of its own, so that it reads on a dark page too.
    pub fn picture(&self, width: f64, height: f64, title: &str) -> String {
        format!(
            r##"<svg xmlns="http://www.w3.org/2000/svg" width="{width}" height="{height}" viewBox="0 0 {width} {height}" role="img">
<title>{title}</title>
<style>
text {{ font: 13px system-ui, 'DejaVu Sans', sans-serif; paint-order: stroke; stroke: #ffffff; stroke-width: 3px }}
.heading {{ font-size: 17px; font-weight: 600 }}
</style>
<rect width="{width}" height="{height}" rx="8" fill="#ffffff"/>
{}</svg>
"##,
            self.0
        )
    }

    pub fn heading(&mut self, (x, y): Point, colour: &str, text: &str) {
        self.0 += &format!("<text class=\"heading\" x=\"{x:.1}\" y=\"{y:.1}\" fill=\"{colour}\">{text}</text>\n");
    }

    pub fn text(&mut self, (x, y): Point, side: Side, colour: &str, text: &str) {
        let anchor = match side {
            Side::Right => "start",
            Side::Around => "middle",
            Side::Left => "end",
        };
        let y = y + HALF_LETTER;
        self.0 +=
            &format!("<text x=\"{x:.1}\" y=\"{y:.1}\" text-anchor=\"{anchor}\" fill=\"{colour}\">{text}</text>\n");
    }

    pub fn stroke(&mut self, (x1, y1): Point, (x2, y2): Point, pen: Pen) {
        let Pen { colour, width, dashes } = pen;
        self.0 += &format!(
            "<path d=\"M{x1:.1} {y1:.1}L{x2:.1} {y2:.1}\" stroke=\"{colour}\" \
             stroke-width=\"{width:.1}\" stroke-dasharray=\"{dashes}\"/>\n"
        );
    }

    pub fn area(&mut self, corners: &[Point], colour: &str, opacity: f64) {
        let corners: Vec<String> = corners.iter().map(|(x, y)| format!("{x:.1},{y:.1}")).collect();
        self.0 +=
            &format!("<polygon points=\"{}\" fill=\"{colour}\" fill-opacity=\"{opacity}\"/>\n", corners.join(" "));
    }

    /// The upright area between two opposite corners.
    pub fn block(&mut self, ((x1, y1), (x2, y2)): (Point, Point), colour: &str, opacity: f64) {
        let corners = [(x1, y1), (x2, y1), (x2, y2), (x1, y2)];
        self.area(&corners, colour, opacity);
    }
}
