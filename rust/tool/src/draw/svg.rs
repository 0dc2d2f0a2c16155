//! SVG text: the few shapes that a picture needs.

/// A picture as it grows.
#[derive(Default)]
pub struct Svg {
    body: String,
}

/// How a shape looks: its attributes.
pub type Look = &'static str;

/// A rectangle: left, top, width, height.
#[derive(Clone, Copy, Debug)]
pub struct Rect {
    pub x: f64,
    pub y: f64,
    pub w: f64,
    pub h: f64,
}

/// Text with what XML keeps for itself replaced.
fn escaped(text: &str) -> String {
    text.replace('&', "&amp;").replace('<', "&lt;").replace('>', "&gt;")
}

impl Svg {
    pub fn rect(&mut self, at: Rect, look: &str) {
        let Rect { x, y, w, h } = at;
        self.body += &format!("<rect x=\"{x:.1}\" y=\"{y:.1}\" width=\"{w:.1}\" height=\"{h:.1}\" {look}/>\n");
    }

    pub fn line(&mut self, from: (f64, f64), to: (f64, f64), look: Look) {
        let ((a, b), (c, d)) = (from, to);
        self.body += &format!("<line x1=\"{a:.1}\" y1=\"{b:.1}\" x2=\"{c:.1}\" y2=\"{d:.1}\" {look}/>\n");
    }

    /// A shape of many corners, by the letters of a path; none where there are none.
    pub fn path(&mut self, shape: &str, look: &str) {
        if !shape.is_empty() {
            self.body += &format!("<path d=\"{shape}\" {look}/>\n");
        }
    }

    pub fn text(&mut self, at: (f64, f64), look: &str, text: &str) {
        let (x, y) = at;
        self.body += &format!("<text x=\"{x:.1}\" y=\"{y:.1}\" {look}>{}</text>\n", escaped(text));
    }

    /// The whole file.
    pub fn finish(self, width: f64, height: f64) -> String {
        let head = format!(
            "<svg xmlns=\"http://www.w3.org/2000/svg\" viewBox=\"0 0 {width:.0} {height:.0}\" width=\"{width:.0}\" \
             height=\"{height:.0}\" font-family=\"DejaVu Sans, Verdana, sans-serif\" font-size=\"12\">\n"
        );
        let paper = format!("<rect width=\"{width:.0}\" height=\"{height:.0}\" fill=\"#ffffff\"/>\n");
        head + &paper + &self.body + "</svg>\n"
    }
}
