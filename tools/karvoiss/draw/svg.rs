//! The few SVG elements that the drawing uses, written into one string.

pub struct Svg {
    body: String,
}

impl Svg {
    pub fn new() -> Svg {
        Svg { body: String::new() }
    }

    pub fn raw(&mut self, element: &str) {
        self.body += element;
        self.body.push('\n');
    }

    pub fn line(&mut self, a: Spot, b: Spot, style: &str) {
        self.raw(&format!("<line x1=\"{}\" y1=\"{}\" x2=\"{}\" y2=\"{}\" {style}/>", n(a.0), n(a.1), n(b.0), n(b.1)));
    }

    pub fn circle(&mut self, at: Spot, radius: f64, style: &str) {
        self.raw(&format!("<circle cx=\"{}\" cy=\"{}\" r=\"{}\" {style}/>", n(at.0), n(at.1), n(radius)));
    }

    /// By its upper left corner, width and height.
    pub fn rect(&mut self, at: Spot, size: Spot, style: &str) {
        self.raw(&format!("<rect x=\"{}\" y=\"{}\" width=\"{}\" height=\"{}\" {style}/>", n(at.0), n(at.1), n(size.0), n(size.1)));
    }

    pub fn square(&mut self, at: Spot, half: f64, style: &str) {
        self.rect((at.0 - half, at.1 - half), (2.0 * half, 2.0 * half), style);
    }

    pub fn text(&mut self, at: Spot, style: &str, text: &str) {
        self.raw(&format!("<text x=\"{}\" y=\"{}\" {style}>{}</text>", n(at.0), n(at.1), escaped(text)));
    }

    pub fn document(self, width: f64, height: f64, title: &str) -> String {
        let (w, h) = (n(width), n(height));
        let open = format!("<svg xmlns=\"http://www.w3.org/2000/svg\" width=\"{w}\" height=\"{h}\" viewBox=\"0 0 {w} {h}\" font-family=\"{FONT}\">");
        let paper = format!("<rect width=\"{w}\" height=\"{h}\" fill=\"white\"/>");
        format!("{open}\n<title>{}</title>\n{paper}\n{}</svg>\n", escaped(title), self.body)
    }
}

/// A place in the picture, y downwards.
pub type Spot = (f64, f64);

const FONT: &str = "DejaVu Sans, Verdana, Helvetica, Arial, sans-serif";

/// At most two digits after the point.
pub fn n(value: f64) -> String {
    let text = format!("{value:.2}");
    let text = text.trim_end_matches('0').trim_end_matches('.');
    if text == "-0" { "0".to_string() } else { text.to_string() }
}

fn escaped(text: &str) -> String {
    text.replace('&', "&amp;").replace('<', "&lt;").replace('>', "&gt;")
}

/// Lines of at most so many characters, cut at spaces.
pub fn wrapped(text: &str, most: usize) -> Vec<String> {
    let mut lines: Vec<String> = Vec::new();
    for word in text.split(' ') {
        match lines.last_mut() {
            Some(line) if line.chars().count() + 1 + word.chars().count() <= most => {
                line.push(' ');
                line.push_str(word);
            }
            _ => lines.push(word.to_string()),
        }
    }
    lines
}
