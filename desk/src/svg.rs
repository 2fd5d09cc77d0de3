//! An SVG file, put together.

use std::fmt::Write;

pub struct Svg {
    body: String,
}

const STYLE: &str = "\
text { font-family: 'DejaVu Sans', 'Helvetica Neue', Arial, sans-serif; font-size: 12px; fill: #333; }
.title { font-size: 15px; font-weight: bold; }
.mono { font-family: 'DejaVu Sans Mono', Menlo, Consolas, monospace; }
.middle { text-anchor: middle; }
.end { text-anchor: end; }
.faint { fill: #666; font-size: 11px; }
";

impl Svg {
    /// A picture on a panel of its own, so that it looks the same on white and on black. `style` is for its classes beside those above.
    pub fn new(width: f64, height: f64, title: &str, style: &str) -> Svg {
        let mut svg = Svg {
            body: String::new(),
        };
        svg.put(format_args!(
            "<svg xmlns=\"http://www.w3.org/2000/svg\" width=\"{width}\" height=\"{height}\" viewBox=\"0 0 {width} {height}\" role=\"img\">"
        ));
        svg.put(format_args!("<title>{}</title>", escaped(title)));
        svg.put(format_args!("<style>\n{STYLE}{style}</style>"));
        let (w, h) = (width - 1.0, height - 1.0);
        svg.put(format_args!("<rect x=\"0.5\" y=\"0.5\" width=\"{w}\" height=\"{h}\" rx=\"8\" fill=\"#fdfdfb\" stroke=\"#cfcfc8\"/>"));
        svg
    }

    fn put(&mut self, line: std::fmt::Arguments) {
        writeln!(self.body, "{line}").expect("a string takes all");
    }

    /// Anything that is written out whole.
    pub fn raw(&mut self, line: &str) {
        self.put(format_args!("{line}"));
    }

    pub fn text(&mut self, x: f64, y: f64, class: &str, text: &str) {
        self.put(format_args!(
            "<text x=\"{x:.1}\" y=\"{y:.1}\" class=\"{class}\">{}</text>",
            escaped(text)
        ));
    }

    pub fn rect(&mut self, x: f64, y: f64, width: f64, height: f64, class: &str) {
        self.put(format_args!("<rect x=\"{x:.1}\" y=\"{y:.1}\" width=\"{width:.1}\" height=\"{height:.1}\" class=\"{class}\"/>"));
    }

    pub fn line(&mut self, from: (f64, f64), to: (f64, f64), class: &str) {
        self.polyline(&[from, to], class);
    }

    pub fn polyline(&mut self, points: &[(f64, f64)], class: &str) {
        let points: Vec<String> = points
            .iter()
            .map(|(x, y)| format!("{x:.1},{y:.1}"))
            .collect();
        self.put(format_args!(
            "<polyline points=\"{}\" class=\"{class}\"/>",
            points.join(" ")
        ));
    }

    pub fn finish(mut self) -> String {
        self.raw("</svg>");
        self.body
    }
}

fn escaped(text: &str) -> String {
    text.replace('&', "&amp;").replace('<', "&lt;")
}
