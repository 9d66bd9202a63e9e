//! The few SVG shapes that a picture needs.

use std::fmt::Write;

pub struct Svg {
    body: String,
    pub width: f64,
    pub height: f64,
}

impl Svg {
    /// The height is known when all is drawn.
    pub fn new(width: f64) -> Svg {
        Svg { body: String::new(), width, height: 0.0 }
    }

    fn add(&mut self, shape: std::fmt::Arguments<'_>) {
        let _ = writeln!(self.body, "{shape}"); // writing into a String cannot fail
    }

    /// Begins a group, which a page can find by its attributes.
    pub fn open(&mut self, attributes: &str) {
        self.add(format_args!("<g {attributes}>"));
    }

    pub fn close(&mut self) {
        self.add(format_args!("</g>"));
    }

    /// What the group that was begun is, for a mouse that rests on it.
    pub fn title(&mut self, text: &str) {
        self.add(format_args!("<title>{}</title>", escaped(text)));
    }

    pub fn line(&mut self, from: (f64, f64), to: (f64, f64), style: &str) {
        self.add(format_args!(
            r#"<line x1="{:.1}" y1="{:.1}" x2="{:.1}" y2="{:.1}" {style}/>"#,
            from.0, from.1, to.0, to.1
        ));
    }

    pub fn rect(&mut self, x: f64, y: f64, width: f64, height: f64, style: &str) {
        self.add(format_args!(r#"<rect x="{x:.1}" y="{y:.1}" width="{width:.1}" height="{height:.1}" {style}/>"#));
    }

    pub fn circle(&mut self, at: (f64, f64), radius: f64, style: &str) {
        self.add(format_args!(r#"<circle cx="{:.1}" cy="{:.1}" r="{radius}" {style}/>"#, at.0, at.1));
    }

    pub fn cross(&mut self, at: (f64, f64), size: f64, style: &str) {
        let (x, y) = at;
        self.line((x - size, y - size), (x + size, y + size), style);
        self.line((x - size, y + size), (x + size, y - size), style);
    }

    /// A short level stroke.
    pub fn bar(&mut self, at: (f64, f64), style: &str) {
        self.line((at.0 - 6.0, at.1), (at.0 + 6.0, at.1), style);
    }

    pub fn text(&mut self, at: (f64, f64), size: f64, style: &str, text: &str) {
        self.add(format_args!(
            r#"<text x="{:.1}" y="{:.1}" font-size="{size}" {style}>{}</text>"#,
            at.0,
            at.1,
            escaped(text)
        ));
    }

    /// Text that rises from its start, for narrow columns.
    pub fn steep(&mut self, at: (f64, f64), size: f64, text: &str) {
        let turn = format!(r##"fill="#444" transform="rotate(-68 {:.1} {:.1})""##, at.0, at.1);
        self.text(at, size, &turn, text);
    }

    pub fn finish(self) -> String {
        let Svg { body, width, height } = self;
        format!(
            "<svg xmlns=\"http://www.w3.org/2000/svg\" width=\"{width:.0}\" height=\"{height:.0}\" \
             viewBox=\"0 0 {width:.0} {height:.0}\" font-family=\"sans-serif\">\n\
             <rect width=\"100%\" height=\"100%\" fill=\"#fdfdfb\"/>\n{body}</svg>\n"
        )
    }
}

pub fn escaped(text: &str) -> String {
    text.replace('&', "&amp;").replace('<', "&lt;").replace('>', "&gt;")
}
