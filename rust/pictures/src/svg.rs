//! Drawing with boxes, texts and arrows, as SVG.

use std::fmt::Write;

/// The colour of texts.
pub const INK: &str = "#1f2328";
/// The colour of remarks.
pub const FAINT: &str = "#57606a";

/// How a box is filled and framed.
#[derive(Clone, Copy)]
pub struct Paint {
    /// The colour inside.
    pub fill: &'static str,
    /// The colour of the frame.
    pub frame: &'static str,
}

impl Paint {
    /// The colour inside, and that of the frame.
    pub const fn new(fill: &'static str, frame: &'static str) -> Paint {
        Paint { fill, frame }
    }
}

/// A table or a number.
pub const PLAIN: Paint = Paint::new("#ffffff", "#8c959f");
/// What is true, and what is solved.
pub const GOOD: Paint = Paint::new("#d3f2da", "#1a7f37");
/// What is false.
pub const FALSE: Paint = Paint::new("#e4e7eb", "#6e7781");
/// What is undefined.
pub const UNDEFINED: Paint = Paint::new("#ffdfb0", "#b35900");
/// The command.
pub const TOOL: Paint = Paint::new("#dcebff", "#0550ae");

/// Where a text stands beside its place.
#[derive(Clone, Copy)]
pub enum Anchor {
    /// It begins there.
    Start,
    /// Its middle is there.
    Middle,
}

/// How a text is written.
#[derive(Clone, Copy)]
pub struct Font {
    /// The height in pixels.
    pub size: i32,
    /// The weight is that of titles.
    pub bold: bool,
    /// The colour.
    pub colour: &'static str,
}

impl Font {
    const fn plain(size: i32, colour: &'static str) -> Font {
        let bold = false;
        Font { size, bold, colour }
    }

    const fn bold(size: i32, colour: &'static str) -> Font {
        let bold = true;
        Font { size, bold, colour }
    }
}

/// A title of a picture or of a part.
pub const TITLE: Font = Font::bold(16, INK);
/// The words in a box.
pub const WORDS: Font = Font::plain(14, INK);
/// The words that matter most in a box.
pub const STRONG: Font = Font::bold(14, INK);
/// A remark.
pub const REMARK: Font = Font::plain(12, FAINT);

/// A box: its left upper corner, its width and its height.
#[derive(Clone, Copy)]
pub struct Area {
    /// The left side.
    pub x: i32,
    /// The upper side.
    pub y: i32,
    /// The width.
    pub width: i32,
    /// The height.
    pub height: i32,
}

impl Area {
    /// The middle of the left side.
    pub fn left(self) -> (i32, i32) {
        (self.x, self.y + self.height / 2)
    }

    /// The middle of the right side.
    pub fn right(self) -> (i32, i32) {
        (self.x + self.width, self.y + self.height / 2)
    }
}

/// A picture in the making.
pub struct Drawing {
    text: String,
}

impl Drawing {
    /// White paper with a frame, which is also seen on a dark page.
    pub fn new(width: i32, height: i32, title: &str) -> Drawing {
        let mut drawing = Drawing {
            text: String::new(),
        };
        drawing.put(format_args!(
            "<svg xmlns=\"http://www.w3.org/2000/svg\" viewBox=\"0 0 {width} {height}\" width=\"{width}\" height=\"{height}\" \
             role=\"img\" font-family=\"DejaVu Sans, Verdana, Arial, sans-serif\">"
        ));
        drawing.put(format_args!("<title>{}</title>", escaped(title)));
        drawing.put(format_args!(
            "<rect x=\"0.5\" y=\"0.5\" width=\"{}\" height=\"{}\" rx=\"8\" fill=\"#ffffff\" stroke=\"#d0d7de\"/>",
            width - 1,
            height - 1
        ));
        drawing
    }

    fn put(&mut self, line: std::fmt::Arguments<'_>) {
        writeln!(self.text, "{line}").expect("a text takes every line");
    }

    /// Draws a box.
    pub fn area(&mut self, area: Area, paint: Paint) {
        let Area {
            x,
            y,
            width,
            height,
        } = area;
        self.put(format_args!(
            "<rect x=\"{x}\" y=\"{y}\" width=\"{width}\" height=\"{height}\" rx=\"5\" fill=\"{}\" stroke=\"{}\" stroke-width=\"1.5\"/>",
            paint.fill, paint.frame
        ));
    }

    /// Writes a text at a place, which is on its base line.
    pub fn text(&mut self, (x, y): (i32, i32), anchor: Anchor, font: Font, text: &str) {
        let anchor = match anchor {
            Anchor::Start => "start",
            Anchor::Middle => "middle",
        };
        let weight = if font.bold {
            " font-weight=\"bold\""
        } else {
            ""
        };
        self.put(format_args!(
            "<text x=\"{x}\" y=\"{y}\" text-anchor=\"{anchor}\" font-size=\"{}\"{weight} fill=\"{}\">{}</text>",
            font.size,
            font.colour,
            escaped(text)
        ));
    }

    /// Draws a box with lines of text in its middle.
    pub fn note(&mut self, area: Area, paint: Paint, lines: &[(Font, &str)]) {
        self.area(area, paint);
        let height: i32 = lines.iter().map(|(font, _)| font.size + 5).sum();
        let mut y = area.y + (area.height - height) / 2;
        for (font, text) in lines {
            y += font.size + 5;
            let place = (area.x + area.width / 2, y - 5);
            self.text(place, Anchor::Middle, *font, text);
        }
    }

    /// Draws a line between two places.
    pub fn line(&mut self, from: (i32, i32), to: (i32, i32)) {
        self.put(format_args!(
            "<path d=\"M{} {} L{} {}\" fill=\"none\" stroke=\"#6e7781\" stroke-width=\"1.5\"/>",
            from.0, from.1, to.0, to.1
        ));
    }

    /// Draws an arrow that leaves and arrives level.
    pub fn arrow(&mut self, from: (i32, i32), to: (i32, i32)) {
        let end = to.0 - 9;
        let middle = (from.0 + end) / 2;
        self.put(format_args!(
            "<path d=\"M{} {} C{middle} {} {middle} {} {end} {}\" fill=\"none\" stroke=\"#57606a\" stroke-width=\"2\"/>",
            from.0, from.1, from.1, to.1, to.1
        ));
        self.put(format_args!(
            "<path d=\"M{} {} L{} {} L{} {} Z\" fill=\"#57606a\"/>",
            to.0,
            to.1,
            to.0 - 10,
            to.1 - 5,
            to.0 - 10,
            to.1 + 5
        ));
    }

    /// The picture's text.
    pub fn finish(mut self) -> String {
        self.put(format_args!("</svg>"));
        self.text
    }
}

/// A text as it stands between tags.
fn escaped(text: &str) -> String {
    text.replace('&', "&amp;")
        .replace('<', "&lt;")
        .replace('>', "&gt;")
}
