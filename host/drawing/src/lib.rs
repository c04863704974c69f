//! Pictures as SVG text: boxes, lines and words, each with a class that the style speaks of.

#![deny(missing_docs)]

use std::fmt::Write;

/// A picture in the making. Lengths are pixels, counted from the left and from the top.
pub struct Drawing {
    body: String,
}

/// Where words stand from their place.
#[derive(Clone, Copy)]
pub enum Anchor {
    /// They begin there.
    Start,
    /// Their middle is there.
    Middle,
    /// They end there.
    End,
}

impl Anchor {
    fn name(self) -> &'static str {
        match self {
            Anchor::Start => "start",
            Anchor::Middle => "middle",
            Anchor::End => "end",
        }
    }
}

/// Left, top, width, height.
#[derive(Clone, Copy)]
pub struct Area(pub f64, pub f64, pub f64, pub f64);

/// Text in which nothing is a tag.
fn escaped(text: &str) -> String {
    let mut plain = String::new();
    for character in text.chars() {
        match character {
            '&' => plain += "&amp;",
            '<' => plain += "&lt;",
            '>' => plain += "&gt;",
            '"' => plain += "&quot;",
            other if other.is_control() => plain.push(' '),
            other => plain.push(other),
        }
    }
    plain
}

impl Drawing {
    /// An empty picture.
    pub fn new() -> Drawing {
        Drawing {
            body: String::new(),
        }
    }

    fn add(&mut self, element: std::fmt::Arguments) {
        writeln!(self.body, "{element}").expect("a string");
    }

    /// A box; `says` is shown where a pointer rests on it.
    pub fn area(&mut self, class: &str, area: Area, says: &str) {
        let Area(x, y, width, height) = area;
        let says = escaped(says);
        self.add(format_args!(
            "<rect class=\"{class}\" x=\"{x:.1}\" y=\"{y:.1}\" width=\"{width:.1}\" \
             height=\"{height:.1}\"><title>{says}</title></rect>"
        ));
    }

    /// A line from one place to another.
    pub fn line(&mut self, class: &str, from: (f64, f64), to: (f64, f64)) {
        self.add(format_args!(
            "<line class=\"{class}\" x1=\"{:.1}\" y1=\"{:.1}\" x2=\"{:.1}\" y2=\"{:.1}\"/>",
            from.0, from.1, to.0, to.1
        ));
    }

    /// Words at a place.
    pub fn words(&mut self, class: &str, anchor: Anchor, place: (f64, f64), words: &str) {
        let (x, y) = place;
        let (anchor, words) = (anchor.name(), escaped(words));
        self.add(format_args!(
            "<text class=\"{class}\" text-anchor=\"{anchor}\" x=\"{x:.1}\" y=\"{y:.1}\">{words}</text>"
        ));
    }

    /// The whole picture, on white. `style` is a style sheet about the classes.
    pub fn finish(self, width: f64, height: f64, style: &str) -> String {
        format!(
            "<svg xmlns=\"http://www.w3.org/2000/svg\" width=\"{width:.0}\" height=\"{height:.0}\" \
             viewBox=\"0 0 {width:.0} {height:.0}\">\n\
             <style>text {{ font: 12px sans-serif; fill: #222 }}\n{style}</style>\n\
             <rect width=\"100%\" height=\"100%\" fill=\"#fff\"/>\n{}</svg>\n",
            self.body
        )
    }
}

impl Default for Drawing {
    fn default() -> Drawing {
        Drawing::new()
    }
}

#[cfg(test)]
mod tests {
    use super::{Anchor, Area, Drawing};

    #[test]
    fn words_cannot_break_the_picture() {
        let mut drawing = Drawing::new();
        drawing.words("a", Anchor::End, (1.0, 2.0), "<b> & \"c\"\n");
        drawing.area("b", Area(0.0, 0.0, 1.25, 2.0), "x < y");
        drawing.line("c", (0.0, 0.0), (1.0, 1.0));
        let picture = drawing.finish(10.0, 20.0, "");
        assert!(picture.contains(">&lt;b&gt; &amp; &quot;c&quot; </text>"));
        assert!(picture.contains("<title>x &lt; y</title>"));
        assert!(picture.starts_with("<svg ") && picture.ends_with("</svg>\n"));
        let open = picture.matches("<text").count() + picture.matches("<rect").count();
        assert_eq!(open, 3);
    }
}
