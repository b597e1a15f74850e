//! The elements of an SVG file. All texts are of this tool, and none has a character that XML wants escaped.

use std::fmt::Write;

use super::layout::{NAME, SMALL, TITLE};

/// The style beside the sizes of letters. Texts have a contrast of 4.5 or more with what they stand on, and no two
/// marks differ by their colour alone.
const STYLE: &str = "\
text{fill:#222}.title{font-weight:bold}.verdict,.wrong{fill:#b3261e}.again{fill:#555}.label{text-anchor:middle}\
.step{fill:#555;font-style:italic}.value{fill:#fff}.names{fill:#f3f3f3}.lane{stroke:#ccc}.guide{stroke:#ddd}\
.cache{fill:#2b6299}.memory{fill:#3a7439}.event{fill:#fff;stroke:#222;stroke-width:1.5}\
.halo{stroke:#fff;stroke-width:6}.store{stroke:#222;stroke-width:1.5}\
.silent{stroke:#222;stroke-width:1.5;stroke-dasharray:4 3}.tip{fill:#222}\
.crash{stroke:#b3261e;stroke-width:3;fill:none}.impossible{stroke:#b3261e;stroke-width:2.5;fill:#fff}";

pub struct Svg(String);

impl Svg {
    /// A white picture of this size, with its words for those who do not see it.
    pub fn new(width: usize, height: usize, title: &str, description: &str) -> Svg {
        let sizes = format!(
            "text{{font:{SMALL}px sans-serif}}.verdict,.name{{font-size:{NAME}px}}.title{{font-size:{TITLE}px}}"
        );
        Svg(format!(
            "<svg xmlns=\"http://www.w3.org/2000/svg\" role=\"img\" width=\"{width}\" height=\"{height}\" \
             viewBox=\"0 0 {width} {height}\">\n<title>{title}</title>\n<desc>{description}</desc>\n\
             <style>{sizes}{STYLE}</style>\n<rect width=\"{width}\" height=\"{height}\" fill=\"#fff\"/>\n"
        ))
    }

    /// The whole file.
    pub fn finish(self) -> String {
        self.0 + "</svg>\n"
    }

    pub fn text(&mut self, class: &str, x: usize, y: usize, words: &str) {
        let _ = write!(self.0, "<text class=\"{class}\" x=\"{x}\" y=\"{y}\">{words}</text>");
    }

    /// A rectangle between two edges each way.
    pub fn rect(&mut self, class: &str, (left, right): (usize, usize), (top, bottom): (usize, usize)) {
        let (width, height) = (right - left, bottom - top);
        let _ = write!(
            self.0,
            "<rect class=\"{class}\" x=\"{left}\" y=\"{top}\" width=\"{width}\" height=\"{height}\" rx=\"3\"/>"
        );
    }

    pub fn line(&mut self, class: &str, (x1, y1): (usize, usize), (x2, y2): (usize, usize)) {
        let _ = write!(self.0, "<line class=\"{class}\" x1=\"{x1}\" y1=\"{y1}\" x2=\"{x2}\" y2=\"{y2}\"/>");
    }

    pub fn circle(&mut self, class: &str, x: usize, y: usize, r: usize) {
        let _ = write!(self.0, "<circle class=\"{class}\" cx=\"{x}\" cy=\"{y}\" r=\"{r}\"/>");
    }

    pub fn path(&mut self, class: &str, d: &str) {
        let _ = write!(self.0, "<path class=\"{class}\" d=\"{d}\"/>");
    }

    /// Ends a line of the file.
    pub fn end_line(&mut self) {
        self.0.push('\n');
    }
}
