//! What a picture is drawn with: the elements of an SVG file, and their colours.

/// The background, text, and the colours of keys and of the groups, for light and for dark screens. Cells are filled with a
/// thin layer of their colour, so that the same text is readable on all of them.
const STYLE: &str = "\
text { font: 13px system-ui, -apple-system, 'Segoe UI', Roboto, 'DejaVu Sans', Arial, sans-serif; fill: #1d2733; }
.title { font-size: 22px; font-weight: 600; }
.strong { font-weight: 600; }
.small { font-size: 10px; }
.quiet { fill: #566270; }
.middle { text-anchor: middle; }
.end { text-anchor: end; }
.ground { fill: #ffffff; }
.key { fill: #7d8794; stroke: #7d8794; }
.g0 { fill: #2f6fdf; stroke: #2f6fdf; }
.g1 { fill: #d9730d; stroke: #d9730d; }
.g2 { fill: #27955a; stroke: #27955a; }
.g3 { fill: #9150d6; stroke: #9150d6; }
.g4 { fill: #d43f7a; stroke: #d43f7a; }
.g5 { fill: #108d9c; stroke: #108d9c; }
.g6 { fill: #85870f; stroke: #85870f; }
.g7 { fill: #9c5f33; stroke: #9c5f33; }
.cell { fill-opacity: 0.15; stroke-width: 1.5; }
.copy { stroke-dasharray: 5 3; }
.mark { stroke: none; }
.bracket { fill: none; stroke-width: 2.5; }
@media (prefers-color-scheme: dark) {
text { fill: #e9edf2; }
.quiet { fill: #a9b4c1; }
.ground { fill: #14181e; }
.key { fill: #929daa; stroke: #929daa; }
.g0 { fill: #6ea3ff; stroke: #6ea3ff; }
.g1 { fill: #f0a04b; stroke: #f0a04b; }
.g2 { fill: #5cc98a; stroke: #5cc98a; }
.g3 { fill: #bd8df5; stroke: #bd8df5; }
.g4 { fill: #f27fae; stroke: #f27fae; }
.g5 { fill: #4fc6d3; stroke: #4fc6d3; }
.g6 { fill: #c3c552; stroke: #c3c552; }
.g7 { fill: #d09a6e; stroke: #d09a6e; }
.cell { fill-opacity: 0.2; }
.mark { stroke: none; }
.bracket { fill: none; }
}
";

/// Elements in the order in which they are drawn. Nothing of what is written here needs to be escaped: it is made of
/// numbers and of this program's own words.
pub struct Canvas {
    elements: String,
    width: usize,
}

impl Canvas {
    pub fn new(width: usize) -> Canvas {
        Canvas { elements: String::new(), width }
    }

    pub fn rect(&mut self, class: &str, (x, y): (usize, usize), (width, height): (usize, usize)) {
        let shape = format!("x=\"{x}\" y=\"{y}\" width=\"{width}\" height=\"{height}\" rx=\"4\"");
        self.elements += &format!("<rect class=\"{class}\" {shape}/>\n");
    }

    pub fn text(&mut self, class: &str, (x, y): (usize, usize), words: &str) {
        self.elements += &format!("<text class=\"{class}\" x=\"{x}\" y=\"{y}\">{words}</text>\n");
    }

    /// A line beside what it spans, from `top` to `bottom`, with its ends bent to the left.
    pub fn bracket(&mut self, class: &str, x: usize, top: usize, bottom: usize) {
        let path = format!("M{} {top}H{x}V{bottom}H{}", x - 6, x - 6);
        self.elements += &format!("<path class=\"{class}\" d=\"{path}\"/>\n");
    }

    /// Words in lines that are no wider than the picture. Answers where the next line may stand.
    pub fn paragraph(&mut self, class: &str, (x, mut y): (usize, usize), words: &str) -> usize {
        let room = self.room_from(x);
        let mut line = String::new();
        for word in words.split(' ') {
            if !line.is_empty() && width_of(&line) + width_of(word) + width_of(" ") > room {
                self.text(class, (x, y), &line);
                line.clear();
                y += LINE;
            }
            line += if line.is_empty() { "" } else { " " };
            line += word;
        }
        self.text(class, (x, y), &line);
        y + LINE
    }

    /// How much room there is from here to the right margin.
    pub fn room_from(&self, x: usize) -> usize {
        self.width - MARGIN - x
    }

    /// The whole file.
    pub fn document(self, height: usize, title: &str, description: &str) -> String {
        let (width, elements) = (self.width, self.elements);
        format!(
            "<svg xmlns=\"http://www.w3.org/2000/svg\" width=\"{width}\" height=\"{height}\" \
             viewBox=\"0 0 {width} {height}\" role=\"img\" aria-labelledby=\"title description\">\n\
             <title id=\"title\">{title}</title>\n<desc id=\"description\">{description}</desc>\n\
             <style>\n{STYLE}</style>\n\
             <rect class=\"ground\" width=\"{width}\" height=\"{height}\"/>\n{elements}</svg>\n"
        )
    }
}

/// What is left free at all sides.
pub const MARGIN: usize = 28;

/// From one line of text to the next.
pub const LINE: usize = 19;

/// How wide a text of the usual size is at most, in whatever font: letters of the widest that are usual have less than 7 on
/// average.
pub fn width_of(words: &str) -> usize {
    7 * words.chars().count()
}
