//! The elements of the picture as SVG: texts, squares, groups with a title, the document.

use crate::show::colour;
use std::fmt::Write;

/// The space around the picture.
pub(super) const MARGIN: usize = 16;
/// The height of a line of text.
pub(super) const LINE: usize = 20;
/// The width of a letter; all letters of the font have one width.
pub(super) const LETTER: usize = 7;

/// The looks that are the same in every picture.
const STYLE: &str = "\
text{font-family:'DejaVu Sans Mono',Menlo,Consolas,monospace;font-size:11px;fill:#222222}
.head{font-size:14px;font-weight:bold}
.row{font-size:9px;text-anchor:end}
.number{text-anchor:middle;paint-order:stroke;stroke:#ffffff;stroke-width:3px;stroke-opacity:0.75}
.fixed{fill:#9aa0a6}
.free{fill:#f4f5f6;stroke:#dfe2e5}
.hatch{fill:url(#hatch)}
.outline{fill:none;stroke:#000000;stroke-width:2}
";

/// The dark lines that lie over log pages.
const HATCH: &str = "\
<defs><pattern id=\"hatch\" width=\"5\" height=\"5\" patternUnits=\"userSpaceOnUse\" \
patternTransform=\"rotate(45)\">\
<rect width=\"1.6\" height=\"5\" fill=\"#000000\" fill-opacity=\"0.4\"/></pattern></defs>
";

/// The elements drawn so far.
#[derive(Default)]
pub(super) struct Drawing {
    body: String,
}

impl Drawing {
    /// A text whose line has this left and upper edge.
    pub(super) fn text(&mut self, class: &str, (x, y): (usize, usize), text: &str) {
        self.text_at(class, (x, y + 11), text);
    }

    /// The number of a row's first page, ending at x, its middle at y.
    pub(super) fn row_number(&mut self, (x, y): (usize, usize), page: usize) {
        self.text_at("row", (x, y + 3), &page.to_string());
    }

    /// An inode's number in the middle of a square.
    pub(super) fn number(&mut self, (x, y): (usize, usize), side: usize, inode: u64) {
        let place = (x + side / 2, y + side / 2 + 4);
        self.text_at("number", place, &inode.to_string());
    }

    /// A text that stands on a line at y.
    fn text_at(&mut self, class: &str, (x, y): (usize, usize), text: &str) {
        self.body += &svg::text(&[("class", &class), ("x", &x), ("y", &y)], text);
    }

    /// A square of a look; that of a log is hatched.
    pub(super) fn square(&mut self, look: &str, place: (usize, usize), side: usize) {
        self.plain_square(look, place, side);
        if look.starts_with("log") {
            self.plain_square("hatch", place, side);
        }
    }

    /// A dark line through corners and back to the first, which print shows as well as a screen.
    pub(super) fn outline(&mut self, corners: &[(usize, usize)]) {
        let points: Vec<String> = corners.iter().map(|(x, y)| format!("{x},{y}")).collect();
        let points = points.join(" ");
        self.body += &svg::element("polygon", &[("class", &"outline"), ("points", &points)]);
        self.body.push('\n');
    }

    fn plain_square(&mut self, class: &str, (x, y): (usize, usize), side: usize) {
        self.body += &svg::element(
            "rect",
            &[
                ("class", &class),
                ("x", &x),
                ("y", &y),
                ("width", &side),
                ("height", &side),
            ],
        );
    }

    /// Elements with a title, which a browser shows under the pointer.
    pub(super) fn group(&mut self, class: &str, title: &str, draw: impl FnOnce(&mut Drawing)) {
        let mut inside = Drawing::default();
        draw(&mut inside);
        self.body += &svg::group(&[("class", &class)], title, &inside.body);
        self.body.push('\n');
    }

    /// The whole document: its title, the colours of these inodes, and what was drawn, down to `bottom`.
    /// Spaces in texts are kept as they are.
    pub(super) fn document(
        &self,
        title: &str,
        inodes: impl Iterator<Item = u64>,
        width: usize,
        bottom: usize,
    ) -> String {
        let [width, height] = [width + 2 * MARGIN, bottom + MARGIN];
        let title = svg::title(title);
        let colours: String = inodes.map(inode_style).collect();
        let paper = svg::element(
            "rect",
            &[("width", &width), ("height", &height), ("fill", &"#ffffff")],
        );
        let body = &self.body;
        let content = format!("{title}\n<style>\n{STYLE}{colours}</style>\n{HATCH}{paper}\n{body}");
        svg::document([width, height], &[("xml:space", &"preserve")], &content)
    }
}

/// The looks of an inode's pages.
fn inode_style(inode: u64) -> String {
    let colour = colour::of_inode(inode);
    let (fill, border) = (hexadecimal(colour), hexadecimal(colour::darker(colour)));
    let mut style = format!(".data{inode}{{fill:{fill}}}\n");
    let _ = writeln!(
        style,
        ".log{inode}{{fill:{fill};stroke:{border};stroke-width:1.5}}"
    );
    style
}

fn hexadecimal([red, green, blue]: [u8; 3]) -> String {
    format!("#{red:02x}{green:02x}{blue:02x}")
}
