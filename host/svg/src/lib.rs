//! SVG pictures as text: elements with their attributes, texts, groups with a title, the document.
//!
//! Whatever a text or an attribute's value holds, the picture is well-formed.
//!
//! ```
//! use svg::{document, element, group, text};
//!
//! let square = element("rect", &[("x", &1), ("y", &2), ("width", &"9"), ("height", &"9")]);
//! assert_eq!(square, "<rect x=\"1\" y=\"2\" width=\"9\" height=\"9\"/>");
//! let label = text(&[("x", &12), ("y", &9.5)], "a < b");
//! assert_eq!(label, "<text x=\"12\" y=\"9.5\">a &lt; b</text>");
//! let both = group(&[("class", &"cell")], "page 1", &(square + &label));
//! assert!(both.starts_with("<g class=\"cell\"><title>page 1</title><rect x="));
//! let picture = document([40, 12], &[("font-size", &9)], &both);
//! assert!(picture.contains("viewBox=\"0 0 40 12\" font-size=\"9\">\n<g class="));
//! assert!(picture.ends_with("</text></g></svg>\n"));
//! ```

#![warn(missing_docs)]
#![forbid(unsafe_code)]

use std::fmt::Display;

/// An attribute of an element: its name and its value.
pub type Attribute<'a> = (&'a str, &'a dyn Display);

/// An element without content.
///
/// ```
/// assert_eq!(svg::element("circle", &[("r", &3.5)]), "<circle r=\"3.5\"/>");
/// ```
pub fn element(name: &str, attributes: &[Attribute<'_>]) -> String {
    format!("<{name}{}/>", listed(attributes))
}

/// A text.
///
/// ```
/// assert_eq!(svg::text(&[("x", &7)], "R&D"), "<text x=\"7\">R&amp;D</text>");
/// ```
pub fn text(attributes: &[Attribute<'_>], text: &str) -> String {
    format!("<text{}>{}</text>", listed(attributes), escaped(text))
}

/// The title of the elements around it, which a browser shows under the pointer.
///
/// ```
/// assert_eq!(svg::title("page 1"), "<title>page 1</title>");
/// ```
pub fn title(title: &str) -> String {
    format!("<title>{}</title>", escaped(title))
}

/// Elements together, with a title.
///
/// ```
/// let group = svg::group(&[("class", &"cell")], "page 1", "<rect/>");
/// assert_eq!(group, "<g class=\"cell\"><title>page 1</title><rect/></g>");
/// ```
pub fn group(attributes: &[Attribute<'_>], title: &str, content: &str) -> String {
    let (attributes, title) = (listed(attributes), self::title(title));
    format!("<g{attributes}>{title}{content}</g>")
}

/// The whole picture of a width and a height, with attributes that hold for all of it.
///
/// ```
/// let picture = svg::document([4, 3], &[], "<rect/>\n");
/// assert_eq!(
///     picture,
///     "<svg xmlns=\"http://www.w3.org/2000/svg\" width=\"4\" height=\"3\" viewBox=\"0 0 4 3\">\n\
///      <rect/>\n</svg>\n"
/// );
/// ```
pub fn document(
    [width, height]: [usize; 2],
    attributes: &[Attribute<'_>],
    content: &str,
) -> String {
    let view = format!("0 0 {width} {height}");
    let size = listed(&[("width", &width), ("height", &height), ("viewBox", &view)]);
    let attributes = listed(attributes);
    format!("<svg xmlns=\"http://www.w3.org/2000/svg\"{size}{attributes}>\n{content}</svg>\n")
}

/// Attributes as they stand behind an element's name.
fn listed(attributes: &[Attribute<'_>]) -> String {
    let listed = attributes
        .iter()
        .map(|(name, value)| format!(" {name}=\"{}\"", escaped(&value.to_string())));
    listed.collect()
}

/// A text with the letters that XML keeps for itself written as references.
fn escaped(text: &str) -> String {
    text.replace('&', "&amp;")
        .replace('<', "&lt;")
        .replace('>', "&gt;")
        .replace('"', "&quot;")
}
