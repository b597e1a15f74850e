//! An SVG file as its readers take it: well-formed XML, with elements that have an extent.

/// An element, with the text that stands directly in it.
pub struct Element {
    pub name: String,
    pub attributes: Vec<(String, String)>,
    pub text: String,
}

impl Element {
    pub fn attribute(&self, name: &str) -> Option<&str> {
        self.attributes.iter().find(|(found, _)| found == name).map(|(_, value)| value.as_str())
    }

    fn number(&self, name: &str) -> f64 {
        self.attribute(name).unwrap().parse().unwrap()
    }

    pub fn has_class(&self, class: &str) -> bool {
        self.attribute("class").is_some_and(|classes| classes.split(' ').any(|found| found == class))
    }
}

/// What an element covers at most.
#[derive(Clone, Copy, Debug)]
pub struct Extent {
    pub left: f64,
    pub right: f64,
    pub top: f64,
    pub bottom: f64,
}

impl Extent {
    pub fn meets(&self, other: &Extent) -> bool {
        self.left < other.right && other.left < self.right && self.top < other.bottom && other.top < self.bottom
    }

    pub fn is_inside(&self, other: &Extent) -> bool {
        self.left >= other.left && self.right <= other.right && self.top >= other.top && self.bottom <= other.bottom
    }

    fn wider(&self, by: f64) -> Extent {
        let Extent { left, right, top, bottom } = *self;
        Extent { left: left - by, right: right + by, top: top - by, bottom: bottom + by }
    }
}

/// Letters of one width in DejaVu Sans, the widest font that a system takes for sans-serif if nobody says otherwise: in
/// thousandths of the size, regular and bold.
const LETTERS: [(&str, f64, f64); 23] = [
    ("0123456789", 636.0, 696.0),
    (" ", 318.0, 348.0),
    (",.", 318.0, 380.0),
    (":", 337.0, 400.0),
    ("-", 361.0, 415.0),
    ("()", 390.0, 457.0),
    ("C", 698.0, 734.0),
    ("E", 632.0, 683.0),
    ("F", 575.0, 683.0),
    ("L", 557.0, 637.0),
    ("M", 863.0, 995.0),
    ("R", 695.0, 770.0),
    ("S", 635.0, 720.0),
    ("W", 989.0, 1103.0),
    ("ae", 615.0, 678.0),
    ("bdghnopqu", 635.0, 716.0),
    ("cs", 550.0, 595.0),
    ("kvxyz", 592.0, 665.0),
    ("fr", 411.0, 493.0),
    ("ijl", 278.0, 343.0),
    ("m", 974.0, 1042.0),
    ("t", 392.0, 478.0),
    ("w", 818.0, 924.0),
];

fn text_width(text: &str, size: f64, bold: bool) -> f64 {
    let thousandths = |letter: char| {
        let row = LETTERS.iter().find(|(letters, ..)| letters.contains(letter));
        let (_, regular, heavy) = row.unwrap_or_else(|| panic!("how wide is '{letter}'?"));
        if bold {
            heavy
        } else {
            regular
        }
    };
    text.chars().map(thousandths).sum::<f64>() * size / 1000.0
}

/// A rule of the style.
struct Rule {
    selectors: Vec<String>,
    properties: Vec<(String, String)>,
}

pub struct Svg {
    /// In the order of their start tags.
    pub elements: Vec<Element>,
    rules: Vec<Rule>,
}

impl Svg {
    /// Reads a file, and stops at what is not well-formed.
    pub fn parse(file: &str) -> Svg {
        let elements = elements(file);
        assert_eq!(elements[0].name, "svg");
        assert_eq!(elements[0].attribute("xmlns"), Some("http://www.w3.org/2000/svg"));
        let style = elements.iter().find(|element| element.name == "style").unwrap();
        let rules = style.text.split_terminator('}').map(|rule| {
            let (selectors, properties) = rule.split_once('{').unwrap();
            let properties = properties.split(';').map(|property| property.split_once(':').unwrap());
            Rule {
                selectors: selectors.split(',').map(String::from).collect(),
                properties: properties.map(|(name, value)| (name.into(), value.into())).collect(),
            }
        });
        let rules = rules.collect();
        Svg { elements, rules }
    }

    pub fn of_class<'a>(&'a self, class: &'a str) -> impl Iterator<Item = &'a Element> {
        self.elements.iter().filter(move |element| element.has_class(class))
    }

    /// All that is written in the picture.
    pub fn texts(&self) -> impl Iterator<Item = &Element> {
        self.elements.iter().filter(|element| element.name == "text")
    }

    /// The rectangles that stand for a value.
    pub fn bars(&self) -> impl Iterator<Item = &Element> {
        self.elements.iter().filter(|element| element.has_class("cache") || element.has_class("memory"))
    }

    /// All that is drawn over lanes and bars.
    pub fn marks(&self) -> impl Iterator<Item = &Element> {
        self.elements.iter().filter(|element| ["circle", "path"].contains(&element.name.as_str()))
    }

    /// The whole picture.
    pub fn view(&self) -> Extent {
        let view = self.elements[0].attribute("viewBox").unwrap();
        let numbers: Vec<f64> = view.split(' ').map(|number| number.parse().unwrap()).collect();
        Extent { left: numbers[0], top: numbers[1], right: numbers[2], bottom: numbers[3] }
    }

    /// What the style says of an element, the last rule first.
    fn styles<'a>(&'a self, element: &'a Element, name: &'a str) -> Option<&'a str> {
        let applies = |selector: &String| match selector.strip_prefix('.') {
            Some(class) => element.has_class(class),
            None => *selector == element.name,
        };
        let rules = self.rules.iter().rev().filter(|rule| rule.selectors.iter().any(applies));
        let mut properties = rules.flat_map(|rule| &rule.properties);
        properties.find(|(found, _)| found == name).map(|(_, value)| value.as_str())
    }

    /// How light the fill of an element is, from 0 to 1: the relative luminance of the Web Content Accessibility
    /// Guidelines.
    pub fn luminance(&self, element: &Element) -> f64 {
        let fill = element.attribute("fill").or(self.styles(element, "fill")).unwrap().strip_prefix('#').unwrap();
        let digits: Vec<f64> = fill.chars().map(|digit| digit.to_digit(16).unwrap().into()).collect();
        let parts: Vec<f64> = match &digits[..] {
            [red, green, blue] => [red, green, blue].map(|digit| 17.0 * digit).to_vec(),
            six => six.chunks(2).map(|pair| 16.0 * pair[0] + pair[1]).collect(),
        };
        let linear = |part: &f64| match part / 255.0 {
            dark if dark <= 0.04045 => dark / 12.92,
            light => ((light + 0.055) / 1.055f64).powf(2.4),
        };
        parts.iter().map(linear).zip([0.2126, 0.7152, 0.0722]).map(|(part, weight)| part * weight).sum()
    }

    /// What an element covers, or more.
    pub fn extent(&self, element: &Element) -> Extent {
        match element.name.as_str() {
            "text" => self.text_extent(element),
            "rect" => {
                let (left, top) = (element.number("x"), element.number("y"));
                Extent { left, top, right: left + element.number("width"), bottom: top + element.number("height") }
            }
            "circle" => {
                let (x, y) = (element.number("cx"), element.number("cy"));
                let point = Extent { left: x, right: x, top: y, bottom: y };
                point.wider(element.number("r") + self.half_stroke(element))
            }
            "path" => path_extent(element.attribute("d").unwrap()).wider(self.half_stroke(element)),
            name => panic!("what does a {name} cover?"),
        }
    }

    fn half_stroke(&self, element: &Element) -> f64 {
        self.styles(element, "stroke-width").map_or(0.0, |width| width.parse::<f64>().unwrap() / 2.0)
    }

    fn text_extent(&self, text: &Element) -> Extent {
        let size = match self.styles(text, "font-size") {
            Some(size) => size,
            None => self.styles(text, "font").unwrap().split(' ').next().unwrap(),
        };
        let size: f64 = size.strip_suffix("px").unwrap().parse().unwrap();
        let width = text_width(&text.text, size, self.styles(text, "font-weight") == Some("bold"));
        let (x, base) = (text.number("x"), text.number("y"));
        let left = match self.styles(text, "text-anchor") {
            None => x,
            Some("middle") => x - width / 2.0,
            Some(other) => panic!("text-anchor {other}"),
        };
        Extent { left, right: left + width, top: base - 0.93 * size, bottom: base + 0.24 * size }
    }
}

/// The elements of a well-formed file.
fn elements(file: &str) -> Vec<Element> {
    let mut elements: Vec<Element> = Vec::new();
    let mut open: Vec<usize> = Vec::new();
    for (part, tag_and_text) in file.split('<').enumerate() {
        assert!(!tag_and_text.contains('&'), "an entity: {tag_and_text}");
        let Some((tag, text)) = tag_and_text.split_once('>').filter(|_| part > 0) else {
            assert!(part == 0 && tag_and_text.is_empty(), "before a tag: {tag_and_text}");
            continue;
        };
        assert!(!text.contains('>'), "a tag that was not opened: {tag_and_text}");
        if let Some(name) = tag.strip_prefix('/') {
            let last = open.pop().expect("an end tag that is left over");
            assert_eq!(elements[last].name, name, "an end tag");
        } else {
            assert!(elements.is_empty() || !open.is_empty(), "a second root: {tag}");
            let start = tag.strip_suffix('/');
            if start.is_none() {
                open.push(elements.len());
            }
            elements.push(element(start.unwrap_or(tag)));
        }
        match open.last() {
            Some(&last) => elements[last].text.push_str(text),
            None => assert_eq!(text, "\n", "after the root"),
        }
    }
    assert!(open.is_empty(), "an element that is not closed");
    elements
}

/// An element from its start tag: a name and attributes in quotes, each once.
fn element(tag: &str) -> Element {
    let (name, mut rest) = tag.split_once(' ').unwrap_or((tag, ""));
    let is_name = |name: &str| name.starts_with(|c: char| c.is_ascii_alphabetic()) && name.is_ascii();
    assert!(is_name(name), "a tag: {tag}");
    let mut element = Element { name: name.to_string(), attributes: Vec::new(), text: String::new() };
    while !rest.is_empty() {
        let (attribute, after) = rest.split_once("=\"").unwrap_or_else(|| panic!("no attribute: {tag}"));
        let (value, after) = after.split_once('"').unwrap_or_else(|| panic!("no end of an attribute: {tag}"));
        assert!(is_name(attribute) && !attribute.contains(' '), "an attribute: {tag}");
        assert_eq!(element.attribute(attribute), None, "an attribute twice: {tag}");
        element.attributes.push((attribute.to_string(), value.to_string()));
        rest = match after.strip_prefix(' ') {
            Some(more) => more,
            None => {
                assert_eq!(after, "", "no space between attributes: {tag}");
                after
            }
        };
    }
    element
}

/// The points of a path and what is between them; lines alone are understood.
fn path_extent(d: &str) -> Extent {
    let (mut x, mut y) = (0.0, 0.0);
    let mut extent: Option<Extent> = None;
    let starts: Vec<usize> = d.match_indices(|c: char| c.is_ascii_alphabetic()).map(|(at, _)| at).collect();
    for (number, &start) in starts.iter().enumerate() {
        let end = starts.get(number + 1).copied().unwrap_or(d.len());
        let numbers: Vec<f64> = d[start + 1..end].split_whitespace().map(|number| number.parse().unwrap()).collect();
        match (&d[start..=start], &numbers[..]) {
            ("M" | "L", &[to_x, to_y]) => (x, y) = (to_x, to_y),
            ("m" | "l", &[by_x, by_y]) => (x, y) = (x + by_x, y + by_y),
            ("V", &[to_y]) => y = to_y,
            ("Z", []) => {}
            _ => panic!("a path: {d}"),
        }
        let point = Extent { left: x, right: x, top: y, bottom: y };
        let so_far = extent.unwrap_or(point);
        extent = Some(Extent {
            left: so_far.left.min(x),
            right: so_far.right.max(x),
            top: so_far.top.min(y),
            bottom: so_far.bottom.max(y),
        });
    }
    extent.unwrap()
}
