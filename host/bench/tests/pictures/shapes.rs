//! A reader of pictures, strict where XML is: every tag is closed by its own, every attribute
//! quoted, and no bare sign stands in a text.

/// A shape with the group it stands in.
#[derive(Clone, Debug, Default)]
pub struct Shape {
    pub name: String,
    pub attributes: Vec<(String, String)>,
    pub text: String,
    /// Index of each open group, outermost first.
    pub inside: Vec<usize>,
}

impl Shape {
    pub fn word(&self, name: &str) -> Option<&str> {
        self.attributes.iter().find(|(key, _)| key == name).map(|(_, value)| value.as_str())
    }

    pub fn number(&self, name: &str) -> Option<f64> {
        self.word(name).map(|value| value.parse().unwrap_or_else(|_| panic!("{name} is {value}")))
    }

    pub fn is(&self, class: &str) -> bool {
        self.word("class") == Some(class)
    }
}

pub fn shapes(svg: &str) -> Vec<Shape> {
    let mut all: Vec<Shape> = Vec::new();
    let mut open: Vec<usize> = Vec::new();
    let mut parts = svg.split('<');
    assert_eq!(parts.next(), Some(""), "begins with a tag");
    for part in parts {
        let (tag, text) = part.split_once('>').expect("a tag ends");
        if let Some(name) = tag.strip_prefix('/') {
            let last = open.pop().expect("something is open");
            assert_eq!(all[last].name, name);
        } else {
            let (name, attributes) = read_tag(tag.strip_suffix('/').unwrap_or(tag));
            all.push(Shape { name, attributes, text: plain(text), inside: open.clone() });
            if !tag.ends_with('/') {
                open.push(all.len() - 1);
            }
        }
    }
    assert!(open.is_empty(), "left open: {open:?}");
    all
}

fn read_tag(tag: &str) -> (String, Vec<(String, String)>) {
    let (name, mut rest) = tag.split_once(' ').unwrap_or((tag, ""));
    assert!(!name.is_empty() && name.chars().all(|letter| letter.is_ascii_lowercase()), "tag {name}");
    let mut attributes = Vec::new();
    while let Some((key, value)) = rest.trim_start().split_once("=\"") {
        let (value, behind) = value.split_once('"').expect("a value ends");
        assert!(key.chars().all(|letter| letter.is_ascii_alphanumeric() || "-:".contains(letter)), "attribute {key}");
        attributes.push((key.to_string(), value.to_string()));
        rest = behind;
    }
    assert_eq!(rest.trim(), "", "in {tag}");
    (name.to_string(), attributes)
}

fn plain(text: &str) -> String {
    assert!(!text.contains(|letter: char| letter.is_control() && letter != '\n'));
    for part in text.split('&').skip(1) {
        assert!(["amp;", "lt;", "gt;"].iter().any(|name| part.starts_with(name)), "a bare & in {text}");
    }
    text.trim_end_matches('\n').replace("&lt;", "<").replace("&gt;", ">").replace("&amp;", "&")
}

/// The shapes in a group, which stands at `index`.
pub fn members(all: &[Shape], index: usize) -> Vec<&Shape> {
    all.iter().filter(|shape| shape.inside.contains(&index)).collect()
}

/// The first stroke in a group.
pub fn stroke(all: &[Shape], index: usize) -> &Shape {
    members(all, index).into_iter().find(|shape| shape.name == "line").expect("a stroke")
}

/// Indices of the groups of a class.
pub fn groups(all: &[Shape], class: &str) -> Vec<usize> {
    (0..all.len()).filter(|&index| all[index].name == "g" && all[index].is(class)).collect()
}
