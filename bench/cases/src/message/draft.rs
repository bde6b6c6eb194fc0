//! A message before it is written: a tree of names, attributes and raw texts that can be changed at will.

use independent::house::{self, Element};
use independent::list::List;

use crate::random::Random;

#[derive(Clone, PartialEq, Eq, Debug)]
pub struct Draft {
    pub name: String,
    /// Names and raw values, as they will stand between the quotes.
    pub attributes: Vec<(String, String)>,
    pub parts: Vec<Part>,
}

#[derive(Clone, PartialEq, Eq, Debug)]
pub enum Part {
    Child(Draft),
    /// Raw text, as it will stand in the file.
    Text(String),
}

/// The way to an element: for each level the place among the parts.
pub type Path = Vec<usize>;

impl Draft {
    pub fn new(name: &str) -> Draft {
        Draft { name: name.to_string(), attributes: Vec::new(), parts: Vec::new() }
    }

    pub fn leaf(name: &str, raw: &str) -> Draft {
        Draft { parts: vec![Part::Text(raw.to_string())], ..Draft::new(name) }
    }

    pub fn attribute(mut self, name: &str, raw: &str) -> Draft {
        self.attributes.push((name.to_string(), raw.to_string()));
        self
    }

    /// The draft of a house XML text.
    pub fn from_text(text: &str) -> Draft {
        from_element(&house::parse(text.as_bytes()).expect("house XML"))
    }

    /// The ways to all elements, in document order, the root's first.
    pub fn paths(&self) -> Vec<Path> {
        let mut paths = vec![Vec::new()];
        for (index, part) in self.parts.iter().enumerate() {
            if let Part::Child(child) = part {
                paths.extend(child.paths().into_iter().map(|path| [&[index][..], &path].concat()));
            }
        }
        paths
    }

    pub fn at(&mut self, path: &[usize]) -> &mut Draft {
        match path.split_first() {
            None => self,
            Some((index, rest)) => match &mut self.parts[*index] {
                Part::Child(child) => child.at(rest),
                Part::Text(_) => panic!("a way to an element leads over elements"),
            },
        }
    }

    /// The parts among which the element stands, and its place there. The root stands nowhere.
    pub fn around(&mut self, path: &[usize]) -> Option<(&mut Vec<Part>, usize)> {
        let (index, above) = path.split_last()?;
        Some((&mut self.at(above).parts, *index))
    }

    /// The list that a root's namespace chooses, if it chooses one.
    pub fn list(&self) -> Option<&'static List> {
        let space = self.attributes.iter().find(|(name, _)| name == "xmlns")?;
        List::of_namespace(space.1.as_bytes())
    }

    /// Whether the element holds text, as leaves do.
    pub fn is_leaf(&self) -> bool {
        self.parts.iter().any(|part| matches!(part, Part::Text(text) if !text.trim().is_empty()))
    }
}

fn from_element(element: &Element) -> Draft {
    let text = |bytes: &[u8]| String::from_utf8(bytes.to_vec()).expect("UTF-8");
    let parts = element.parts.iter().map(|part| match part {
        house::Part::Child(child) => Part::Child(from_element(child)),
        house::Part::Text(run) => Part::Text(text(run.raw)),
    });
    let attributes = element.attributes.iter().map(|a| (text(a.name), text(a.raw)));
    Draft { name: text(element.name), attributes: attributes.collect(), parts: parts.collect() }
}

/// How a draft is written: everything that the list and the types don't care about.
#[derive(Clone, Debug)]
pub struct Style {
    pub declaration: bool,
    /// Blanks between the children of a group.
    pub indented: bool,
    /// Blanks inside tags, either quote, `<a/>` or `<a></a>` for an element without parts.
    pub odd: Option<Random>,
}

impl Style {
    /// Nothing that could be left out.
    pub const DENSE: Style = Style { declaration: false, indented: false, odd: None };

    /// As banks write files.
    pub const USUAL: Style = Style { declaration: true, indented: true, odd: None };

    pub fn any(random: &mut Random) -> Style {
        let odd = if random.once_in(2) { Some(random.branch()) } else { None };
        Style { declaration: random.once_in(2), indented: random.once_in(3), odd }
    }

    pub fn write(mut self, draft: &Draft) -> String {
        let mut text = String::new();
        if self.declaration {
            text += "<?xml version=\"1.0\" encoding=\"UTF-8\"?>";
        }
        self.separate(0, &mut text);
        self.element(draft, 0, &mut text);
        self.separate(0, &mut text);
        text
    }

    fn element(&mut self, draft: &Draft, level: usize, text: &mut String) {
        *text += &format!("<{}", draft.name);
        for (name, raw) in &draft.attributes {
            *text += " ";
            self.blanks(text);
            *text += name;
            self.blanks(text);
            *text += "=";
            self.blanks(text);
            let quote = self.quote(raw);
            *text += &format!("{quote}{raw}{quote}");
        }
        self.blanks(text);
        if draft.parts.is_empty() && self.odd.as_mut().is_some_and(|random| random.once_in(2)) {
            *text += "/>";
            return;
        }
        *text += ">";
        let group = !draft.parts.is_empty() && !draft.is_leaf();
        for part in &draft.parts {
            match part {
                Part::Text(raw) => *text += raw,
                Part::Child(child) => {
                    self.separate(level + 1, text);
                    self.element(child, level + 1, text);
                }
            }
        }
        if group {
            self.separate(level, text);
        }
        *text += &format!("</{}", draft.name);
        self.blanks(text);
        *text += ">";
    }

    /// What stands between two tags.
    fn separate(&mut self, level: usize, text: &mut String) {
        if self.indented && !text.is_empty() {
            *text += "\n";
            *text += &"  ".repeat(level);
        }
        self.blanks(text);
    }

    fn blanks(&mut self, text: &mut String) {
        if let Some(random) = &mut self.odd {
            if random.once_in(6) {
                let count = random.between(1, 3);
                *text += &random.characters(" \t\n\r", count);
            }
        }
    }

    /// A quote that the raw value doesn't hold.
    fn quote(&mut self, raw: &str) -> char {
        let single = self.odd.as_mut().is_some_and(|random| random.once_in(2));
        if raw.contains('"') || (single && !raw.contains('\'')) {
            '\''
        } else {
            '"'
        }
    }
}
