//! A reader of XML as strict as a page needs it: one doctype, one root element, every element closed, every attribute
//! quoted and there once, the five predefined entities alone, and no sign that XML forbids. It takes no comments, no
//! instructions and no CDATA sections, since a page has none.

pub struct Element {
    pub name: String,
    pub attributes: Vec<(String, String)>,
    pub content: Vec<Node>,
    /// Whether it ends in its own tag, as `<br/>` does.
    pub is_closed_at_once: bool,
}

pub enum Node {
    Element(Element),
    Text(String),
}

impl Element {
    pub fn attribute(&self, name: &str) -> Option<&str> {
        self.attributes.iter().find(|(other, _)| other == name).map(|(_, value)| value.as_str())
    }

    pub fn children(&self) -> impl Iterator<Item = &Element> {
        self.content.iter().filter_map(|node| match node {
            Node::Element(element) => Some(element),
            Node::Text(_) => None,
        })
    }

    /// The element and all in it, in the order of the page.
    pub fn all(&self) -> Vec<&Element> {
        let inner = self.children().flat_map(|child| child.all());
        std::iter::once(self).chain(inner).collect()
    }

    /// All of its text.
    pub fn text(&self) -> String {
        let text = |node: &Node| match node {
            Node::Element(element) => element.text(),
            Node::Text(text) => text.clone(),
        };
        self.content.iter().map(text).collect()
    }
}

/// The root element of a page, or what is wrong with the page.
pub fn read(page: &str) -> Result<Element, String> {
    if let Some(sign) = page.chars().find(|&sign| !is_allowed(sign)) {
        return Err(format!("the sign {sign:?}"));
    }
    let mut rest = Rest(page.strip_prefix("<!DOCTYPE html>").ok_or("no doctype")?.trim_start());
    let root = rest.element()?;
    match rest.0.trim_start() {
        "" => Ok(root),
        _ => Err(rest.wrong("something after the root element")),
    }
}

fn is_allowed(sign: char) -> bool {
    matches!(sign, '\t' | '\n' | '\r' | ' '..='\u{d7ff}' | '\u{e000}'..='\u{fffd}' | '\u{10000}'..='\u{10ffff}')
}

/// What is left of the page.
struct Rest<'a>(&'a str);

impl<'a> Rest<'a> {
    fn wrong(&self, what: &str) -> String {
        format!("{what} before {:?}", self.0.chars().take(60).collect::<String>())
    }

    fn takes(&mut self, what: &str) -> bool {
        let left = self.0.strip_prefix(what);
        self.0 = left.unwrap_or(self.0);
        left.is_some()
    }

    fn expect(&mut self, what: &str) -> Result<(), String> {
        let taken = self.takes(what);
        taken.then_some(()).ok_or_else(|| self.wrong(&format!("no {what}")))
    }

    fn until(&mut self, is_end: impl Fn(char) -> bool) -> &'a str {
        let end = self.0.find(is_end).unwrap_or(self.0.len());
        let (found, left) = self.0.split_at(end);
        self.0 = left;
        found
    }

    fn name(&mut self) -> Result<String, String> {
        let name = self.until(|sign| !(sign.is_ascii_alphanumeric() || ":_-.".contains(sign)));
        match name.starts_with(|sign: char| sign.is_ascii_alphabetic()) {
            true => Ok(name.to_string()),
            false => Err(self.wrong("no name")),
        }
    }

    fn element(&mut self) -> Result<Element, String> {
        self.expect("<")?;
        let name = self.name()?;
        let attributes = self.attributes()?;
        let is_closed_at_once = self.takes("/>");
        let mut element = Element { name, attributes, content: Vec::new(), is_closed_at_once };
        if !is_closed_at_once {
            self.expect(">")?;
            element.content = self.content()?;
            self.expect(&format!("</{}", element.name))?;
            self.until(|sign| !sign.is_ascii_whitespace());
            self.expect(">")?;
        }
        Ok(element)
    }

    fn content(&mut self) -> Result<Vec<Node>, String> {
        let mut content = Vec::new();
        while !self.0.is_empty() && !self.0.starts_with("</") {
            if self.0.starts_with('<') {
                content.push(Node::Element(self.element()?));
            } else {
                let text = self.until(|sign| sign == '<');
                content.push(Node::Text(self.plain(text)?));
            }
        }
        Ok(content)
    }

    fn attributes(&mut self) -> Result<Vec<(String, String)>, String> {
        let mut attributes: Vec<(String, String)> = Vec::new();
        loop {
            let blanks = self.until(|sign| !sign.is_ascii_whitespace());
            if self.0.starts_with('>') || self.0.starts_with("/>") {
                return Ok(attributes);
            }
            if blanks.is_empty() {
                return Err(self.wrong("no blank"));
            }
            let (name, value) = self.attribute()?;
            if attributes.iter().any(|(other, _)| *other == name) {
                return Err(self.wrong("an attribute that is there twice"));
            }
            attributes.push((name, value));
        }
    }

    fn attribute(&mut self) -> Result<(String, String), String> {
        let name = self.name()?;
        self.expect("=")?;
        let quote = match self.0.chars().next() {
            Some(quote @ ('"' | '\'')) => quote,
            _ => return Err(self.wrong("no quote")),
        };
        self.expect(&quote.to_string())?;
        let value = self.until(|sign| sign == quote || sign == '<');
        self.expect(&quote.to_string())?;
        Ok((name, self.plain(value)?))
    }

    /// The text with its entities replaced.
    fn plain(&self, text: &str) -> Result<String, String> {
        if text.contains("]]>") {
            return Err(self.wrong("a section's end"));
        }
        let mut parts = text.split('&');
        let mut plain = parts.next().unwrap_or_default().to_string();
        for part in parts {
            let (name, after) = part.split_once(';').ok_or_else(|| self.wrong("a bare &"))?;
            plain.push(entity(name).ok_or_else(|| self.wrong(&format!("the entity {name:?}")))?);
            plain += after;
        }
        Ok(plain)
    }
}

fn entity(name: &str) -> Option<char> {
    Some(match name {
        "lt" => '<',
        "gt" => '>',
        "amp" => '&',
        "quot" => '"',
        "apos" => '\'',
        _ => return None,
    })
}
