//! A strict reader of the part of XML that a drawn page needs: elements, attributes in double quotes, text, and the five entities by name or number.

/// An element with all that is in it.
#[derive(Debug)]
pub struct Element {
    pub name: String,
    pub attributes: Vec<(String, String)>,
    pub children: Vec<Node>,
}

/// What is in an element.
#[derive(Debug)]
pub enum Node {
    Element(Element),
    Text(String),
}

impl Element {
    /// The value of an attribute, empty where there is none.
    pub fn attribute(&self, name: &str) -> &str {
        self.attributes.iter().find(|(given, _)| given == name).map_or("", |(_, value)| value)
    }

    /// Whether the element has this class, alone or among others.
    pub fn has_class(&self, class: &str) -> bool {
        self.attribute("class").split(' ').any(|given| given == class)
    }

    /// The elements right in this one.
    pub fn elements(&self) -> impl Iterator<Item = &Element> {
        self.children.iter().filter_map(|node| match node {
            Node::Element(element) => Some(element),
            Node::Text(_) => None,
        })
    }

    /// All elements below this one that have this name and this class, in their order.
    pub fn all<'a>(&'a self, name: &str, class: &str) -> Vec<&'a Element> {
        let mut found = Vec::new();
        for element in self.elements() {
            if element.name == name && element.has_class(class) {
                found.push(element);
            }
            found.extend(element.all(name, class));
        }
        found
    }

    /// The text in this element and in all below it.
    pub fn text(&self) -> String {
        let of_node = |node: &Node| match node {
            Node::Element(element) => element.text(),
            Node::Text(text) => text.clone(),
        };
        self.children.iter().map(of_node).collect()
    }
}

/// Reads a page: one element, and nothing after it but a line's end. What is wrong is told with the bytes that remain.
pub fn read(page: &str) -> Result<Element, String> {
    if let Some(letter) = page.chars().find(|letter| !allowed(*letter)) {
        return Err(format!("the character {letter:?} is not allowed"));
    }
    let mut rest = page;
    let element = element(&mut rest).map_err(|what| format!("{what} at {:?}", rest.chars().take(80).collect::<String>()))?;
    match rest {
        "" | "\n" => Ok(element),
        _ => Err(format!("more after the page: {rest:?}")),
    }
}

/// The characters of XML 1.0, without the control characters from 127 on, which it allows but advises against.
fn allowed(letter: char) -> bool {
    matches!(letter, '\t' | '\n' | '\r' | ' '..='\u{7e}' | '\u{a0}'..='\u{d7ff}' | '\u{e000}'..='\u{fffd}' | '\u{10000}'..)
}

fn take(rest: &mut &str, front: &str) -> bool {
    let after = rest.strip_prefix(front);
    *rest = after.unwrap_or(rest);
    after.is_some()
}

fn take_while<'a>(rest: &mut &'a str, wanted: impl Fn(char) -> bool) -> &'a str {
    let (front, after) = rest.split_at(rest.find(|letter| !wanted(letter)).unwrap_or(rest.len()));
    *rest = after;
    front
}

fn name(rest: &mut &str) -> Result<String, String> {
    let name = take_while(rest, |letter| letter.is_ascii_alphanumeric() || letter == ':' || letter == '-');
    if name.starts_with(|letter: char| letter.is_ascii_alphabetic()) {
        Ok(name.to_string())
    } else {
        Err("no name".to_string())
    }
}

fn element(rest: &mut &str) -> Result<Element, String> {
    if !take(rest, "<") {
        return Err("no element".to_string());
    }
    let mut element = Element { name: name(rest)?, attributes: Vec::new(), children: Vec::new() };
    while take(rest, " ") {
        let name = name(rest)?;
        if !element.attribute(&name).is_empty() || !take(rest, "=\"") {
            return Err(format!("the attribute {name} twice or without a value"));
        }
        let value = unescaped(take_while(rest, |letter| !matches!(letter, '"' | '<' | '\n')))?;
        element.attributes.push((name, value));
        if !take(rest, "\"") {
            return Err("no end of a value".to_string());
        }
    }
    if take(rest, "/>") {
        return Ok(element);
    }
    if !take(rest, ">") {
        return Err("no end of a tag".to_string());
    }
    children(rest, &mut element)?;
    Ok(element)
}

/// All up to the element's closing tag, and that tag.
fn children(rest: &mut &str, parent: &mut Element) -> Result<(), String> {
    loop {
        let text = take_while(rest, |letter| letter != '<');
        if !text.is_empty() {
            parent.children.push(Node::Text(unescaped(text)?));
        }
        if take(rest, "</") {
            let closes = name(rest)?;
            return if closes == parent.name && take(rest, ">") { Ok(()) } else { Err(format!("{} is closed by {closes}", parent.name)) };
        }
        parent.children.push(Node::Element(element(rest)?));
    }
}

fn unescaped(text: &str) -> Result<String, String> {
    if text.contains("]]>") {
        return Err("an end of raw text in text".to_string());
    }
    let mut pieces = text.split('&');
    let mut plain = pieces.next().unwrap_or("").to_string();
    for piece in pieces {
        let (entity, after) = piece.split_once(';').ok_or("an & without an entity")?;
        plain.push(match entity {
            "amp" => '&',
            "lt" => '<',
            "gt" => '>',
            "quot" => '"',
            "#39" => '\'',
            _ => return Err(format!("the entity {entity} is not known")),
        });
        plain += after;
    }
    Ok(plain)
}

#[cfg(test)]
mod tests {
    use super::*;

    #[test]
    fn a_page_is_read() {
        let page = read("<svg a=\"1\" b:c=\"&lt;\">x &amp; y<g class=\"p q\"><g class=\"q\"/></g>z</svg>\n").unwrap();
        assert_eq!((page.attribute("a"), page.attribute("b:c"), page.attribute("d")), ("1", "<", ""));
        assert_eq!((page.all("g", "q").len(), page.all("g", "p").len(), page.all("svg", "q").len()), (2, 1, 0));
        assert_eq!(page.text(), "x & yz");
    }

    #[test]
    fn what_is_not_well_formed_is_refused() {
        let pages = [
            "",
            "x",
            "<",
            "<a",
            "<a>",
            "<a></b>",
            "<a><b></a></b>",
            "<a/><b/>",
            "<a/>x",
            "<a b/>",
            "<a b=c/>",
            "<a b=\"<\"/>",
            "<a b=\"1\" b=\"2\"/>",
            "<a>&</a>",
            "<a>&x;</a>",
            "<a>]]></a>",
            "<a>\u{1}</a>",
            "<a>\u{7f}</a>",
            "<a>\u{80}</a>",
            "<a>\u{ffff}</a>",
            "<a b=\"1\"c=\"2\"/>",
            "<1/>",
        ];
        for page in pages {
            assert!(read(page).is_err(), "{page:?}");
        }
    }
}
