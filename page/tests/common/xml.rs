//! A parser that takes well-formed XML only, of the kind that the page claims to be: no comments,
//! no sections of unparsed text, and the named characters `amp`, `lt`, `gt` and `quot`.

#[derive(Debug)]
pub struct Element {
    pub name: String,
    pub attributes: Vec<(String, String)>,
    /// Its own text, without that of the elements in it.
    pub text: String,
    /// Written as `<name/>`.
    pub empty: bool,
    /// The elements around it, outermost first.
    pub inside: Vec<String>,
}

impl Element {
    pub fn has(&self, name: &str) -> bool {
        self.attributes.iter().any(|(found, _)| found == name)
    }

    pub fn attribute(&self, name: &str) -> &str {
        let found = self.attributes.iter().find(|(found, _)| found == name);
        found.map_or("", |(_, value)| value)
    }
}

/// The elements of a document in the order of their beginnings, or why it is not well formed.
pub fn parse(document: &str) -> Result<Vec<Element>, String> {
    let mut rest = document.strip_prefix("<!DOCTYPE html>\n").unwrap_or(document);
    let mut elements: Vec<Element> = Vec::new();
    let mut open: Vec<usize> = Vec::new();
    if let Some(bad) = document.chars().find(|&c| !allowed(c)) {
        return Err(format!("character {:#x}", u32::from(bad)));
    }
    while !rest.is_empty() {
        let text_end = rest.find('<').unwrap_or(rest.len());
        let (text, tail) = rest.split_at(text_end);
        let text = plain(text)?;
        match open.last() {
            Some(&parent) => elements[parent].text.push_str(&text),
            None if text.trim().is_empty() => {}
            None => return Err(format!("text outside the root: {text}")),
        }
        if tail.is_empty() {
            break;
        }
        let (tag, after) = tail[1..].split_once('>').ok_or("a tag without its end")?;
        rest = after;
        if let Some(name) = tag.strip_prefix('/') {
            let begun = open.pop().ok_or(format!("</{name}> ends nothing"))?;
            if elements[begun].name != name {
                return Err(format!("</{name}> ends <{}>", elements[begun].name));
            }
            continue;
        }
        if open.is_empty() && !elements.is_empty() {
            return Err("two roots".into());
        }
        let inside = open.iter().map(|&index| elements[index].name.clone()).collect();
        let element = begin(tag, inside)?;
        if !element.empty {
            open.push(elements.len());
        }
        elements.push(element);
    }
    match open.last() {
        Some(&left) => Err(format!("<{}> does not end", elements[left].name)),
        None if elements.is_empty() => Err("no root".into()),
        None => Ok(elements),
    }
}

fn allowed(c: char) -> bool {
    matches!(c, '\t' | '\n' | ' '..='\u{7e}' | '\u{a0}'..='\u{fffd}' | '\u{10000}'..)
}

/// The inside of a beginning tag: `name a="b" c="d"` and perhaps `/`.
fn begin(tag: &str, inside: Vec<String>) -> Result<Element, String> {
    let empty = tag.ends_with('/');
    let tag = tag.strip_suffix('/').unwrap_or(tag);
    let (name, mut rest) = tag.split_at(tag.find(char::is_whitespace).unwrap_or(tag.len()));
    check_name(name)?;
    let mut attributes: Vec<(String, String)> = Vec::new();
    while !rest.trim().is_empty() {
        let trimmed = rest.trim_start();
        if trimmed.len() == rest.len() {
            return Err(format!("no space before {rest}"));
        }
        let (key, after) = trimmed.split_once("=\"").ok_or(format!("no value: {trimmed}"))?;
        let (value, after) = after.split_once('"').ok_or(format!("no end of {key}'s value"))?;
        check_name(key)?;
        if attributes.iter().any(|(known, _)| known == key) {
            return Err(format!("{key} twice in <{name}>"));
        }
        attributes.push((key.into(), plain(value)?));
        rest = after;
    }
    Ok(Element { name: name.into(), attributes, text: String::new(), empty, inside })
}

fn check_name(name: &str) -> Result<(), String> {
    let good = |c: char| c.is_ascii_alphanumeric() || matches!(c, '-' | ':' | '_');
    if name.starts_with(|c: char| c.is_ascii_alphabetic()) && name.chars().all(good) {
        Ok(())
    } else {
        Err(format!("no name: {name:?}"))
    }
}

/// Text with its named characters put in.
fn plain(text: &str) -> Result<String, String> {
    if text.contains("]]>") || text.contains('<') {
        return Err(format!("bare markup in {text}"));
    }
    let mut parts = text.split('&');
    let mut out = parts.next().unwrap_or("").to_string();
    for part in parts {
        let (name, after) = part.split_once(';').ok_or(format!("bare & before {part}"))?;
        out.push(match name {
            "amp" => '&',
            "lt" => '<',
            "gt" => '>',
            "quot" => '"',
            _ => return Err(format!("unknown &{name};")),
        });
        out.push_str(after);
    }
    Ok(out)
}
