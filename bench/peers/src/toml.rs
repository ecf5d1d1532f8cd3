//! TOML with the data of a KDL document, and with its comments before nodes.

use kdl::{KdlDocument, KdlEntry, KdlNode, KdlValue};
use std::collections::BTreeMap;

/// The TOML of a document. A node without children is a key with its value, values or table; one with children is a
/// table. Each key ends in a number, since a KDL document may have several nodes of a name.
pub fn of_document(document: &KdlDocument) -> String {
    let mut writer = Writer { text: String::new(), serial: 0 };
    writer.nodes(document, "");
    writer.text
}

struct Writer {
    text: String,
    serial: usize,
}

impl Writer {
    /// The nodes of a table with this path: those without children first, as TOML has it.
    fn nodes(&mut self, document: &KdlDocument, path: &str) {
        let (blocks, lines): (Vec<_>, Vec<_>) =
            document.nodes().iter().partition(|node| node.children().is_some());
        for node in lines {
            self.comments(node);
            let key = self.key(node);
            self.text += &format!("{key} = {}\n", line_value(node));
        }
        for node in blocks {
            self.comments(node);
            let key = self.key(node);
            let path = if path.is_empty() { key } else { format!("{path}.{key}") };
            self.text += &format!("[{path}]\n");
            if arguments(node).next().is_some() {
                self.text += &format!("arguments = {}\n", array(node));
            }
            for (name, value) in properties(node) {
                self.text += &format!("{} = {value}\n", quoted(name));
            }
            if let Some(children) = node.children() {
                self.nodes(children, &path);
            }
        }
    }

    /// The comments before a node, a line for each of theirs.
    fn comments(&mut self, node: &KdlNode) {
        let leading = node.format().map_or("", |format| &format.leading);
        for line in leading.lines().map(str::trim).filter(|line| !line.is_empty()) {
            self.text += &format!("# {line}\n");
        }
    }

    /// A key that no other node has.
    fn key(&mut self, node: &KdlNode) -> String {
        self.serial += 1;
        quoted(&format!("{}-{}", node.name().value(), self.serial))
    }
}

/// Returns the text after the `=` of a node without children.
fn line_value(node: &KdlNode) -> String {
    let named = properties(node);
    if named.is_empty() {
        let mut values = arguments(node);
        return match (values.next(), values.next()) {
            (Some(only), None) => only,
            _ => array(node),
        };
    }
    let mut parts: Vec<String> =
        named.iter().map(|(name, value)| format!("{} = {value}", quoted(name))).collect();
    if arguments(node).next().is_some() {
        parts.insert(0, format!("arguments = {}", array(node)));
    }
    format!("{{ {} }}", parts.join(", "))
}

/// The arguments as TOML values.
fn arguments(node: &KdlNode) -> impl Iterator<Item = String> {
    node.entries().iter().filter(|entry| entry.name().is_none()).map(value)
}

fn array(node: &KdlNode) -> String {
    format!("[{}]", arguments(node).collect::<Vec<_>>().join(", "))
}

/// The properties, the last one of each name.
fn properties(node: &KdlNode) -> BTreeMap<&str, String> {
    node.entries().iter().filter_map(|entry| Some((entry.name()?.value(), value(entry)))).collect()
}

/// A value; what TOML has no value for is a string.
fn value(entry: &KdlEntry) -> String {
    match entry.value() {
        KdlValue::String(text) => quoted(text),
        KdlValue::Integer(number) if i64::try_from(*number).is_ok() => number.to_string(),
        KdlValue::Float(number) if number.is_finite() => format!("{number:?}"),
        KdlValue::Bool(truth) => truth.to_string(),
        other => quoted(&other.to_string()),
    }
}

/// A string or a key in quote marks, with escapes.
fn quoted(text: &str) -> String {
    let mut quoted = String::from("\"");
    for c in text.chars() {
        match c {
            '"' | '\\' => quoted.extend(['\\', c]),
            '\n' => quoted += "\\n",
            '\t' => quoted += "\\t",
            c if c.is_control() => quoted += &format!("\\u{:04X}", u32::from(c)),
            c => quoted.push(c),
        }
    }
    quoted + "\""
}
