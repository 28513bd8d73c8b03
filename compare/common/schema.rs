//! Two trees as an XML Schema: a type with the base's content, and one with the
//! derived tree's that restricts it, or stands apart from it.

use crate::tree::{Kind, Tree};

pub fn restricting(derived: &Tree, base: &Tree) -> String {
    let content = content(derived);
    let restriction = format!("<xs:restriction base=\"base\">{content}</xs:restriction>");
    schema(&format!("<xs:complexContent>{restriction}</xs:complexContent>"), base)
}

pub fn apart(derived: &Tree, base: &Tree) -> String {
    schema(&content(derived), base)
}

fn schema(derived: &str, base: &Tree) -> String {
    let base = content(base);
    format!(
        "<xs:schema xmlns:xs=\"http://www.w3.org/2001/XMLSchema\">\
         <xs:complexType name=\"base\">{base}</xs:complexType>\
         <xs:complexType name=\"derived\">{derived}</xs:complexType></xs:schema>\n"
    )
}

/// A type's content is a group: a leaf gets a sequence around it.
fn content(tree: &Tree) -> String {
    if tree.kind.is_leaf() {
        format!("<xs:sequence>{}</xs:sequence>", particle(tree))
    } else {
        particle(tree)
    }
}

fn particle(tree: &Tree) -> String {
    let (min, max) = tree.pair;
    let max = max.map_or("unbounded".into(), |max| max.to_string());
    let occurs = format!("minOccurs=\"{min}\" maxOccurs=\"{max}\"");
    let items = || tree.items.iter().map(particle).collect::<String>();
    match tree.kind {
        Kind::Element => {
            let name = Tree::leaf(Kind::Element, tree.leaf, (1, Some(1)));
            format!("<xs:element name=\"{name}\" type=\"xs:string\" {occurs}/>")
        }
        Kind::Wildcard => format!("<xs:any processContents=\"skip\" {occurs}/>"),
        Kind::Sequence => format!("<xs:sequence {occurs}>{}</xs:sequence>", items()),
        Kind::Choice => format!("<xs:choice {occurs}>{}</xs:choice>", items()),
        Kind::All => format!("<xs:all {occurs}>{}</xs:all>", items()),
    }
}
