//! The parser of well-formed XML notices what is not.

mod common;

use common::xml::parse;

#[test]
fn well_formed() {
    let elements =
        parse("<!DOCTYPE html>\n<a b=\"1\"><c d=\"&lt;\"/>x &amp; y<e>z</e></a>\n").unwrap();
    let names: Vec<&str> = elements.iter().map(|element| element.name.as_str()).collect();
    assert_eq!(names, ["a", "c", "e"]);
    assert_eq!(elements[0].text, "x & y");
    assert_eq!(elements[1].attribute("d"), "<");
    assert!(elements[1].empty && elements[2].inside == ["a"]);
}

#[test]
fn not_well_formed() {
    for bad in [
        "",
        "text",
        "<a>",
        "</a>",
        "<a></b>",
        "<a><b></a></b>",
        "<a/><b/>",
        "<a/>text",
        "<a b/>",
        "<a b=1/>",
        "<a b=\"1\" b=\"2\"/>",
        "<a b=\"1\"c=\"2\"/>",
        "<a b=\"<\"/>",
        "<a>&</a>",
        "<a>&nbsp;</a>",
        "<a>]]></a>",
        "<a>\u{1}</a>",
        "<a",
        "<1/>",
        "<a <b/>",
    ] {
        assert!(parse(bad).is_err(), "{bad}");
    }
}
