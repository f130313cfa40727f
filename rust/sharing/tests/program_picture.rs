//! The picture of a scheme that the program `sharing` draws.

use comparison::cases::{self, Scheme};
use comparison::random::Random;
use folder::Folder;
use std::fs;

// Of what a folder can do, not all is needed here.
#[allow(dead_code)]
mod folder;

/// An element of a picture.
struct Element<'a> {
    name: &'a str,
    attributes: Vec<(&'a str, &'a str)>,
    /// What stands between it and the next mark.
    text: &'a str,
}

impl Element<'_> {
    fn attribute(&self, name: &str) -> &str {
        self.attributes.iter().find(|(other, _)| *other == name).map_or("", |(_, value)| value)
    }

    fn number(&self, name: &str) -> usize {
        self.attribute(name).parse().unwrap_or_else(|_| panic!("{name} of {}", self.text))
    }

    fn is(&self, class: &str) -> bool {
        self.attribute("class").split(' ').any(|word| word == class)
    }
}

/// NAME="VALUE" NAME="VALUE" ..
fn attributes(mut words: &str) -> Vec<(&str, &str)> {
    let mut attributes = Vec::new();
    while let Some((name, rest)) = words.split_once("=\"") {
        let (value, rest) = rest.split_once('"').expect("the value's end");
        attributes.push((name.trim(), value));
        words = rest;
    }
    assert_eq!(words.trim(), "", "nothing else");
    attributes
}

/// The elements in their order. Every one is closed where it has to be, and no mark of the language stands in a text.
fn elements(picture: &str) -> Vec<Element<'_>> {
    let (mut elements, mut open) = (Vec::new(), Vec::new());
    let mut parts = picture.split('<');
    assert_eq!(parts.next(), Some(""));
    for part in parts {
        let (tag, text) = part.split_once('>').expect("the tag's end");
        assert!(!text.contains(['&', '>']), "{text}");
        if let Some(name) = tag.strip_prefix('/') {
            assert_eq!(open.pop(), Some(name));
            continue;
        }
        let closed = tag.strip_suffix('/');
        let (name, words) = closed.unwrap_or(tag).split_once(' ').unwrap_or((tag, ""));
        if closed.is_none() {
            open.push(name);
        }
        assert!(!open.is_empty(), "one element holds all others");
        elements.push(Element { name, attributes: attributes(words), text });
    }
    assert!(open.is_empty(), "{open:?}");
    elements
}

fn picture(folder: &Folder, scheme: &str) -> String {
    folder.says(format!("scheme --picture picture.svg {scheme}").trim_end());
    let picture = folder::text(&folder.bytes("picture.svg"));
    folder.remove("picture.svg");
    picture
}

fn in_a_row(scheme: &Scheme) -> String {
    let numbers = [&[scheme.n, scheme.r, scheme.z], &scheme.counts[..]].concat();
    numbers.iter().map(u8::to_string).collect::<Vec<_>>().join(",")
}

/// Pictures of schemes of all kinds: those with the most counts and the most rows are among them, and one that is as high as
/// any.
#[test]
fn pictures_of_all_kinds_of_schemes() {
    let folder = Folder::new("picture-kinds");
    let mut random = Random::new(1);
    let most = cases::accepted([
        (16, 10, 1, &[16, 15, 13, 11, 9, 8, 7, 6]),
        (16, 14, 1, &[16, 15, 13, 11, 9, 8, 7, 2]),
        (12, 10, 1, &[11, 10, 9, 7, 6, 5, 4, 2]),
    ]);
    let drawn = (0..100).map(|_| Scheme::drawn(&mut random, 840));
    for scheme in cases::schemes().into_iter().chain(most).chain(drawn) {
        is_a_picture(&picture(&folder, &in_a_row(&scheme)), &scheme);
    }
}

/// It is one or two screens large, no text is cut at its right side, and all rows and all counts are in it.
fn is_a_picture(picture: &str, scheme: &Scheme) {
    let elements = elements(picture);
    let (width, height) = (elements[0].number("width"), elements[0].number("height"));
    assert!((800..1700).contains(&width) && height < 2100, "{scheme:?}: {width} and {height}");
    assert_eq!((elements[0].name, elements[0].attribute("role")), ("svg", "img"));
    assert_eq!(elements[1].text, format!("The scheme {}", in_a_row(scheme)));
    assert_eq!((elements[1].name, elements[2].name), ("title", "desc"));
    let texts = || elements.iter().filter(|element| element.name == "text");
    for text in texts().filter(|text| !text.is("middle") && !text.is("end")) {
        let letter = if text.is("title") { 14 } else { 7 + text.is("strong") as usize };
        assert!(text.number("x") + letter * text.text.chars().count() < width, "{scheme:?}: {}", text.text);
        assert!(text.number("y") < height, "{scheme:?}: {}", text.text);
    }
    let rows = texts().filter(|text| text.is("end")).count();
    let left_out = texts().filter_map(|text| text.text.strip_prefix("… ")?.strip_suffix(" more rows"));
    let left_out: usize = left_out.map(|number| number.parse::<usize>().expect("a number")).sum();
    assert_eq!(rows + left_out, scheme.b, "{scheme:?}");
    for &d in &scheme.counts {
        let sent = scheme.m / (d - scheme.z) as usize;
        let rows = format!("{d} parties: {sent} {} each", if sent == 1 { "row" } else { "rows" });
        let bytes = format!("{} bytes in all", d as usize * sent);
        assert!(texts().zip(texts().skip(1)).any(|(one, next)| one.text == rows && next.text == bytes), "{scheme:?}");
    }
    assert_eq!(elements.iter().filter(|element| element.is("bracket")).count(), scheme.counts.len());
}

/// What stands in the cells: of a copy also where it comes from.
fn cells(picture: &str) -> Vec<String> {
    let mut cells: Vec<String> = Vec::new();
    for text in elements(picture).iter().filter(|element| element.is("middle") && !element.text.starts_with(['1', 'x']))
    {
        match cells.last_mut() {
            Some(cell) if text.is("small") => *cell += &format!(" {}", text.text),
            _ => cells.push(text.text.to_string()),
        }
    }
    cells
}

#[test]
fn what_stands_in_the_cells() {
    let folder = Folder::new("picture-cells");
    let default = "k0|k1|m0|m1|m2|k2|k3|m3|m4|m5|k4|k5|m2 row 0, x⁴|m5 row 1, x⁴|\
        k6|k7|m1 row 0, x³|k8|k9|m4 row 1, x³|k10|k11|m5 row 2, x³";
    assert_eq!(cells(&picture(&folder, "")).join("|"), default);
    // Figure 2b of the paper, which counts from 1: k1 m1 .. m6, k2 m4 m5 m6, k3 m3 m6.
    let few_rows = "k0|m0|m1|m2|m3|m4|m5|k1|m3 row 0, x⁴|m4 row 0, x⁵|m5 row 0, x⁶|k2|m2 row 0, x³|m5 row 1, x³";
    assert_eq!(cells(&picture(&folder, "7,4,1,7,4,3")).join("|"), few_rows);
}

/// Of 105, 15, 20 and 28 rows the first four and the last are drawn.
#[test]
fn rows_left_out() {
    let folder = Folder::new("picture-long");
    let picture = picture(&folder, "9,3,1,9,8,7,6");
    let lines: Vec<String> = elements(&picture)
        .iter()
        .filter(|element| element.is("end") || element.text.starts_with('…'))
        .map(|element| element.text.trim_start_matches("row ").to_string())
        .collect();
    let expected = "0 1 2 3|… 100 more rows|104 105 106 107 108|… 10 more rows|119 120 121 122 123|… 15 more rows|\
        139 140 141 142 143|… 23 more rows|167";
    let expected: Vec<&str> = expected
        .split('|')
        .flat_map(|part| if part.starts_with('…') { vec![part] } else { part.split(' ').collect() })
        .collect();
    assert_eq!(lines, expected);
    assert!(cells(&picture).contains(&"m839 row 104, x⁸".to_string()));
    assert!(cells(&picture).contains(&"m839 row 139, x⁶".to_string()));
}

/// Where fewer than can open a message learn part of it, the picture says so, in the words of the sheet.
#[test]
fn who_learns_part() {
    let folder = Folder::new("picture-ramp");
    for (scheme, learn) in [
        ("5,2,1,5,4,3", Some("2 parties together learn part of it, and ")),
        ("9,3,1,9,8,7,6", Some("2 to 5 parties together learn part of it, and ")),
        ("16,10,4,16,6", Some("5 parties together learn part of it, and ")),
        ("5,2,2,5,4,3", None),
        ("2,0,1,2", None),
    ] {
        let (picture, sheet) = (picture(&folder, scheme), folder.says(&format!("scheme {scheme}")));
        if let Some(learn) = learn {
            assert!(picture.contains(&format!(" parties open a message, {learn}")), "{scheme}");
            assert!(sheet.contains(&format!("\n{learn}")), "{sheet}");
        }
        assert_eq!([&picture, &sheet].map(|text| text.contains(" learn part of ")), [learn.is_some(); 2], "{scheme}");
    }
}

/// The picture among the documents is the one that the program draws.
#[test]
fn the_picture_among_the_documents() {
    let folder = Folder::new("picture-documents");
    let kept = concat!(env!("CARGO_MANIFEST_DIR"), "/../../docs/pictures/default.svg");
    let kept = fs::read_to_string(kept).expect("a picture");
    assert_eq!(picture(&folder, ""), kept, "write it anew with sharing scheme --picture docs/pictures/default.svg");
    assert_eq!(picture(&folder, "5,2,2,5,4,3"), kept);
}

/// The report is that without a picture, and where the picture is.
#[test]
fn reports() {
    let folder = Folder::new("picture-reports");
    for (number, words) in ["", " 7,4,1,7,4,3", " --length 33 --unpadded", " --first 5 --length 0"].iter().enumerate() {
        let said = folder.says(&format!("scheme --picture {number}.svg{words}"));
        let expected = folder.says(&format!("scheme{words}"));
        assert_eq!(said, format!("{expected}The picture of the scheme is in \"{number}.svg\".\n"));
    }
    assert_eq!(folder.bytes("0.svg"), folder.bytes("3.svg"), "a message changes nothing of a picture");
    let help = folder.says("scheme --help");
    assert!(help.contains("[--picture FILE]") && folder.says("--help").contains("[--picture FILE]"), "{help}");
}

#[test]
fn refusals() {
    let folder = Folder::new("picture-refusals");
    folder.write("taken", 5);
    let before = folder.bytes("taken");
    let said = folder.fails("scheme --picture taken", 1);
    assert_eq!(said, "sharing: \"taken\" exists already, and nothing is overwritten\n");
    assert_eq!(folder.bytes("taken"), before);
    assert!(folder.fails("scheme --picture no/picture.svg", 1).contains("cannot write \"no/picture.svg\": "));
    folder.refuses("scheme 10,4,1,10,9,8,6 --picture picture.svg", 4, "the scheme is N 10");
    folder.refuses("scheme --length 16385 --picture picture.svg", 5, "--length is 16385");
    folder.refuses("scheme --first 16385 --picture picture.svg", 5, "16385 bytes at least");
    for (line, reason) in [
        ("scheme --picture", "--picture needs a value after it"),
        ("scheme --picture=", "\"\" is not the name of a file"),
        ("scheme --picture folder/", "\"folder/\" is not the name of a file"),
        ("scheme --picture a --picture b", "--picture stands twice"),
        ("split --picture a message keys shares", "there is no option \"--picture\" here"),
    ] {
        assert!(folder.fails(line, 2).contains(reason), "{line}");
    }
    // Nobody is told of the picture, so it goes again.
    folder.shell_fails("exec \"$0\" scheme --picture picture.svg >/dev/full", "cannot write to standard output: ");
    assert_eq!(folder.names().len(), 1);
}
