//! The calls are declared twice, in `include/sharing.h` and in `src/raw/boundary.rs`, and no compiler sees both. Here they
//! are compared: every call with the names and types of its parameters and what it answers, every struct with its fields.

use gilunavoi::{limits, raw};
use std::collections::{BTreeMap, BTreeSet};

const HEADER: &str = include_str!("../../../include/sharing.h");
const BOUNDARY: &str = include_str!("../src/raw/boundary.rs");
const PREFIX: &str = "sharing_";

/// A type in Rust's words, but for the names of structs, which each side has its own of.
#[derive(Clone, Debug, PartialEq, Eq)]
struct Type {
    /// `*const `, `*mut ` or nothing.
    pointer: &'static str,
    name: String,
    /// Of an array.
    length: Option<usize>,
}

type Fields = Vec<(String, Type)>;

#[derive(Clone, Debug)]
struct Call {
    /// What stands before it in the header.
    mark: String,
    parameters: Fields,
    answer: Type,
}

#[derive(Default)]
struct Declarations {
    calls: BTreeMap<String, Call>,
    structs: BTreeMap<String, Fields>,
    /// Of the header alone: other names of types, and the names of numbers.
    synonyms: BTreeMap<String, String>,
    refusals: Vec<(String, u64)>,
}

impl Declarations {
    fn call(&mut self, name: String, call: Call) {
        assert!(self.calls.insert(name.clone(), call).is_none(), "{name} is declared twice");
    }
}

/// Words and single signs, a quoted text being a word.
struct Tokens(Vec<String>, usize);

impl Tokens {
    fn new(text: &str) -> Tokens {
        let mut tokens: Vec<String> = Vec::new();
        let mut goes_on = false;
        for c in text.chars() {
            let in_word = c.is_alphanumeric() || c == '_' || c == '"';
            if in_word && goes_on {
                tokens.last_mut().expect("a word was begun").push(c);
            } else if !c.is_whitespace() {
                tokens.push(c.to_string());
            }
            goes_on = in_word;
        }
        Tokens(tokens, 0)
    }

    fn peek(&self) -> &str {
        self.0.get(self.1).map_or("", String::as_str)
    }

    fn next(&mut self) -> String {
        assert!(self.1 < self.0.len(), "the declarations end too early");
        self.1 += 1;
        self.0[self.1 - 1].clone()
    }

    fn take(&mut self, token: &str) -> bool {
        let taken = self.peek() == token;
        self.1 += taken as usize;
        taken
    }

    fn expect(&mut self, token: &str) {
        let around = self.0[self.1.saturating_sub(8)..self.1].join(" ");
        assert!(self.take(token), "after `{around}` stands `{}` and not `{token}`", self.peek());
    }
}

/// The text with nothing between `start` and `end`, these included.
fn without(text: &str, start: &str, end: &str) -> String {
    let mut pieces = text.split(start);
    let first = pieces.next().unwrap_or_default().to_string();
    pieces.fold(first, |left, piece| left + piece.split_once(end).expect("what starts ends").1)
}

// The header.

fn type_of_c(tokens: &mut Tokens) -> Type {
    let lent = tokens.take("const");
    let name = tokens.next();
    let name = match name.as_str() {
        "uint8_t" => "u8".to_string(),
        "uint64_t" => "u64".to_string(),
        "size_t" => "usize".to_string(),
        _ => name,
    };
    let pointer = match (tokens.take("*"), lent) {
        (true, true) => "*const ",
        (true, false) => "*mut ",
        (false, lent) => {
            assert!(!lent, "a const {name} that is no pointer");
            ""
        }
    };
    Type { pointer, name, length: None }
}

fn fields_of_c(tokens: &mut Tokens) -> Fields {
    let mut fields = Fields::new();
    while !tokens.take("}") {
        let mut r#type = type_of_c(tokens);
        let name = tokens.next();
        if tokens.take("[") {
            r#type.length = Some(tokens.next().parse().expect("an array's length is a number"));
            tokens.expect("]");
        }
        tokens.expect(";");
        fields.push((name, r#type));
    }
    fields
}

fn parameters_of_c(tokens: &mut Tokens) -> Fields {
    let mut parameters = Fields::new();
    if tokens.take("void") {
        tokens.expect(")");
        return parameters;
    }
    loop {
        let r#type = type_of_c(tokens);
        parameters.push((tokens.next(), r#type));
        if tokens.take(")") {
            return parameters;
        }
        tokens.expect(",");
    }
}

fn refusals_of_c(tokens: &mut Tokens) -> Vec<(String, u64)> {
    let mut refusals = Vec::new();
    loop {
        let name = tokens.next();
        tokens.expect("=");
        refusals.push((name, tokens.next().parse().expect("a refusal is a number")));
        if tokens.take("}") {
            return refusals;
        }
        tokens.expect(",");
    }
}

fn typedef_of_c(tokens: &mut Tokens, found: &mut Declarations) {
    if tokens.take("struct") {
        tokens.expect("{");
        let fields = fields_of_c(tokens);
        found.structs.insert(tokens.next(), fields);
    } else if tokens.take("enum") {
        let name = tokens.next();
        tokens.expect("{");
        found.refusals = refusals_of_c(tokens);
        tokens.expect(&name);
    } else {
        let meant = tokens.next();
        found.synonyms.insert(tokens.next(), meant);
    }
    tokens.expect(";");
}

fn declared_in_c(header: &str) -> Declarations {
    let header = without(&without(header, "/*", "*/"), "#ifdef __cplusplus", "#endif");
    let lines: Vec<&str> = header.lines().filter(|line| !line.starts_with('#')).collect();
    let mut tokens = Tokens::new(&lines.join("\n"));
    let mut found = Declarations::default();
    while !tokens.peek().is_empty() {
        if tokens.take("typedef") {
            typedef_of_c(&mut tokens, &mut found);
            continue;
        }
        let mark = if tokens.peek().starts_with("SHARING_") { tokens.next() } else { String::new() };
        let answer = type_of_c(&mut tokens);
        let name = tokens.next();
        tokens.expect("(");
        let parameters = parameters_of_c(&mut tokens);
        tokens.expect(";");
        found.call(name, Call { mark, parameters, answer });
    }
    found
}

/// The macros that stand for a value.
fn macros(header: &str) -> BTreeMap<&str, &str> {
    header.lines().filter_map(|line| line.strip_prefix("#define ")?.split_once(' ')).collect()
}

// The boundary in Rust.

fn type_of_rust(tokens: &mut Tokens) -> Type {
    if tokens.take("[") {
        let name = tokens.next();
        tokens.expect(";");
        tokens.expect("WEIGHTS");
        tokens.expect("]");
        return Type { pointer: "", name, length: Some(raw::WEIGHTS) };
    }
    let pointer = match tokens.take("*") {
        true if tokens.take("const") => "*const ",
        true => {
            tokens.expect("mut");
            "*mut "
        }
        false => "",
    };
    Type { pointer, name: tokens.next(), length: None }
}

/// Up to `end`, with a comma after each but perhaps the last.
fn fields_of_rust(tokens: &mut Tokens, end: &str) -> Fields {
    let mut fields = Fields::new();
    while !tokens.take(end) {
        tokens.take("pub");
        let name = tokens.next();
        tokens.expect(":");
        fields.push((name, type_of_rust(tokens)));
        if !tokens.take(",") {
            tokens.expect(end);
            break;
        }
    }
    fields
}

fn calls_of_rust(tokens: &mut Tokens, found: &mut Declarations) {
    while !tokens.take("}") {
        tokens.expect("pub");
        let safe = tokens.take("safe");
        tokens.expect("fn");
        let name = tokens.next();
        tokens.expect("(");
        let parameters = fields_of_rust(tokens, ")");
        let pointers = parameters.iter().any(|(_, r#type)| !r#type.pointer.is_empty());
        assert!(!(safe && pointers), "{name} takes a pointer, and is not safe");
        tokens.expect("-");
        tokens.expect(">");
        let answer = type_of_rust(tokens);
        tokens.expect(";");
        found.call(name, Call { mark: String::new(), parameters, answer });
    }
}

fn declared_in_rust(boundary: &str) -> Declarations {
    let mut tokens = Tokens::new(&without(boundary, "//", "\n"));
    let mut found = Declarations::default();
    let mut as_in_c = false;
    while !tokens.peek().is_empty() {
        match tokens.next().as_str() {
            "repr" => {
                tokens.expect("(");
                as_in_c = tokens.take("C");
            }
            "struct" => {
                let name = tokens.next();
                assert!(as_in_c, "{name} is not laid out as in C");
                as_in_c = false;
                tokens.expect("{");
                let fields = fields_of_rust(&mut tokens, "}");
                found.structs.insert(name, fields);
            }
            // A type of functions goes on with `fn`.
            "extern" => {
                tokens.expect("\"C\"");
                if tokens.take("{") {
                    calls_of_rust(&mut tokens, &mut found);
                }
            }
            _ => {}
        }
    }
    found
}

// The comparison.

/// Which struct of the header is which in Rust. The calls tell: each stands at the same place on both sides.
#[derive(Default)]
struct Pairs {
    in_rust: BTreeMap<String, String>,
    in_c: BTreeMap<String, String>,
}

impl Pairs {
    fn same(&mut self, c: &Type, rust: &Type) -> bool {
        if (c.pointer, c.length) != (rust.pointer, rust.length) {
            return false;
        }
        if !c.name.starts_with(PREFIX) {
            return c.name == rust.name;
        }
        let there = self.in_rust.entry(c.name.clone()).or_insert(rust.name.clone()) == &rust.name;
        let here = self.in_c.entry(rust.name.clone()).or_insert(c.name.clone()) == &c.name;
        there && here
    }

    fn compare(&mut self, what: &str, c: &Fields, rust: &Fields, differences: &mut Vec<String>) {
        if c.len() != rust.len() {
            differences.push(format!("{what} has {} in the header and {} in Rust", c.len(), rust.len()));
        }
        for ((c_name, c_type), (rust_name, rust_type)) in c.iter().zip(rust) {
            if c_name != rust_name || !self.same(c_type, rust_type) {
                differences.push(format!("{what}: {c_name}, {c_type:?}, and in Rust {rust_name}, {rust_type:?}"));
            }
        }
    }
}

fn only_on_one_side<'a>(
    what: &str,
    c: impl Iterator<Item = &'a String>,
    rust: impl Iterator<Item = &'a String>,
    differences: &mut Vec<String>,
) {
    let (c, rust): (BTreeSet<_>, BTreeSet<_>) = (c.collect(), rust.collect());
    differences.extend(c.difference(&rust).map(|name| format!("the {what} {name} is missing in Rust")));
    differences.extend(rust.difference(&c).map(|name| format!("the {what} {name} is missing in the header")));
}

/// The old names of the header are left out: Rust does not call them.
fn differences(header: &str, boundary: &str) -> Vec<String> {
    let (mut c, rust) = (declared_in_c(header), declared_in_rust(boundary));
    c.calls.retain(|name, _| name.starts_with(PREFIX));
    let (mut differences, mut pairs) = (Vec::new(), Pairs::default());
    only_on_one_side("call", c.calls.keys(), rust.calls.keys(), &mut differences);
    for (name, call) in &c.calls {
        let Some(other) = rust.calls.get(name) else { continue };
        if !pairs.same(&call.answer, &other.answer) {
            differences.push(format!("{name} answers {:?}, and in Rust {:?}", call.answer, other.answer));
        }
        pairs.compare(name, &call.parameters, &other.parameters, &mut differences);
    }
    only_on_one_side("struct", c.structs.keys(), pairs.in_rust.keys(), &mut differences);
    only_on_one_side("struct", pairs.in_c.keys(), rust.structs.keys(), &mut differences);
    for (c_name, rust_name) in pairs.in_rust.clone() {
        if let (Some(fields), Some(others)) = (c.structs.get(&c_name), rust.structs.get(&rust_name)) {
            pairs.compare(&c_name, fields, others, &mut differences);
        }
    }
    differences
}

#[test]
fn the_same_on_both_sides() {
    assert_eq!(differences(HEADER, BOUNDARY), Vec::<String>::new());
    // That they were read at all.
    assert!(declared_in_c(HEADER).calls.len() > 30 && declared_in_c(HEADER).structs.len() > 8);
}

/// A change on one side is noticed: what is lost, added, exchanged or of another type.
#[test]
fn changes_are_noticed() {
    let in_header = [
        (
            "const uint8_t *message, size_t message_length, const uint8_t *keys",
            "const uint8_t *message, const uint8_t *keys",
        ),
        ("const uint8_t *counts, size_t counts_length,", "size_t counts_length, const uint8_t *counts,"),
        ("const uint8_t *message, size_t message_length, const", "const uint8_t *text, size_t message_length, const"),
        ("uint8_t party, const uint8_t *held", "uint64_t party, const uint8_t *held"),
        ("const size_t *lengths", "const uint64_t *lengths"),
        ("uint8_t *out,", "const uint8_t *out,"),
        ("sharing_key_pool *pool", "const sharing_key_pool *pool"),
        ("sharing_padded_answer sharing_reconstruct_padded(", "sharing_answer sharing_reconstruct_padded("),
        ("sharing_scheme sharing_check_default(void);", ""),
        ("uint8_t sharing_gf256_add(uint8_t a", "uint8_t sharing_gf256_sum(uint8_t a"),
        ("uint64_t used;\n    uint64_t length;", "uint64_t length;\n    uint64_t used;"),
        ("    uint64_t differing;\n", ""),
        ("    uint64_t rows;\n    uint64_t tried;", "    uint64_t rows;\n    uint8_t tried;"),
        ("weights[256]", "weights[255]"),
        ("    size_t position;", "    uint64_t position;"),
        (
            "sharing_scheme sharing_check_default",
            "typedef struct { uint64_t more; } sharing_more;\nsharing_scheme sharing_check_default",
        ),
    ];
    for (old, new) in in_header {
        let changed = without_marks(HEADER).replacen(old, new, 1);
        assert_ne!(changed, without_marks(HEADER), "there is no {old:?} in the header");
        assert!(!differences(&changed, BOUNDARY).is_empty(), "not noticed: {old:?} as {new:?} in the header");
    }
    let in_boundary = [
        ("keys: *const u8, keys_length: usize,", "keys: *const u8,"),
        (
            "message: *const u8, message_length: usize, keys: *const u8",
            "keys: *const u8, message_length: usize, message: *const u8",
        ),
        ("d: usize", "d: u8"),
        ("out: *mut u8", "out: *const u8"),
        ("lengths: *const usize", "lengths: *const u64"),
        ("pub fn sharing_basis_default(parties: *const u8, parties_length: usize) -> SharingBasis;", ""),
        ("-> SharingPaddedAnswer", "-> SharingRebuild"),
        ("    pub rows: u64,\n", ""),
        ("    pub offset: u64,\n    pub length: u64,", "    pub length: u64,\n    pub offset: u64,"),
        ("pub position: usize", "pub position: u32"),
        ("pub struct SharingScheme {", "pub struct More { pub more: u64 }\n#[repr(C)]\npub struct SharingScheme {"),
    ];
    for (old, new) in in_boundary {
        let changed = BOUNDARY.replacen(old, new, 1);
        assert_ne!(changed, BOUNDARY, "there is no {old:?} in the boundary");
        assert!(!differences(HEADER, &changed).is_empty(), "not noticed: {old:?} as {new:?} in the boundary");
    }
}

/// The header without what stands before the calls, so that a call can be left out by its own words.
fn without_marks(header: &str) -> String {
    header.replace("SHARING_CALL_WITHOUT_POINTERS\n", "").replace("SHARING_CALL\n", "")
}

/// Every call warns of an answer that nobody looks at, and those with pointers of NULL.
#[test]
fn calls_are_marked() {
    for (name, call) in declared_in_c(HEADER).calls {
        let pointers = call.parameters.iter().any(|(_, r#type)| !r#type.pointer.is_empty());
        let mark = if pointers { "SHARING_CALL" } else { "SHARING_CALL_WITHOUT_POINTERS" };
        assert_eq!(call.mark, mark, "before {name}");
    }
}

/// An old name is declared as the call that it stands for.
#[test]
fn old_names_are_the_same_calls() {
    let Declarations { calls, synonyms, .. } = declared_in_c(HEADER);
    let meant =
        |r#type: &Type| Type { name: synonyms.get(&r#type.name).unwrap_or(&r#type.name).clone(), ..r#type.clone() };
    for (old, name) in &synonyms {
        assert_eq!(&format!("{PREFIX}{old}"), name);
    }
    let old: Vec<_> = calls.keys().filter(|name| !name.starts_with(PREFIX)).collect();
    assert_eq!(old.len(), 7);
    for name in old {
        let (old, new) = (&calls[name], &calls[&format!("{PREFIX}{name}")]);
        assert_eq!((&old.parameters, meant(&old.answer)), (&new.parameters, new.answer.clone()), "{name}");
    }
}

/// The names of the refusals and their numbers, of which the calls answer the numbers alone: two that are exchanged in the
/// header would still be a name for each number.
const REFUSALS: [(&str, u64); 19] = [
    ("SHARING_ACCEPTED", 0),
    ("SHARING_REFUSED_PARTIES", 1),
    ("SHARING_REFUSED_ABSENT_OR_COLLUDING", 2),
    ("SHARING_REFUSED_COUNTS", 3),
    ("SHARING_REFUSED_BLOCK_LENGTH", 4),
    ("SHARING_REFUSED_MESSAGE_LENGTH", 5),
    ("SHARING_REFUSED_READERS", 6),
    ("SHARING_REFUSED_PARTY_NUMBERS", 7),
    ("SHARING_REFUSED_KEYS_LENGTH", 8),
    ("SHARING_REFUSED_SHARE_LENGTH", 9),
    ("SHARING_REFUSED_OUT_LENGTH", 10),
    ("SHARING_REFUSED_PADDING", 11),
    ("SHARING_REFUSED_ARCHIVE_COUNT", 12),
    ("SHARING_REFUSED_ARCHIVE_ENTRIES", 13),
    ("SHARING_REFUSED_ENTRY_NUMBER", 14),
    ("SHARING_REFUSED_RANGE", 15),
    ("SHARING_REFUSED_POOL", 16),
    ("SHARING_REFUSED_TOO_FEW_SHARES", 17),
    ("SHARING_REFUSED_DISAGREEING", 18),
];

#[test]
fn refusals_are_all_named() {
    let refusals = declared_in_c(HEADER).refusals;
    let numbers: Vec<u64> = refusals.iter().map(|(_, number)| *number).collect();
    assert_eq!(numbers, (0..=18).collect::<Vec<u64>>());
    assert_eq!(refusals[0].0, "SHARING_ACCEPTED");
    assert!(refusals[1..].iter().all(|(name, _)| name.starts_with("SHARING_REFUSED_")), "{refusals:?}");
    let named: Vec<(&str, u64)> = refusals.iter().map(|(name, number)| (name.as_str(), *number)).collect();
    assert_eq!(named, REFUSALS);
    // The table in words, in the comment: a number of up to two places, and two spaces.
    let table: Vec<u64> = HEADER
        .lines()
        .filter_map(|line| line.strip_prefix(" *   ")?.trim_start().split_once("  "))
        .filter_map(|(number, _)| number.parse().ok())
        .collect();
    assert_eq!(table, (1..=18).collect::<Vec<u64>>());
}

#[test]
fn limits_are_the_same() {
    let macros = macros(HEADER);
    for (name, value) in [
        ("SHARING_MAX_PARTIES", limits::MAX_PARTIES as usize),
        ("SHARING_MAX_COUNTS", limits::MAX_COUNTS),
        ("SHARING_MAX_BLOCK", limits::MAX_BLOCK),
        ("SHARING_MAX_MESSAGE", limits::MAX_MESSAGE),
        ("SHARING_MAX_ENTRIES", limits::MAX_ENTRIES),
        ("SHARING_MAX_OFFSET_OR_LENGTH", limits::MAX_OFFSET_OR_LENGTH),
        ("SHARING_DEFAULT_N", limits::DEFAULT_N as usize),
        ("SHARING_DEFAULT_R", limits::DEFAULT_R as usize),
        ("SHARING_DEFAULT_Z", limits::DEFAULT_Z as usize),
    ] {
        assert_eq!(macros.get(name), Some(&value.to_string().as_str()), "{name}");
    }
    let counts = format!("{:?}", limits::DEFAULT_COUNTS).replace('[', "{").replace(']', "}");
    assert_eq!(macros.get("SHARING_DEFAULT_COUNTS"), Some(&counts.as_str()));
    assert_eq!(macros.get("SHARING_VERSION"), Some(&concat!("\"", env!("CARGO_PKG_VERSION"), "\"")));
}
