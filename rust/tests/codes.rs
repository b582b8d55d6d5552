//! Names and codes are those of crates/codes/src, in the package and in the header for C.

use std::fmt::Debug;
use std::fs;
use std::path::Path;

use penne_parser::{
    BaseToken, BinaryOp, ComparisonOp, DeclarationFlag, DeclarationFlags, MAX_SLOTS, MAX_TOKENS,
    NodeId, NodesRef, ParseNode, Refusal, RefusalNumber, TokenId, UnaryOp, ValueTypeKeyword, raw,
};

fn read(path: &str) -> String {
    let path = Path::new(env!("CARGO_MANIFEST_DIR"))
        .with_file_name("")
        .join(path);
    fs::read_to_string(&path).unwrap_or_else(|error| panic!("{}: {error}", path.display()))
}

/// The constants of a file of crates/codes/src, each with its number.
fn constants(file: &str) -> Vec<(String, u32)> {
    let source = read(&format!("crates/codes/src/{file}.rt"));
    let lines = source.lines().filter_map(|line| {
        let (name, rest) = line.trim().strip_prefix("pub const ")?.split_once(": u")?;
        let number = rest.split_once(" = ")?.1.strip_suffix(';')?;
        Some((name.to_string(), number.parse().ok()?))
    });
    lines.collect()
}

/// The constants of the header with this prefix, each with its number.
fn in_header(prefix: &str) -> Vec<(String, u32)> {
    let header = read("include/penne.h");
    let lines = header.lines().filter_map(|line| {
        let (name, number) = line.trim().strip_prefix(prefix)?.split_once(" = ")?;
        Some((name.to_string(), number.trim_end_matches(',').parse().ok()?))
    });
    lines.collect()
}

/// A name as the header writes it: `EndOfSource` is END_OF_SOURCE.
fn upper(name: &str) -> String {
    let mut upper = String::new();
    let mut before = 'A';
    for letter in name.chars() {
        if letter.is_ascii_uppercase() && !before.is_ascii_uppercase() {
            upper.push('_');
        }
        upper.push(letter.to_ascii_uppercase());
        before = letter;
    }
    upper
}

/// Compares the names and codes with those of the file and of the header.
fn compare<T: Debug>(file: &str, codes: impl Iterator<Item = (T, u32)>) {
    let here: Vec<_> = codes
        .map(|(name, code)| (format!("{name:?}"), code))
        .collect();
    assert_eq!(here, constants(file), "{file}");
    let header = here
        .into_iter()
        .map(|(name, code)| (upper(&name), code))
        .collect::<Vec<_>>();
    let prefix = format!("PENNE_{}_", file.trim_end_matches("_number").to_uppercase());
    assert_eq!(header, in_header(&prefix), "{prefix}");
}

/// The variants of an enum of codes with their codes.
macro_rules! variants {
    ($name:ident) => {
        $name::ALL.iter().map(|&variant| (variant, variant as u32))
    };
}

#[test]
fn names_and_codes() {
    compare("base_token", variants!(BaseToken));
    compare("value_type_keyword", variants!(ValueTypeKeyword));
    compare("binary_op", variants!(BinaryOp));
    compare("unary_op", variants!(UnaryOp));
    compare("comparison_op", variants!(ComparisonOp));
    compare("refusal_number", variants!(RefusalNumber));
    let flags = DeclarationFlag::ALL.iter();
    let bits = flags.map(|&flag| (flag, DeclarationFlags::from(flag).bits()));
    compare("declaration_flag", bits);
}

#[test]
fn codes_are_read_back() {
    for code in 0..=255 {
        let token = BaseToken::from_repr(code);
        assert_eq!(token.map(|token| token as u8), (code < 62).then_some(code));
        let value_type = ValueTypeKeyword::from_repr(code);
        assert_eq!(
            value_type.map(|type_| type_ as u8),
            (code < 15).then_some(code)
        );
        let refusal = RefusalNumber::from_repr(code);
        let known = matches!(code, 1..=3 | 10..=25 | 30..=36 | 56);
        assert_eq!(refusal.map(|refusal| refusal as u8), known.then_some(code));
    }
}

/// A node's name, which stands first when it is shown.
struct Name(ParseNode);

impl Debug for Name {
    fn fmt(&self, f: &mut std::fmt::Formatter<'_>) -> std::fmt::Result {
        let shown = format!("{:?}", self.0);
        let end = shown.find(|c: char| !c.is_ascii_alphanumeric());
        f.write_str(&shown[..end.unwrap_or(shown.len())])
    }
}

#[test]
fn kinds_of_nodes() {
    let nodes = (0..=255).filter_map(|kind| ParseNode::from_columns(kind, 0));
    compare(
        "parse_node",
        nodes.map(|node| (Name(node), u32::from(node.kind()))),
    );
}

#[test]
fn loads_are_read_back() {
    let loads = [0, 1, 2, 4, 5, 10, 11, 14, 15, 31, 32, 255, 256, 70_001];
    for kind in 0..64 {
        let mut taken = Vec::new();
        for load in loads.into_iter().chain([u32::MAX]) {
            if let Some(node) = ParseNode::from_columns(kind, load) {
                assert_eq!((node.kind(), node.load()), (kind, load));
                taken.push(load);
            }
        }
        let most = match kind {
            1 => 31,
            7 | 34 => 255,
            16 | 17 | 24 => 1,
            20 => 5,
            22 => 10,
            41 => 14,
            0 | 6 | 12 | 18 | 35 | 39 | 40 | 45..=47 | 49 | 50 | 52 | 53 | 63 => 0,
            _ => u32::MAX,
        };
        let known = loads.into_iter().chain([u32::MAX]);
        assert_eq!(
            taken,
            known.filter(|&load| load <= most).collect::<Vec<_>>()
        );
    }
    assert_eq!(ParseNode::from_columns(64, 0), None);
}

#[test]
fn parts_of_nodes() {
    let source = read("crates/codes/src/lib.rt");
    let (_, table) = source
        .split_once("const PARTS: [[u8; 4]; 64] = [\n")
        .unwrap();
    for (kind, line) in table.lines().take(64).enumerate() {
        let codes = line.trim().trim_start_matches('[');
        let codes = codes.split_once(']').unwrap().0.split(", ");
        // Of the node 10 with the load 77.
        let part = |code| match code {
            "Part::Linked" => NodeId(77),
            back => NodeId(10 - back.parse::<u32>().unwrap()),
        };
        let parts: Vec<_> = codes.filter(|&code| code != "0").map(part).collect();
        let (kinds, loads) = ([kind as u8; 11], [77; 11]);
        let nodes = NodesRef::new(&kinds, &loads);
        assert_eq!(nodes.parts(NodeId(10)).len(), parts.len());
        assert_eq!(nodes.parts(NodeId(10)).collect::<Vec<_>>(), parts, "{line}");
        assert_eq!(nodes.parts(NodeId(11)).count(), 0);
    }
}

/// The library's function gives the table, and 0 outside of it.
#[test]
fn codes_of_parts() {
    assert_eq!(
        constants("part_code"),
        [("Linked".to_string(), u32::from(raw::LINKED))]
    );
    let header = read("include/penne.h");
    assert!(header.contains(&format!("#define PENNE_PART_LINKED {}\n", raw::LINKED)));
    assert!(header.contains(&format!("#define PENNE_MAX_PARTS {}\n", raw::MAX_PARTS)));
    for kind in 0..=255 {
        for which in 0..=255 {
            let code = raw::part(kind, which);
            assert!(code == 0 || kind < 64 && which < raw::MAX_PARTS);
            // The parts of a kind come without a gap.
            assert!(code == 0 || which == 0 || raw::part(kind, which - 1) != 0);
        }
    }
}

#[test]
fn parts_end_before_the_first_node() {
    // Of a constant declaration at node 2 the parts 1 and 2 back are there.
    let nodes = NodesRef::new(&[3; 3], &[0; 3]);
    assert!(nodes.parts(NodeId(2)).eq([NodeId(1), NodeId(0)]));
}

#[test]
fn items_end_where_a_link_goes_back() {
    // A list whose item links to itself.
    let nodes = NodesRef::new(&[27, 59, 58], &[0, 1, 1]);
    assert!(nodes.items(NodeId(2)).eq([NodeId(0)]));
    assert_eq!(nodes.items(NodeId(0)).count(), 0);
    assert_eq!(nodes.items(NodeId(9)).count(), 0);
}

#[test]
fn flags_are_a_set() {
    for bits in 0..32 {
        let flags = DeclarationFlags::from_bits(bits).unwrap();
        assert_eq!(flags.iter().collect::<DeclarationFlags>(), flags);
        assert_eq!(
            flags.iter().map(|flag| 1 << flag as u32).sum::<u32>(),
            flags.bits()
        );
    }
    assert_eq!(DeclarationFlags::from_bits(32), None);
    let flags = DeclarationFlag::Public | DeclarationFlag::Main;
    assert_eq!(format!("{flags:?}"), "{Public, Main}");
}

#[test]
fn limits() {
    let limits = constants("limit");
    assert_eq!(limits[0], ("Tokens".to_string(), MAX_TOKENS as u32));
    assert_eq!(limits[1], ("Slots".to_string(), MAX_SLOTS as u32));
    let header = read("include/penne.h");
    assert!(header.contains(&format!("#define PENNE_MAX_TOKENS {MAX_TOKENS}\n")));
    assert!(header.contains(&format!("#define PENNE_MAX_SLOTS {MAX_SLOTS}\n")));
}

/// The script tools/tree says the same.
#[test]
fn sentences_of_refusals() {
    let sentences = read("tools/tests/refusals.txt");
    let mut lines = sentences.lines();
    for &number in RefusalNumber::ALL {
        let refusal = Refusal {
            number,
            start: TokenId(5),
            end: TokenId(9),
            cursor: TokenId(6),
            count: 0,
        };
        let line = format!("{} {refusal}", number as u8);
        assert_eq!(lines.next(), Some(&line[..]));
        let names_a_token = line.contains("oken 5");
        assert_eq!(refusal.tokens().is_some(), names_a_token);
    }
    assert_eq!(lines.next(), None);
}
