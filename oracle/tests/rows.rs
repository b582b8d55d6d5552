//! The rows of document 01 with their replies, as far as the Rust answers them.

use oracle::{
    Buffer, Cause, Entry, Question, Reply, Row, Unaskable, ask_with_comma, dropped_comma,
};

fn row(source: &str) -> Row {
    let (kinds, value_types) = oracle::lex(source);
    Row::new(&kinds, &value_types).unwrap()
}

/// Asks with a fresh wide buffer; no slot outside the appended ones changes.
fn ask(source: &str, question: Question) -> (Reply, Vec<(u8, u32)>) {
    let mut buffer = Buffer::wide();
    let reply = row(source).ask(&question, &mut buffer).unwrap();
    assert!(buffer.base_is_unchanged());
    assert!(buffer.rest_is_unchanged());
    (reply, buffer.appended().collect())
}

fn expression(source: &str) -> (Reply, Vec<(u8, u32)>) {
    ask(source, Question::new(Entry::Expression))
}

fn accepted(root: u32, cursor: u32, count: u32) -> Reply {
    Reply::Accepted {
        root,
        cursor,
        count,
    }
}

fn refused(number: u32, start: u32, end: u32, cursor: u32, count: u32) -> Reply {
    Reply::Refused {
        number,
        start,
        end,
        cursor,
        count,
    }
}

fn panicked(cause: Cause, cursor: u32, count: u32) -> Reply {
    Reply::Panicked {
        cause,
        cursor,
        count,
    }
}

// Rows with their replies.

#[test]
fn no_token_at_all_cannot_be_asked() {
    let unaskable = Row::new(&[], &[]).err();
    assert_eq!(
        unaskable,
        Some(Unaskable {
            number: 1,
            start: 0
        })
    );
}

#[test]
fn a_sum() {
    let (reply, nodes) = expression("1 + 2");
    assert_eq!(reply, accepted(4, 3, 5));
    // The nodes that document 01 prints.
    assert_eq!(nodes, [(27, 0), (27, 2), (57, 0), (22, 0), (21, 1)]);
}

#[test]
fn bitwise_operators_do_not_mix() {
    assert_eq!(expression("a & b | c").0, accepted(12, 3, 13));
}

#[test]
fn a_call_without_arguments() {
    let (reply, nodes) = expression("f()");
    assert_eq!(reply, accepted(3, 3, 4));
    assert_eq!(nodes, [(0, 0), (58, 0), (8, 0), (17, 0)]);
}

#[test]
fn an_array_with_a_trailing_comma() {
    let (reply, nodes) = expression("[1,]");
    assert_eq!(reply, accepted(4, 4, 5));
    assert_eq!(nodes, [(27, 1), (59, 2), (0, 0), (58, 1), (31, 1)]);
}

#[test]
fn types() {
    let (reply, nodes) = ask("&i32", Question::new(Entry::Type));
    assert_eq!(reply, accepted(3, 2, 4));
    assert_eq!(nodes, [(41, 4), (49, 0), (51, 2), (42, 0)]);
    let (reply, nodes) = ask("i32", Question::new(Entry::Type));
    assert_eq!(reply, accepted(0, 1, 1));
    assert_eq!(nodes, [(41, 4)]);
}

#[test]
fn adjacent_strings() {
    let (reply, nodes) = expression("\"s\" \"t\"");
    assert_eq!(reply, accepted(1, 2, 2));
    assert_eq!(nodes, [(51, 2), (30, 0)]);
}

#[test]
fn an_unclosed_parenthesis() {
    assert_eq!(expression("(1"), (refused(15, 2, 2, 3, 1), vec![(27, 1)]));
}

/// Document 01 has 33 here, with start 3 and count 4: the Rust panics there.
#[test]
fn a_sum_in_four_slots() {
    let question = Question {
        slots: Some(4),
        ..Question::new(Entry::Expression)
    };
    let (reply, nodes) = ask("1 + 2", question);
    assert_eq!(reply, panicked(Cause::Slots, 3, 4));
    assert_eq!(nodes, [(27, 0), (27, 2), (57, 0), (22, 0)]);
}

#[test]
fn an_opaque_struct() {
    let question = Question {
        cursor: 1,
        ..Question::new(Entry::Struct)
    };
    let (reply, nodes) = ask("struct S;", question);
    assert_eq!(reply, accepted(5, 3, 6));
    assert_eq!(nodes, [(0, 0), (58, 0), (7, 0), (8, 1), (1, 16), (4, 0)]);
}

/// The Rust panics where no comma follows a member. Document 01 has 25 there,
/// and request 2 an acceptance where it is the closing brace.
#[test]
fn a_member_without_a_comma() {
    let question = Question::new(Entry::Struct);
    for source in ["S { m: T; }", "S { m: T }"] {
        let (reply, nodes) = ask(source, question);
        assert_eq!(reply, panicked(Cause::Unreachable, 6, 2));
        assert_eq!(nodes, [(48, 4), (9, 2)]);
    }
    let semicolon = [53, 3, 53, 19, 53, 20, 4, 0];
    let reply = panicked(Cause::Unreachable, 6, 2);
    assert_eq!(dropped_comma(&semicolon, &question, reply), None);
    let brace = [53, 3, 53, 19, 53, 4, 0];
    assert_eq!(dropped_comma(&brace, &question, reply), Some(5));
    let mut buffer = Buffer::wide();
    let mut ask = |slots| {
        let question = Question { slots, ..question };
        ask_with_comma(&brace, &[0; 7], 5, &question, &mut buffer).expect("a reply")
    };
    assert_eq!(ask(None), accepted(8, 6, 9));
    // No slot for the item, and none for what follows it.
    for slots in 2..9 {
        assert_eq!(ask(Some(slots)), panicked(Cause::Slots, 6, slots));
    }
    assert_eq!(ask(Some(1)), panicked(Cause::Slots, 5, 1));
}

#[test]
fn most_steps() {
    let steps = |n| format!("a{}", ".b".repeat(n));
    let (reply, _) = expression(&steps(127));
    assert_eq!(reply, refused(24, 1, 255, 255, 254));
    let (reply, _) = expression(&steps(126));
    assert_eq!(reply, accepted(256, 253, 257));
    // Even with none following: the 127 steps are refused by themselves.
    let (reply, _) = expression(&format!("{} + 1", steps(127)));
    assert_eq!(reply, refused(24, 1, 255, 255, 254));
}

#[test]
fn most_ampersands() {
    let name = |n| format!("{}a", "&".repeat(n));
    assert_eq!(expression(&name(128)).0, refused(24, 0, 128, 128, 0));
    let (reply, nodes) = expression(&name(127));
    assert_eq!(reply, accepted(4, 128, 5));
    assert_eq!(nodes[3], (34, 127));
    let piped = |n| format!("|{}|", name(n));
    assert_eq!(expression(&piped(127)).0, refused(24, 1, 128, 128, 0));
    let (reply, nodes) = expression(&piped(126));
    assert_eq!(reply, accepted(5, 129, 6));
    assert_eq!(nodes[3], (34, 0));
}

/// More than 40 open expressions are refused (34); the Rust goes on.
#[test]
fn parentheses() {
    oracle::with_large_stack(|| {
        for n in [39, 40, 200, 1_000] {
            let source = format!("{}1{}", "(".repeat(n as usize), ")".repeat(n as usize));
            let mut buffer = Buffer::wide();
            let reply = row(&source).expression(0, &mut buffer);
            assert_eq!(reply, accepted(n, 2 * n + 1, n + 1));
            let nesting = oracle::nesting(Entry::Expression, reply, &buffer);
            assert_eq!(nesting, Some(n + 1));
        }
    });
}

// Readings that tempt.

#[test]
fn a_bitwise_expression_ends_before_a_sum() {
    let (reply, _) = expression("a & b + c");
    assert_eq!(reply, accepted(12, 3, 13));
    let (reply, _) = expression("a + b & c");
    assert_eq!(reply, accepted(20, 5, 21));
    let (reply, _) = expression("1 << 2 << 3");
    assert_eq!(reply, accepted(4, 3, 5));
}

#[test]
fn a_refusal_does_not_roll_the_count_back() {
    // Two items: the first patched, the second not.
    let (reply, nodes) = expression("[1, 2");
    assert_eq!(reply, refused(13, 4, 4, 5, 4));
    assert_eq!(nodes, [(27, 1), (59, 3), (27, 3), (52, 0)]);
}

#[test]
fn a_list_links_to_its_first_item_or_its_end() {
    let (_, nodes) = expression("f(1, 2)");
    assert_eq!(
        nodes,
        [
            (27, 2),
            (59, 3),
            (27, 4),
            (59, 4),
            (0, 0),
            (58, 1),
            (8, 0),
            (17, 0)
        ]
    );
    let (_, nodes) = expression("[]");
    assert_eq!(nodes, [(0, 0), (58, 0), (31, 0)]);
}

#[test]
fn ampersands_between_pipes_are_not_stored() {
    let (reply, nodes) = expression("|&&a|");
    assert_eq!(reply, accepted(5, 5, 6));
    assert_eq!(nodes, [(0, 0), (58, 0), (8, 3), (34, 0), (33, 1), (39, 0)]);
}

// What the entries are given.

#[test]
fn links_begin_at_the_base_and_tokens_at_the_cursor() {
    let question = Question {
        cursor: 2,
        base: 1_000,
        ..Question::new(Entry::Expression)
    };
    let (reply, nodes) = ask("x , [ 1 ] y", question);
    assert_eq!(reply, accepted(1_004, 5, 1_005));
    assert_eq!(nodes, [(27, 3), (59, 1_002), (0, 0), (58, 1_001), (31, 1)]);
}

#[test]
fn a_buffer_can_be_used_again_at_any_base() {
    let mut buffer = Buffer::wide();
    let row = row("1 + 2");
    for base in [0, 5, 3, 131_075, 4, 7] {
        let question = Question {
            base,
            ..Question::new(Entry::Expression)
        };
        let reply = row.ask(&question, &mut buffer).unwrap();
        assert_eq!(reply, accepted(base + 4, 3, base + 5));
        assert!(buffer.base_is_unchanged());
        assert_eq!(buffer.appended().nth(2), Some((57, base)));
    }
}

#[test]
fn declarations_take_flags_and_start() {
    let given = |entry| Question {
        cursor: 2,
        flags: 3,
        start: 1,
        ..Question::new(entry)
    };
    let (reply, nodes) = ask("x const C: u8 = 1;", given(Entry::Constant));
    assert_eq!(reply, accepted(5, 8, 6));
    assert_eq!(nodes, [(41, 7), (27, 6), (57, 0), (8, 2), (1, 3), (3, 1)]);
    let (reply, nodes) = ask("x struct S;", given(Entry::Struct));
    assert_eq!(reply, accepted(5, 4, 6));
    assert_eq!(nodes[4..], [(1, 19), (4, 1)]);
    for (word_kind, size) in [(47, 1), (48, 2), (49, 4), (50, 8), (51, 16)] {
        let question = Question {
            word_kind,
            ..given(Entry::Word)
        };
        let (reply, nodes) = ask("x word8 W { a: u8, }", question);
        assert_eq!(reply, accepted(8, 9, 9));
        assert_eq!(nodes[5], (7, size));
        assert_eq!(nodes[7..], [(1, 3), (4, 1)]);
    }
    let question = Question {
        word_kind: 46,
        ..given(Entry::Word)
    };
    let (reply, nodes) = ask("x word8 W { a: u8, }", question);
    assert_eq!(reply, panicked(Cause::Unreachable, 2, 0));
    assert!(nodes.is_empty());
}

#[test]
fn value_types_are_kept() {
    for value_type in 0..=14u8 {
        let mut buffer = Buffer::wide();
        let keyword = Row::new(&[52, 0], &[value_type, 0]).unwrap();
        assert_eq!(keyword.type_(0, &mut buffer), accepted(0, 1, 1));
        assert_eq!(buffer.node(0), (41, value_type as u32));
        let integer = Row::new(&[57, 0], &[value_type, 0]).unwrap();
        assert_eq!(integer.expression(0, &mut buffer), accepted(1, 1, 2));
        assert_eq!(buffer.node(0), (41, value_type as u32));
        assert_eq!(buffer.node(1), (28, 0));
    }
}

/// Each refusal that the Rust gives, with its place.
#[test]
fn refusals_by_number() {
    let entry = |entry, source: &str| ask(source, Question::new(entry)).0;
    use Entry::*;
    assert_eq!(entry(Constant, "C: u8 1;"), refused(10, 3, 3, 4, 1));
    assert_eq!(entry(Struct, "S = 1"), refused(11, 1, 1, 2, 0));
    assert_eq!(entry(Word, "W;"), refused(11, 1, 1, 2, 0));
    assert_eq!(entry(Expression, "S { a: 1 b"), refused(12, 5, 5, 6, 3));
    assert_eq!(entry(Expression, "[1 2"), refused(13, 2, 2, 3, 2));
    assert_eq!(entry(Type, "[3 u8"), refused(13, 2, 2, 3, 0));
    assert_eq!(entry(Expression, "abort! 1"), refused(14, 1, 1, 2, 0));
    assert_eq!(entry(Type, "(u8]"), refused(15, 2, 2, 3, 1));
    assert_eq!(entry(Expression, "|a"), refused(16, 2, 2, 3, 5));
    assert_eq!(entry(Constant, "C: u8 = 1"), refused(17, 5, 5, 6, 2));
    assert_eq!(entry(Expression, "a.1"), refused(18, 2, 2, 3, 0));
    assert_eq!(entry(Type, "[0x1]u8"), refused(19, 1, 1, 2, 0));
    assert_eq!(entry(Type, "1"), refused(20, 0, 0, 1, 0));
    assert_eq!(entry(Expression, "1 +"), refused(21, 2, 2, 3, 1));
    assert_eq!(entry(Constant, "C = 1;"), refused(22, 1, 1, 1, 0));
    assert_eq!(entry(Struct, "S { a, }"), refused(23, 3, 3, 3, 0));
    // At the end of the row the cursor equals the number of tokens.
    assert_eq!(entry(Expression, ""), refused(21, 0, 0, 1, 0));
    assert_eq!(entry(Type, "&"), refused(20, 1, 1, 2, 0));
}

/// An EndOfSource inside a row is an ordinary wrong token.
#[test]
fn a_zero_kind_inside_a_row() {
    let mut buffer = Buffer::wide();
    let row = Row::new(&[55, 14, 0, 55, 0], &[0; 5]).unwrap();
    assert_eq!(row.expression(0, &mut buffer), refused(21, 2, 2, 3, 1));
}

#[test]
fn what_cannot_be_asked() {
    let unaskable = |number, start| Some(Unaskable { number, start });
    assert_eq!(Row::new(&[0], &[]).err(), unaskable(1, 0));
    assert_eq!(Row::new(&[0; 65_536], &[0; 65_536]).err(), unaskable(1, 0));
    assert_eq!(Row::new(&[55, 62, 0], &[0, 0, 0]).err(), unaskable(2, 1));
    assert_eq!(Row::new(&[55, 62, 0], &[15, 0, 0]).err(), unaskable(2, 0));
    assert_eq!(Row::new(&[55, 14], &[0, 0]).err(), unaskable(3, 1));
    let row = row("S;");
    let mut buffer = Buffer::wide();
    let mut ask = |change: fn(&mut Question)| {
        let mut question = Question::new(Entry::Word);
        change(&mut question);
        row.ask(&question, &mut buffer).err()
    };
    assert_eq!(ask(|q| q.cursor = 3), unaskable(30, 0));
    assert_eq!(ask(|q| q.start = 3), unaskable(30, 0));
    assert_eq!(ask(|q| q.slots = Some(131_076)), unaskable(31, 0));
    assert_eq!(ask(|q| q.base = 131_076), unaskable(32, 0));
    assert_eq!(ask(|q| (q.base, q.slots) = (3, Some(2))), unaskable(32, 0));
    assert_eq!(ask(|q| q.flags = 32), unaskable(35, 0));
    assert_eq!(ask(|q| q.word_kind = 62), unaskable(36, 0));
    assert_eq!(ask(|q| q.word_kind = 51), None);
}

/// The longest rows: the deepest nesting and the most nodes.
#[test]
fn the_longest_rows() {
    oracle::with_large_stack(|| {
        let mut buffer = Buffer::wide();
        // 65,534 opening parentheses.
        let mut kinds = vec![1; 65_534];
        kinds.push(0);
        let row = Row::new(&kinds, &[0; 65_535]).unwrap();
        let reply = row.expression(0, &mut buffer);
        assert_eq!(reply, refused(21, 65_534, 65_534, 65_535, 0));
        // Parentheses that close again.
        let mut kinds = vec![1; 32_766];
        kinds.push(55);
        kinds.extend([2; 32_766]);
        kinds.extend([20, 0]);
        let row = Row::new(&kinds, &[0; 65_535]).unwrap();
        let reply = row.expression(0, &mut buffer);
        assert_eq!(reply, accepted(32_766, 65_533, 32_767));
        // Names joined by plus: five nodes a name, three an operator.
        let mut kinds = [53, 14].repeat(32_767);
        kinds.push(0);
        let row = Row::new(&kinds, &[0; 65_535]).unwrap();
        let question = Question {
            base: 131_075,
            ..Question::new(Entry::Expression)
        };
        let reply = row.ask(&question, &mut buffer).unwrap();
        let nodes = 131_075 + 5 * 32_767 + 3 * 32_766;
        assert_eq!(reply, refused(21, 65_534, 65_534, 65_535, nodes));
    });
}

/// Nesting as document 01 counts it, read back from accepted nodes.
#[test]
fn nesting_of_accepted_parses() {
    let nesting = |entry, source: &str| {
        let mut buffer = Buffer::wide();
        let reply = row(source).ask(&Question::new(entry), &mut buffer).unwrap();
        oracle::nesting(entry, reply, &buffer)
    };
    use Entry::*;
    assert_eq!(nesting(Expression, "1 + 2 * 3"), Some(1));
    assert_eq!(nesting(Expression, "(1) + [2, 3]"), Some(2));
    assert_eq!(nesting(Expression, "f(1, (2), 3)"), Some(3));
    assert_eq!(nesting(Expression, "S { a, b: 1 }"), Some(2));
    assert_eq!(nesting(Expression, "S { a }"), Some(1));
    assert_eq!(nesting(Expression, "a[1].b[c[2]]"), Some(3));
    assert_eq!(nesting(Expression, "&a .. 1"), Some(2));
    assert_eq!(nesting(Expression, "|a[1]|"), Some(2));
    assert_eq!(nesting(Expression, "|:[]&u8|"), Some(4));
    assert_eq!(nesting(Expression, "1 as u8 as &T"), Some(3));
    assert_eq!(nesting(Expression, "cast !(1)"), Some(2));
    assert_eq!(nesting(Expression, "("), None);
    assert_eq!(nesting(Type, "u8"), Some(1));
    assert_eq!(nesting(Type, "&[3](T)"), Some(4));
    assert_eq!(nesting(Constant, "C: &u8 = 1;"), Some(2));
    assert_eq!(nesting(Constant, "C: u8 = (1);"), Some(2));
    assert_eq!(nesting(Struct, "S;"), Some(0));
    assert_eq!(nesting(Struct, "S { a: u8, b: &u8, }"), Some(2));
    assert_eq!(nesting(Word, "W { a: u8, }"), Some(1));
}
