//! An entry allocates nothing, the library needs nothing from outside, and the stack is bounded.

use std::alloc::{GlobalAlloc, Layout, System};
use std::cell::Cell;
use std::process::Command;

#[path = "../../tools/bencher/src/stack.rs"]
mod stack;

use penne_parser::{
    BaseToken, DeclarationFlags, Nodes, Parsed, Refusal, RefusalNumber, Row, TokenId, Tokens,
    parse_constant_declaration, parse_expression, parse_struct_declaration, parse_type,
    parse_word_declaration,
};

/// The system's allocator, which counts how often each thread asks it.
struct Counting;

thread_local! {
    static ASKED: Cell<u64> = const { Cell::new(0) };
}

fn count() {
    ASKED.with(|asked| asked.set(asked.get() + 1));
}

// Safety: all is passed on to the system's allocator.
unsafe impl GlobalAlloc for Counting {
    unsafe fn alloc(&self, layout: Layout) -> *mut u8 {
        count();
        unsafe { System.alloc(layout) }
    }

    unsafe fn dealloc(&self, memory: *mut u8, layout: Layout) {
        count();
        unsafe { System.dealloc(memory, layout) }
    }

    unsafe fn realloc(&self, memory: *mut u8, layout: Layout, size: usize) -> *mut u8 {
        count();
        unsafe { System.realloc(memory, layout, size) }
    }
}

#[global_allocator]
static ALLOCATOR: Counting = Counting;

/// Asks all five entries from the start of a row.
fn ask_all(row: Row<'_>, nodes: &mut Nodes) -> [Result<Parsed, Refusal>; 5] {
    let (start, flags, word) = (TokenId(0), DeclarationFlags::EMPTY, BaseToken::Word8);
    nodes.clear();
    [
        parse_expression(row, start, &mut *nodes),
        parse_type(row, start, &mut *nodes),
        parse_constant_declaration(row, start, &mut *nodes, start, flags),
        parse_struct_declaration(row, start, &mut *nodes, start, flags),
        parse_word_declaration(row, start, &mut *nodes, start, flags, word),
    ]
}

#[test]
fn an_entry_allocates_nothing() {
    let long = [&[53, 14].repeat(9_000)[..], &[53, 0]].concat();
    let rows: [&[u8]; 8] = [
        &[55, 14, 55, 0],
        &[10, 5, 55, 6, 52, 0],
        &[53, 19, 52, 23, 53, 1, 53, 22, 60, 60, 2, 20, 0],
        &[53, 3, 53, 19, 52, 22, 53, 19, 10, 53, 22, 4, 0],
        &[53, 20, 0],
        &[1, 5, 53, 3, 0],
        &[99],
        &long,
    ];
    let types = vec![4; long.len()];
    let nodes = &mut Nodes::with_slots(100_000);
    let mut accepted = [0; 5];
    ASKED.with(|asked| asked.set(0));
    for kinds in rows {
        let replies = ask_all(Row::new(kinds, &types[..kinds.len()]), nodes);
        for (entry, reply) in replies.into_iter().enumerate() {
            accepted[entry] += u32::from(reply.is_ok());
        }
    }
    assert_eq!(ASKED.with(Cell::get), 0);
    assert!(accepted.iter().all(|&times| times > 0), "{accepted:?}");
    // The counter counts.
    drop(std::hint::black_box(Box::new(1)));
    assert_eq!(ASKED.with(Cell::get), 2);
}

/// The symbols of a library that `nm` prints with this option.
fn symbols(library: &str, option: &str) -> String {
    let command = Command::new("nm").args([option, library]).output();
    let output = command.expect("nm is there");
    assert!(output.status.success());
    String::from_utf8(output.stdout).expect("names of symbols")
}

/// What a library would call from outside, an allocator for one, would be an undefined symbol. Nor
/// does it have memory of its own that it could write. Gives the functions that it has.
fn functions(library: &str) -> String {
    let undefined = symbols(library, "--undefined-only");
    assert!(!undefined.contains(" U "), "{undefined}");
    let defined = symbols(library, "--defined-only");
    let writable = |line: &&str| {
        [" b ", " B ", " d ", " D ", " C "]
            .iter()
            .any(|kind| line.contains(kind))
    };
    assert_eq!(defined.lines().find(writable), None);
    defined
}

#[test]
fn the_library_needs_nothing_from_outside() {
    let defined = functions(env!("PENNE_C_LIB"));
    assert_eq!(defined.matches(" T penne_parse_").count(), 5);
    assert_eq!(defined.matches(" T penne_part\n").count(), 1);
}

#[cfg(feature = "words")]
#[test]
fn the_library_of_words_needs_nothing_from_outside() {
    let defined = functions(env!("PENNE_WORDS_C_LIB"));
    assert_eq!(defined.matches(" T penne_words_parse_").count(), 5);
    assert_eq!(defined.matches(" T penne_pack\n").count(), 1);
    assert_eq!(defined.matches(" T penne_unpack_").count(), 2);
}

/// A row of these kinds, of which the second ones stand there 300 times.
fn deep_row(first: &[u8], level: &[u8]) -> Tokens {
    let kinds = [first, &level.repeat(300)].concat().into_iter();
    kinds
        .map(|kind| BaseToken::from_repr(kind).expect("a kind"))
        .collect()
}

/// The stack of a call that is refused since too much is open.
fn stack_of(mut ask: impl FnMut() -> Result<Parsed, Refusal>) -> usize {
    stack::used(|| {
        let number = ask().map_err(|refusal| refusal.number);
        assert_eq!(number, Err(RefusalNumber::NestingExceeded));
    })
}

/// The stack of a deep row that is read by the entry with columns, as an expression and as the value
/// of a constant.
fn stack_of_level(level: &[u8]) -> usize {
    let (start, flags) = (TokenId(0), DeclarationFlags::EMPTY);
    let nodes = &mut Nodes::with_slots(20_000);
    let tokens = deep_row(&[], level);
    let expression = stack_of(|| parse_expression(tokens.row(), start, &mut *nodes));
    // A name, a colon, a type and `=`.
    let tokens = deep_row(&[53, 19, 52, 23], level);
    let constant =
        stack_of(|| parse_constant_declaration(tokens.row(), start, &mut *nodes, start, flags));
    expression.max(constant)
}

/// The same of the entries with words.
#[cfg(feature = "words")]
fn stack_of_words(level: &[u8]) -> usize {
    use penne_parser::words;
    let (start, flags) = (TokenId(0), DeclarationFlags::EMPTY);
    let nodes = &mut words::WordNodes::with_slots(20_000);
    let tokens = deep_row(&[], level);
    let expression = stack_of(|| words::parse_expression(tokens.row(), start, &mut *nodes));
    let tokens = deep_row(&[53, 19, 52, 23], level);
    let constant = stack_of(|| {
        words::parse_constant_declaration(tokens.row(), start, &mut *nodes, start, flags)
    });
    expression.max(constant)
}

#[cfg(not(feature = "words"))]
fn stack_of_words(_: &[u8]) -> usize {
    0
}

/// The deepest rows fit in the stack that the documentation names: tokens that open a level, and
/// what stands inside all of them.
#[test]
fn the_stack_is_bounded() {
    const BOUND: usize = 16 * 1024;
    let levels: [&[u8]; 7] = [
        &[1],
        &[5],
        &[53, 1],
        &[53, 3, 53, 19],
        &[53, 5],
        &[10, 53, 32],
        &[55, 14, 55, 16, 41, 15, 1],
    ];
    let tokens = deep_row(&[], &[10]);
    let nodes = &mut Nodes::with_slots(20_000);
    let mut most = stack_of(|| parse_type(tokens.row(), TokenId(0), &mut *nodes));
    for level in levels {
        most = most.max(stack_of_level(level)).max(stack_of_words(level));
    }
    assert!(most < BOUND, "{most}");
    // The measure measures.
    assert!(most > 9_000, "{most}");
    for (file, words) in [
        ("src/lib.rs", "it is less than 16\n//! KiB"),
        ("README.md", "less than 16 KiB"),
        ("../include/penne.h", "less than 16 KiB of stack"),
        ("../docs/MANUAL.md", "less than 16 KiB"),
        ("../docs/PERFORMANCE.md", "less than 16 KiB"),
    ] {
        let path = std::path::Path::new(env!("CARGO_MANIFEST_DIR")).join(file);
        let text = std::fs::read_to_string(path).expect(file);
        assert!(text.contains(words), "{file}");
    }
}
