//! Answers cases from standard input, one a line, on standard output, one a
//! line; README.md describes both forms.

use std::io::{self, BufRead, Write};

use oracle::{Buffer, Entry, Question, Reply, Row, Unaskable, hexadecimal};

fn main() {
    let mut with_nesting = false;
    for argument in std::env::args().skip(1) {
        match argument.as_str() {
            "--nesting" => with_nesting = true,
            _ => {
                eprintln!("usage: oracle [--nesting] < cases");
                std::process::exit(2);
            }
        }
    }
    if let Err(error) = oracle::with_large_stack(|| answer_all(with_nesting)) {
        eprintln!("oracle: {error}");
        std::process::exit(1);
    }
}

fn answer_all(with_nesting: bool) -> io::Result<()> {
    let mut input = io::BufReader::with_capacity(1 << 16, io::stdin().lock());
    let mut output = io::BufWriter::with_capacity(1 << 16, io::stdout().lock());
    let mut buffer = Buffer::wide();
    let mut line = String::new();
    for line_number in 1u64.. {
        line.clear();
        if input.read_line(&mut line)? == 0 {
            break;
        }
        let case = line.trim();
        if case.is_empty() || case.starts_with('#') {
            continue;
        }
        let Some((question, kinds, value_types)) = read_case(case) else {
            output.flush()?;
            return Err(io::Error::other(format!("line {line_number} is malformed")));
        };
        let reply = Row::new(&kinds, &value_types).and_then(|row| row.ask(&question, &mut buffer));
        write_reply(&mut output, &question, reply, &buffer, with_nesting)?;
        // An asker that waits for each answer must not wait for ever.
        if input.buffer().is_empty() {
            output.flush()?;
        }
    }
    output.flush()
}

fn read_case(case: &str) -> Option<(Question, Vec<u8>, Vec<u8>)> {
    let mut fields = case.split_ascii_whitespace();
    let entry = *Entry::ALL.get(fields.next()?.parse::<usize>().ok()?)?;
    let cursor = fields.next()?.parse().ok()?;
    let base = fields.next()?.parse().ok()?;
    let flags = fields.next()?.parse().ok()?;
    let start = fields.next()?.parse().ok()?;
    let word_kind = fields.next()?.parse().ok()?;
    let kinds = hexadecimal::read(fields.next()?)?;
    let value_types = hexadecimal::read_types(fields.next()?, &kinds)?;
    let slots = match fields.next() {
        Some(slots) => Some(slots.parse().ok()?),
        None => None,
    };
    if fields.next().is_some() {
        return None;
    }
    let question = Question {
        entry,
        cursor,
        base,
        slots,
        flags,
        start,
        word_kind,
    };
    Some((question, kinds, value_types))
}

fn write_reply(
    output: &mut impl Write,
    question: &Question,
    reply: Result<Reply, Unaskable>,
    buffer: &Buffer,
    with_nesting: bool,
) -> io::Result<()> {
    let reply = match reply {
        Ok(reply) => reply,
        Err(Unaskable { number, start }) => return writeln!(output, "bad {number} {start}"),
    };
    // The Rust never touches an earlier node. If it did, no answer would be
    // worth reading on.
    assert!(
        buffer.base_is_unchanged(),
        "a node below the base has changed"
    );
    write!(output, "{reply}")?;
    if with_nesting && matches!(reply, Reply::Accepted { .. }) {
        let nesting = oracle::nesting(question.entry, reply, buffer).expect("accepted");
        write!(output, " nesting {nesting}")?;
    }
    write!(output, " :")?;
    for (kind, load) in buffer.appended() {
        write!(output, " {kind} {load}")?;
    }
    writeln!(output)
}
