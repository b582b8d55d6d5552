//! The program `oracle`: cases in, answers out.

use std::io::Write;
use std::process::{Command, Stdio};

fn run(arguments: &[&str], input: &str) -> (String, bool) {
    let mut child = Command::new(env!("CARGO_BIN_EXE_oracle"))
        .args(arguments)
        .stdin(Stdio::piped())
        .stdout(Stdio::piped())
        .stderr(Stdio::null())
        .spawn()
        .unwrap();
    child
        .stdin
        .take()
        .unwrap()
        .write_all(input.as_bytes())
        .unwrap();
    let output = child.wait_with_output().unwrap();
    (
        String::from_utf8(output.stdout).unwrap(),
        output.status.success(),
    )
}

#[test]
fn cases_and_answers() {
    let input = "\
# 1 + 2, as document 01 gives it, then in four slots and from base 100
0 0 0 0 0 0 370e3700 00000000
0 0 0 0 0 0 370e3700 - 4
0 0 100 0 0 0 370e3700 -

# (1, then &i32, then a constant
0 0 0 0 0 0 013700 -
1 0 0 0 0 0 0a3400 000400
2 1 0 3 0 0 23351334173714 -
2 1 0 3 0 0 2335133417371400 0000000700000000
# struct S; and S { m: T } and word16 W { a: u8, }
3 1 0 0 0 0 2e351400 -
3 0 0 0 0 0 35033513350400 -
4 1 0 1 0 48 3035033513341604 -
4 1 0 1 0 48 303503351334160400 000000000000070000000000000000000000
4 1 0 1 0 48 303503351334160400 000000000007000000
4 1 0 1 0 46 303503351334160400 -
# what cannot be asked
0 0 0 0 0 0 - -
0 0 0 0 0 0 373e00 -
0 2 0 0 0 0 3700 -
";
    let answers = "\
ok 4 3 5 : 27 0 27 2 57 0 22 0 21 1
panic slots 3 4 : 27 0 27 2 57 0 22 0
ok 104 3 105 : 27 0 27 2 57 100 22 0 21 1
no 15 2 2 3 1 : 27 1
ok 3 2 4 : 41 4 49 0 51 2 42 0
bad 3 6
ok 5 7 6 : 41 7 27 5 57 0 8 1 1 3 3 0
ok 5 3 6 : 0 0 58 0 7 0 8 1 1 16 4 0
panic unreachable 6 2 : 48 4 9 2
bad 3 7
bad 1 0
ok 8 8 9 : 41 7 9 3 59 3 0 0 58 2 7 2 8 1 1 1 4 0
panic unreachable 1 0 :
bad 1 0
bad 2 1
bad 30 0
";
    assert_eq!(run(&[], input), (answers.to_string(), true));
}

#[test]
fn nesting() {
    let input = "0 0 0 0 0 0 0101370202000 -\n";
    // An odd number of digits is no row.
    assert_eq!(run(&["--nesting"], input), (String::new(), false));
    let input = "0 0 0 0 0 0 010137020200 -\n0 0 0 0 0 0 0100 -\n";
    let answers = "ok 2 5 3 nesting 3 : 27 2 18 0 18 0\nno 21 1 1 2 0 :\n";
    assert_eq!(run(&["--nesting"], input), (answers.to_string(), true));
}

#[test]
fn malformed_cases_stop_it() {
    let good = "0 0 0 0 0 0 3700 -\n";
    let answer = "ok 0 1 1 : 27 0\n";
    for bad in [
        "5 0 0 0 0 0 3700 -",
        "0 0 0 0 0 0 3700",
        "0 0 0 256 0 0 3700 -",
        "x",
    ] {
        let input = format!("{good}{bad}\n{good}");
        assert_eq!(run(&[], &input), (answer.to_string(), false), "{bad}");
    }
}
