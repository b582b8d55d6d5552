//! The examples run.

#[path = "../examples/declarations.rs"]
mod declarations;
#[path = "../examples/refusal.rs"]
mod refusal;
#[path = "../examples/slices.rs"]
mod slices;

#[test]
fn the_examples_run() {
    declarations::main().expect("both declarations are accepted");
    refusal::main();
    slices::main().expect("a sum is accepted");
}
