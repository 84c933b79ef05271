//! The example of a desk that was away runs.

#[path = "../examples/away.rs"]
mod away;

#[test]
fn a_desk_catches_up() -> Result<(), cuwelfra::Refusal> {
    away::main()
}
