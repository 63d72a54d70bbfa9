//! The example draws what is stored beside it.

#[allow(dead_code)]
#[path = "../examples/wrap.rs"]
mod wrap;

#[test]
fn the_boxes() {
    assert_eq!(wrap::drawn(), include_str!("../examples/wrap.stdout"));
}
