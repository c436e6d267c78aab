//! The example in examples/rust: its sums by near and far are those over all pairs, but for what it allows.

#[path = "../../examples/rust/near_and_far.rs"]
mod near_and_far;

#[test]
fn sums_by_near_and_far() {
    let found = near_and_far::job().unwrap();
    assert!(found.error > 0.0 && found.error < 0.01, "{}", found.error);
    let pairs = 1200 * 1199;
    assert!(
        found.leaves > 100 && found.terms < pairs / 3,
        "{} leaves, {} terms",
        found.leaves,
        found.terms
    );
}
