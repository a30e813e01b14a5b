//! For the tests: whether overflow checks are on in this build.

/// Where the environment says what they have to be, CHECKED=true or false, as the gate does, a build of the other kind fails.
pub fn checked() -> bool {
    use std::hint::black_box;
    let checked = std::panic::catch_unwind(|| black_box(0u16) - black_box(1u16)).is_err();
    if let Ok(wanted) = std::env::var("CHECKED") {
        assert_eq!(checked.to_string(), wanted, "overflow checks");
    }
    checked
}
