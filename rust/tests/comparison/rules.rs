//! Which rules are followed (rule 14.1).

/// The library, the crate and the plain implementation name the same rules.
#[test]
fn all_follow_the_same_rules() {
    assert_eq!(cavzemil::calls::rules(), cavzemil::RULES, "the library's number and the crate's");
    assert_eq!(cavzemil_plain::RULES, cavzemil::RULES, "the plain implementation's number and the crate's");
}

/// The crate's own function answers the library's number too.
#[test]
fn the_crate_tells_the_number_of_the_library() {
    assert_eq!(cavzemil::rules(), cavzemil::calls::rules());
}
