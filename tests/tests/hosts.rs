//! What becomes of a host that breaks a rule of docs/HOSTS.md, through the C calls: tests/c/rules.c has a run for each rule.

use sigma_tests::archive::{printed, Language};
use std::path::Path;

#[test]
fn a_broken_rule_ends_as_its_run_says() {
    for language in [Language::C, Language::Cpp] {
        assert_eq!(printed(language, "rules.c", Path::new(env!("CARGO_TARGET_TMPDIR"))), "rules ok\n");
    }
}
