//! Many seeded cases, each of which can be run again by itself.

use crate::random::Random;
use std::{env, fs};

/// Prints how to run a case again when it fails.
struct Running<'a> {
    name: &'a str,
    seed: u64,
}

impl Drop for Running<'_> {
    fn drop(&mut self) {
        if std::thread::panicking() {
            eprintln!("{0}: failed with seed {1}; run it alone with ISOLATED_SEED={0}:{1}", self.name, self.seed);
        }
    }
}

/// The names that the tests beside this crate hand to `cases`. They are read from the sources, so that no list of them
/// can go stale.
fn names() -> Vec<String> {
    let folder = fs::read_dir(concat!(env!("CARGO_MANIFEST_DIR"), "/tests")).expect("the tests are there");
    let mut names = Vec::new();
    for file in folder {
        let source = fs::read_to_string(file.expect("the tests are there").path()).expect("a test is text");
        let calls = source.split("cases(\"").skip(1);
        names.extend(calls.filter_map(|call| call.split_once('"')).map(|(name, _)| name.to_string()));
    }
    names
}

/// The name and the seed of NAME:SEED. What names no case is a fault: else nothing would run, and nothing would fail.
fn name_and_seed(value: &str, names: &[String]) -> Result<(String, u64), String> {
    let form = "it is NAME:SEED, a test and a number";
    let (name, digits) = value.split_once(':').ok_or(form)?;
    let seed: u64 = digits.parse().map_err(|_| form)?;
    if seed.to_string() != digits {
        return Err(form.to_string());
    }
    if !names.iter().any(|known| known == name) {
        return Err(format!("no test has cases of the name {name}; these have: {}", names.join(" ")));
    }
    Ok((name.to_string(), seed))
}

/// The one case that ISOLATED_SEED=NAME:SEED names; panics where it names none.
fn asked() -> Option<(String, u64)> {
    let value = env::var_os("ISOLATED_SEED")?;
    let value = value.to_string_lossy();
    Some(name_and_seed(&value, &names()).unwrap_or_else(|fault| panic!("ISOLATED_SEED={value}: {fault}")))
}

/// Is one case run alone? Then nothing can be said of how often something happens.
pub fn alone() -> bool {
    asked().is_some()
}

/// Runs a case for each seed from 0 on, or for the one seed that is asked for; then it says so on standard output. A
/// panic prints the seed; the case itself prints its graph. The name is that of the test, and written out in the call.
pub fn cases(name: &str, count: u64, mut case: impl FnMut(&mut Random)) {
    assert!(count > 0, "{name} has no case");
    assert!(names().iter().any(|known| known == name), "{name} is not written out in the call of a test");
    let salt = name.bytes().fold(0u64, |sum, byte| sum.wrapping_mul(31).wrapping_add(byte.into()));
    let mut run = |seed: u64| {
        let _running = Running { name, seed };
        case(&mut Random::new(salt ^ seed));
    };
    match asked() {
        None => (0..count).for_each(run),
        Some((its, seed)) if its == name => {
            run(seed);
            println!("ran {name}:{seed}");
        }
        Some(_) => {}
    }
}

#[cfg(test)]
mod tests {
    use super::*;

    #[test]
    fn a_seed_names_a_case() {
        let names = ["first".to_string(), "second".to_string()];
        assert_eq!(name_and_seed("second:7", &names), Ok(("second".to_string(), 7)));
        assert_eq!(name_and_seed("first:18446744073709551615", &names), Ok(("first".to_string(), u64::MAX)));
        for wrong in ["", ":", "first", "first:", ":7", "first:x", "first:07", "first:+7", "first:-7", "first:7:8"] {
            assert!(name_and_seed(wrong, &names).is_err(), "{wrong}");
        }
        for unknown in ["third:7", "firs:7", "First:7", " first:7", "first:18446744073709551616"] {
            assert!(name_and_seed(unknown, &names).is_err(), "{unknown}");
        }
    }

    #[test]
    fn the_names_are_those_of_the_tests() {
        let names = names();
        assert!(names.len() > 10, "{names:?}");
        for name in &names {
            assert_eq!(names.iter().filter(|other| *other == name).count(), 1, "{name} names two tests");
        }
    }

    #[test]
    #[should_panic(expected = "has no case")]
    fn no_case_is_a_fault() {
        cases("sound_texts", 0, |_| {});
    }

    #[test]
    #[should_panic(expected = "is not written out")]
    fn a_name_of_no_test_is_a_fault() {
        cases("nobody", 1, |_| {});
    }
}
