//! Compares the numbers of results and verdicts in the sources of this crate with the headers.

/// The number of a name in an enum of a header.
fn number_of(name: &str, header: &str) -> Option<u32> {
    let line = header.lines().find_map(|line| line.trim().strip_prefix(name)?.strip_prefix(" = "));
    line?.split([',', ' ']).next()?.parse().ok()
}

/// `OutOfMemory` as a header writes it: `MC2_OUT_OF_MEMORY`.
fn name_of(variant: &str) -> String {
    variant.chars().fold("MC2".to_string(), |name, it| {
        if it.is_uppercase() { format!("{name}_{it}") } else { format!("{name}{}", it.to_ascii_uppercase()) }
    })
}

#[test]
fn results_are_the_numbers_of_mc2_result_h() {
    let constants = include_str!("../src/ffi.rs").lines().filter_map(|line| {
        line.trim_start_matches("pub ").strip_prefix("const ")?.trim_end_matches(';').split_once(": u32 = ")
    });
    let header = include_str!("../../../include/mc2_result.h");
    let same = constants.inspect(|(name, number)| {
        assert_eq!(number_of(&format!("MC2_{name}"), header), number.parse().ok(), "{name}");
    });
    assert_eq!(same.count(), 11);
}

#[test]
fn verdicts_are_the_numbers_of_mc2_judge_h() {
    let faults = include_str!("../src/judge.rs").lines().filter_map(|line| {
        let (number, rest) = line.trim().split_once(' ')?;
        let name = rest.split_once(' ')?.0;
        Some((number.parse::<u32>().ok()?, name)).filter(|_| name.starts_with(char::is_uppercase))
    });
    let header = include_str!("../../../include/mc2_judge.h");
    let same = faults.inspect(|(number, name)| assert_eq!(number_of(&name_of(name), header), Some(*number), "{name}"));
    assert_eq!(same.count(), 10);
}
