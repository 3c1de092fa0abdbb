//! The library's number, as its header has it: written there alone.

const HEADER: &str = include_str!("../../include/velgrodis.h");
const MACRO: &str = "#define VG_VERSION UINT64_C(";

pub fn number() -> u64 {
    let line = HEADER.lines().find_map(|line| line.strip_prefix(MACRO));
    let digits = line.and_then(|rest| rest.strip_suffix(')'));
    digits.and_then(|digits| digits.parse().ok()).expect("the header defines VG_VERSION")
}
