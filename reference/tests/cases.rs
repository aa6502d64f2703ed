//! The generated cases get the numbers that their faults ask for.

use reference::cases::cases;
use reference::file::check;

#[test]
fn cases_are_as_expected() {
    let mut met = [0; 16];
    for case in (1..=2).flat_map(cases) {
        assert_eq!(check(&case.bytes), case.number, "{}", case.name);
        met[case.number as usize] += 1;
    }
    for number in [0, 1, 2, 3, 9, 10, 11, 13, 14, 15] {
        assert!(met[number] > 20, "{number}: {met:?}");
    }
}
