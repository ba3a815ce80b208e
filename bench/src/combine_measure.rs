//! The measurement of combinations: each family through every version in one run, and the table of the results.

use std::hint::black_box;

use crate::combinations::{Combination, Input, COMBINATIONS};
use crate::fahkelo::CombineAnswer;
use crate::measure::{time_columns, version_times};
use crate::product::product;
use crate::versions::{Version, VERSIONS};

/// The bytes that do for every result.
pub const OUTPUT_MOST: usize = 25114;

/// One combination by one version.
#[inline(never)]
pub fn combine_once(version: &dyn Version, input: &Input, output: &mut [u8]) -> CombineAnswer {
    version.combine(&input.rule, &input.letters, &input.property, output)
}

/// All versions must write the file of the reference.
fn assert_agreed(family: &Combination, input: &Input) {
    let model = product(&input.rule, &input.letters, &input.property).expect("it is not refused");
    assert_eq!(model.edges(), family.edges(), "{}", family.name);
    let file = model.to_bytes();
    for version in VERSIONS {
        let mut output = [0xa5; OUTPUT_MOST];
        let answer = combine_once(version, input, &mut output);
        let rest = &output[file.len()..];
        assert!(
            answer == CombineAnswer::Written(file.len())
                && output[..file.len()] == file
                && rest.iter().all(|&byte| byte == 0xa5),
            "{}: the {} version differs",
            family.name,
            version.name()
        );
    }
}

/// Measures the families whose names hold a word, and prints the table.
pub fn run(word: &str) {
    println!("combine, microseconds of processor time\n");
    println!("| family | N × Q | edges | mask tests a pass | blocks | proved | safe | paired | unchecked | proved/safe | proved/paired | proved/unchecked |");
    println!("|---|---|---|---|---|---|---|---|---|---|---|---|");
    for family in COMBINATIONS.iter().filter(|f| f.name.contains(word)) {
        let input = family.make();
        assert_agreed(family, &input);
        let times = version_times([[0; OUTPUT_MOST]; 4], |version, output| {
            black_box(combine_once(version, black_box(&input), output));
        });
        println!(
            "| {} | {} × {} | {} | {} | {} | {} |",
            family.name,
            family.rule_states,
            family.property_states,
            family.edges(),
            family.mask_tests(),
            family.blocks(),
            time_columns(times)
        );
    }
}
