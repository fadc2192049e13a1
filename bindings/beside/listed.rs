//! Lists beside the original: of random trees `Pmmu::list` gives the ranges that the original's
//! walks find, address by address.

use crate::dump;
use crate::listing;
use crate::lists::Case;
use crate::registers_of;
use pmmu::{Pmmu, Range, Tables};

/// Random trees.
const TREES: u64 = 2000;

#[test]
fn lists_of_random_trees() {
    let (mut ranges, mut refused) = (0, 0);
    for Case { trace, code, list } in (0..TREES).filter_map(Case::of) {
        let (registers, memory) = dump::kept(&trace).expect("a good trace");
        let crossing: Vec<Range> = memory.ranges.iter().map(|&(first, last)| Range { first, last }).collect();
        let tables = Tables { longs: &memory.longs, base: memory.base, ranges: &crossing };
        let mut wanted = listing::lines(&list);
        let got: Vec<String> = match Pmmu::list(&registers_of(&registers), code, tables) {
            Ok(list) => {
                wanted.pop(); // the sum
                list.map(|range| range.to_string()).collect()
            }
            Err(refusal) => vec![format!("R {}", refusal.number())],
        };
        assert_eq!(got, wanted, "code {code}, {registers:X?}");
        ranges += list.as_ref().map_or(0, Vec::len);
        refused += usize::from(list.is_err());
    }
    assert!(ranges > 100_000 && refused > 50, "{ranges} ranges, {refused} refusals");
}
