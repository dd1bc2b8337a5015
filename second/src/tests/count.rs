//! The count over patch files.

use crate::count::{inspect, report, Inspection, Tally};
use crate::generate;
use crate::limits::MOST_NAMES;

#[test]
fn what_a_patch_comes_to() {
    let patch = br#"[{"op":"add","path":"","value":1},{"op":"move","from":"/a","path":"/b"},
        {"op":"add","path":"/c","value":null}]"#;
    assert_eq!(inspect(patch), Inspection::Counts([2, 0, 0, 1, 0, 0]));
    assert_eq!(inspect(patch).to_string(), "add 2 remove 0 replace 0 move 1 copy 0 test 0 ops 3");
    assert_eq!(inspect(b"[]"), Inspection::Counts([0; 6]));
    assert_eq!(inspect(&[b' '; 32_769]), Inspection::Refused(2, 2, 0, 0));
    assert_eq!(inspect(b"[1,]"), Inspection::Refused(3, 2, 0, 3));
    assert_eq!(inspect(b"{}"), Inspection::Refused(8, 0, 0, 0));
    assert_eq!(inspect(b"[1]"), Inspection::Refused(8, 0, 1, 0));
    assert_eq!(inspect(br#"[{"op":"remove","path":"a"}]"#), Inspection::Refused(10, 0, 1, 0));
}

#[test]
fn no_names_and_too_many() {
    let zeros = "patches 0 refused 0 add 0 remove 0 replace 0 move 0 copy 0 test 0 ops 0 over 0\n";
    assert_eq!(report(b""), zeros);
    assert_eq!(report(b"\n\n"), zeros);
    assert_eq!(report(&b"\0\n".repeat(MOST_NAMES + 1)), "too long\n");
    let all = report(&b"\0\n\n".repeat(MOST_NAMES));
    assert!(all.starts_with("patches 1000000 refused 1000000 add 0 "), "{all}");
    assert!(all.ends_with(" ops 0 over 0\n"), "{all}");
}

/// Two lists joined give the sums, and another order the same line.
#[test]
fn sums_in_any_order() {
    let one = |index| match inspect(&generate::case(12, index).patch) {
        Inspection::Counts(counts) => Tally { patches: 1, refused: 0, counts },
        Inspection::Refused(..) => Tally { patches: 1, refused: 1, counts: [0; 6] },
    };
    let sum = |indices: &mut dyn Iterator<Item = u64>| {
        let mut tally = Tally::default();
        for index in indices {
            tally += one(index);
        }
        tally
    };
    let (mut first, second) = (sum(&mut (0..300)), sum(&mut (300..500)));
    first += second;
    assert_eq!(first, sum(&mut (0..500).rev()));
    assert!(first.refused > 0 && first.counts.iter().all(|&count| count > 0), "{first}");
}
