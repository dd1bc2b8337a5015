//! Appendix A of RFC 6902: results by equality, since the RFC gives the order of
//! members no meaning.

use crate::reader::read;
use crate::value::equal;
use crate::vectors::appendix::EXAMPLES;

#[test]
fn results_are_equal_to_those_printed() {
    assert_eq!(EXAMPLES.len(), 16);
    for example in EXAMPLES {
        let answer = crate::apply(example.document.as_bytes(), example.patch.as_bytes(), 65_536);
        match example.result {
            None => assert_ne!(answer.number, 0, "{}", example.name),
            Some(result) => {
                assert_eq!(answer.number, 0, "{}", example.name);
                let printed = read(result.as_bytes()).expect("the RFC prints JSON");
                let written = read(&answer.written).expect("the engine writes JSON");
                assert!(equal(&printed, &written), "{}", example.name);
            }
        }
    }
}
