//! What is written reads back as it is, and is written the same again.

use crate::generate::case;
use crate::operations::run;
use crate::patch::shape;
use crate::reader::read;
use crate::value::equal;
use crate::writer::write;

#[test]
fn written_text_reads_back_equal_and_writes_the_same() {
    let mut written = 0;
    for index in 0..3_000 {
        let case = case(11, index);
        let answer = crate::apply(&case.document, &case.patch, usize::MAX);
        if answer.number != 0 {
            continue;
        }
        written += 1;
        let document = read(&case.document).expect("accepted");
        let operations = shape(&read(&case.patch).expect("accepted")).expect("well formed");
        let result = run(document, &operations).expect("done");
        let again = read(&answer.written).expect("written text is valid");
        assert!(equal(&result, &again), "{}", case.name);
        assert!(equal(&again, &result), "{}", case.name);
        assert_eq!(write(&again), answer.written, "{}", case.name);
        assert!(result.depth() <= 32 && result.nodes() <= 2_048, "{}", case.name);
    }
    assert!(written > 500, "only {written} were written");
}

#[test]
fn an_empty_patch_writes_the_document_once_and_for_all() {
    for index in 0..1_000 {
        let case = case(12, index);
        let once = crate::apply(&case.document, b"[]", usize::MAX);
        if once.number == 0 && once.written.len() <= 32_768 {
            let twice = crate::apply(&once.written, b" [ ] ", usize::MAX);
            assert_eq!(once, twice, "{}", case.name);
        }
    }
}

#[test]
fn every_operation_list_answers_the_same_twice() {
    for index in 0..300 {
        let case = case(13, index);
        let first = crate::apply(&case.document, &case.patch, case.room);
        let second = crate::apply(&case.document, &case.patch, case.room);
        assert_eq!(first, second, "{}", case.name);
        if first.number != 0 {
            assert!(first.written.is_empty(), "{}", case.name);
        }
    }
}
