//! Makers' patches in a region.

use json_patch::{apply, apply_within, Kind, Refusal, Work};

const DOCUMENT: &[u8] = br#"{"packs":{"acme":{"mAh":3000},"other":{"mAh":1}}}"#;
const REGION: &[u8] = b"/packs/acme";

fn within(patch: &[u8], region: &[u8]) -> Result<Vec<u8>, Refusal> {
    let mut output = vec![0; 256];
    let length = apply_within(DOCUMENT, patch, region, &mut output, &mut Work::new())?;
    output.truncate(length);
    Ok(output)
}

fn refusal(patch: &[u8], region: &[u8]) -> (Option<Kind>, u32, usize) {
    let refusal = within(patch, region).unwrap_err();
    (refusal.kind(), refusal.text, refusal.op)
}

#[test]
fn what_passes_gives_the_plain_answer() {
    let patch = br#"[{"op":"test","path":"/packs/acme/mAh","value":3e3},
                     {"op":"add","path":"/packs/acme/mV","value":4200}]"#;
    let mut output = vec![0; 256];
    let length = apply(DOCUMENT, patch, &mut output, &mut Work::new()).unwrap();
    assert_eq!(within(patch, REGION).unwrap(), &output[..length]);
    let patch = br#"[{"op":"test","path":"/packs/acme/mAh","value":1}]"#;
    assert_eq!(
        within(patch, REGION).unwrap_err(),
        apply(DOCUMENT, patch, &mut output, &mut Work::new()).unwrap_err()
    );
}

#[test]
fn the_rule_of_a_region() {
    let broken = |op| (Some(Kind::NotPermitted), 0, op);
    assert_eq!(refusal(b"[]", REGION), broken(0));
    let test = r#"{"op":"test","path":"/packs/acme/mAh","value":3000}"#;
    let one = |element: &str| format!("[{element}]").into_bytes();
    let two = |element: &str| format!("[{test},{element}]").into_bytes();
    let add = r#"{"op":"add","path":"/packs/acme/mV","value":1}"#;
    assert_eq!(refusal(&one(add), REGION), broken(1));
    assert!(within(&two(add), REGION).is_ok());
    for element in [
        r#"{"op":"remove","path":"/packs/acme/mAh"}"#,
        r#"{"op":"copy","from":"/packs/acme/mAh","path":"/packs/acme/mV"}"#,
        r#"{"op":"move","from":"/packs/acme/mAh","path":"/packs/acme/mV"}"#,
        r#"{"op":"replace","path":"/packs/acme","value":1}"#,
        r#"{"op":"replace","path":"/packs/other/mAh","value":1}"#,
        r#"{"op":"add","path":"/packs/acme2","value":1}"#,
    ] {
        assert_eq!(refusal(&two(element), REGION), broken(2), "{element}");
    }
    let into = r#"{"op":"move","from":"/packs/acme","path":"/packs/acme/mAh"}"#;
    assert_eq!(refusal(&two(into), REGION), (Some(Kind::MoveIntoChild), 0, 2));
}

#[test]
fn a_region_that_is_none() {
    let patch = br#"[{"op":"test","path":"/packs/acme/mAh","value":3000}]"#;
    assert!(within(patch, b"").is_ok());
    assert_eq!(refusal(patch, b"packs"), (Some(Kind::MalformedPointer), 0, 0));
    assert_eq!(refusal(patch, b"/\xff"), (Some(Kind::MalformedPointer), 0, 0));
    assert_eq!(refusal(b"[", b"packs"), (Some(Kind::NotJson), 2, 0));
    assert_eq!(refusal(patch, &[b'/'; 32_769]), (Some(Kind::InputTooLong), 0, 0));
    assert_eq!(refusal(patch, &[b'/'; 32_768]), (Some(Kind::NotPermitted), 0, 1));
}

#[test]
fn in_words() {
    let patch = br#"[{"op":"test","path":"/packs/other/mAh","value":1}]"#;
    let words = |patch: &[u8], region: &[u8]| {
        within(patch, region).unwrap_err().explain(DOCUMENT, patch).to_string()
    };
    assert_eq!(
        words(patch, REGION),
        "patch: operation 1, test \"/packs/other/mAh\": not permitted in the region: \
         its path is not inside the region"
    );
    assert_eq!(words(b"[]", REGION), "patch: not permitted in the region: it has no operations");
    assert_eq!(words(patch, b"packs"), "region: a pointer is malformed");
    assert_eq!(
        words(br#"[{"op":"remove","path":"/packs/acme/mAh"}]"#, REGION),
        "patch: operation 1, remove \"/packs/acme/mAh\": not permitted in the region: \
         the first operation is a test"
    );
}
