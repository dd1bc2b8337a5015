//! Numbers near their limits, and numbers against numbers.

use super::drafts::Draft;
use super::oddities::somewhere;
use super::random::Random;
use super::trees::{self, equal_to, nearly};
use super::{finish, Texts};
use crate::value::Value;

/// Numbers near their limits, some beyond, some unfinished.
pub fn numbers(random: &mut Random) -> Texts {
    let mut texts = Vec::new();
    for _ in 0..random.between(1, 4) {
        let number = match random.below(6) {
            0 => trees::numeral(random),
            1 => long_number(random),
            2 | 3 => {
                let zeros = "0".repeat(random.below(5));
                let size = random.between(9_985, 10_005);
                let sign = random.pick(&["", "+", "-"]);
                let before = random.pick(&["1", "-0", "12.50", "0.0"]);
                format!("{before}{}{sign}{zeros}{size}", random.pick(&["e", "E"]))
            }
            4 => {
                // Zeros that bring the exponent's last digits near byte 128.
                let zeros = "0".repeat(random.between(119, 127));
                let size = random.pick(&["1", "9999", "10000", "99999"]);
                format!("1e{zeros}{size}")
            }
            _ => {
                let pieces = ["0", "1", "-", ".", "e", "E", "+", "00", "12"];
                (0..random.between(1, 6)).map(|_| random.pick(&pieces)).collect()
            }
        };
        texts.push(number);
    }
    let text = if random.chance(50) {
        texts.concat().into_bytes()
    } else {
        format!("[{}]", texts.join(",")).into_bytes()
    };
    somewhere(random, text)
}

/// A number of about 128 bytes, with a point or an exponent somewhere.
fn long_number(random: &mut Random) -> String {
    let mut number: String =
        (0..random.between(122, 128)).map(|_| random.pick(&['1', '5', '9', '0'])).collect();
    number.insert(0, '7');
    if random.chance(60) {
        let places = if random.chance(50) { (1, number.len()) } else { (120, number.len()) };
        let piece = random.pick(&[".", "e", "e-", "E+"]);
        let at = random.between(places.0, places.1);
        number.insert_str(at.min(number.len()), piece);
    }
    if random.chance(20) {
        number.insert(0, '-');
    }
    if random.chance(30) {
        number.push_str(random.pick(&[".", "e", "x", "-", ".5", "e5", "e-"]));
    }
    number
}

/// One number tested against another: the same in another spelling, one like
/// it, or any.
pub fn number_pairs(random: &mut Random) -> Texts {
    let mut left = trees::numeral(random);
    if random.chance(30) {
        let digits: String =
            (0..random.between(1, 110)).map(|_| random.pick(&['0', '0', '1', '9'])).collect();
        let exponent = random.pick(&["", "e9990", "e-9990", "E+9880", "e-17"]);
        left = format!("3{digits}{exponent}");
    }
    let left = Value::Number(left);
    let right = match random.below(4) {
        0 => Value::Number(trees::numeral(random)),
        1 => nearly(random, &left),
        _ => equal_to(random, &left),
    };
    let draft = Draft { op: "test", path: String::new(), from: None, value: Some(right) };
    finish(random, &left, &[draft])
}
