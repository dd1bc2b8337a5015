//! A place in a text as a person finds it: line, column, and the line itself.

use core::fmt::{self, Write};

/// The columns of a line that are shown at most.
const WIDTH: usize = 76;
/// The columns that are shown before the mark where a line is cut.
const BEFORE: usize = 48;

/// A place in a text: its line and column, and the line with a mark under it.
///
/// ```
/// use json_patch::Place;
///
/// let place = Place::of(b"{\n  \"a\": 1,\n}\n", 12);
/// assert_eq!((place.line, place.column), (3, 1));
/// assert_eq!(place.to_string(), "3 | }\n  | ^");
/// ```
///
/// Lines end at a line feed. Columns count characters. A long line is cut on
/// both sides; what a terminal would obey is shown as U+FFFD.
#[derive(Clone, Copy, Debug, PartialEq, Eq)]
pub struct Place<'a> {
    /// The line, counted from 1.
    pub line: usize,
    /// The column, counted from 1 in characters.
    pub column: usize,
    /// The line before, where this one has nothing to show.
    above: Option<&'a [u8]>,
    shown: &'a [u8],
    mark: usize,
}

impl<'a> Place<'a> {
    /// The place at an offset in bytes; one past the end is the end.
    pub fn of(text: &'a [u8], offset: usize) -> Self {
        let offset = offset.min(text.len());
        let start = start_of_line(&text[..offset]);
        let rest = &text[start..];
        let length = rest.iter().position(|&byte| byte == b'\n').unwrap_or(rest.len());
        let shown = rest[..length].strip_suffix(b"\r").unwrap_or(&rest[..length]);
        let above = text[..start].trim_ascii_end();
        let blank = shown.trim_ascii().is_empty() && !above.is_empty();
        Place {
            line: 1 + text[..start].iter().filter(|&&byte| byte == b'\n').count(),
            column: 1 + text[start..offset].iter().filter(|&&byte| byte & 0xc0 != 0x80).count(),
            above: blank.then(|| &above[start_of_line(above)..]),
            shown,
            mark: offset - start,
        }
    }

    /// Prints the line and the mark, each line after `indent`, the mark between
    /// `on` and `off`.
    pub(crate) fn print(
        &self,
        f: &mut fmt::Formatter,
        indent: &str,
        on: &str,
        off: &str,
    ) -> fmt::Result {
        let digits = self.line.checked_ilog10().unwrap_or(0) as usize + 1;
        let cut = Cut::around(self.shown, self.mark);
        if let Some(above) = self.above {
            writeln!(f, "{indent}{:digits$} | {}", "", Shown { bytes: above, most: WIDTH })?;
        }
        writeln!(f, "{indent}{} | {cut}", self.line)?;
        write!(f, "{indent}{:digits$} | {:2$}{on}^{off}", "", "", cut.before)
    }
}

impl fmt::Display for Place<'_> {
    fn fmt(&self, f: &mut fmt::Formatter) -> fmt::Result {
        self.print(f, "", "", "")
    }
}

/// Where the last line of a text begins.
fn start_of_line(text: &[u8]) -> usize {
    text.iter().rposition(|&byte| byte == b'\n').map_or(0, |at| at + 1)
}

/// A line with its beginning left out, and the columns in front of the mark.
struct Cut<'a> {
    dots: &'static str,
    bytes: &'a [u8],
    before: usize,
}

impl<'a> Cut<'a> {
    fn around(line: &'a [u8], mark: usize) -> Self {
        let all: usize = glyphs(line).map(|(_, c)| width(c)).sum();
        let before = glyphs(line).take_while(|&(at, _)| at < mark).map(|(_, c)| width(c)).sum();
        if all <= WIDTH || before <= BEFORE {
            return Cut { dots: "", bytes: line, before };
        }
        let mut left = before;
        for (at, c) in glyphs(line) {
            if left <= BEFORE {
                return Cut { dots: "…", bytes: &line[at..], before: left + 1 };
            }
            left -= width(c);
        }
        Cut { dots: "…", bytes: &[], before: 1 }
    }
}

impl fmt::Display for Cut<'_> {
    fn fmt(&self, f: &mut fmt::Formatter) -> fmt::Result {
        write!(f, "{}{}", self.dots, Shown { bytes: self.bytes, most: WIDTH })
    }
}

/// Bytes as a terminal may see them, cut after so many columns.
///
/// ```
/// use json_patch::Shown;
///
/// assert_eq!(Shown { bytes: b"a\x1b[31mb\xff", most: 80 }.to_string(), "a\u{fffd}[31mb\u{fffd}");
/// assert_eq!(Shown { bytes: b"0123456789", most: 4 }.to_string(), "0123…");
/// ```
#[derive(Clone, Copy, Debug)]
pub struct Shown<'a> {
    /// The bytes.
    pub bytes: &'a [u8],
    /// The columns that are shown at most.
    pub most: usize,
}

impl fmt::Display for Shown<'_> {
    fn fmt(&self, f: &mut fmt::Formatter) -> fmt::Result {
        let mut columns = 0;
        for (_, glyph) in glyphs(self.bytes) {
            columns += width(glyph);
            if columns > self.most {
                return f.write_char('…');
            }
            f.write_char(glyph)?;
        }
        Ok(())
    }
}

/// The characters of a text that are safe to show, each with its offset.
fn glyphs(bytes: &[u8]) -> impl Iterator<Item = (usize, char)> + '_ {
    let mut start = 0;
    bytes.utf8_chunks().flat_map(move |chunk| {
        let from = start;
        let broken = from + chunk.valid().len();
        start = broken + chunk.invalid().len();
        let bad = (!chunk.invalid().is_empty()).then_some((broken, char::REPLACEMENT_CHARACTER));
        chunk.valid().char_indices().map(move |(at, c)| (from + at, safe(c))).chain(bad)
    })
}

/// A character, or one that stands for it where a terminal would obey it or
/// show nothing.
pub(crate) fn safe(c: char) -> char {
    match c {
        '\t' => ' ',
        '\u{61c}' | '\u{200b}'..='\u{200f}' | '\u{2028}'..='\u{202e}' => '\u{fffd}',
        '\u{2060}'..='\u{2069}' | '\u{feff}' => '\u{fffd}',
        c if c.is_control() => '\u{fffd}',
        c => c,
    }
}

/// The columns that a character takes, as terminals have it.
fn width(c: char) -> usize {
    match c {
        '\u{300}'..='\u{36f}' | '\u{20d0}'..='\u{20ff}' | '\u{fe00}'..='\u{fe0f}' => 0,
        '\u{1100}'..='\u{115f}' | '\u{2e80}'..='\u{a4cf}' | '\u{ac00}'..='\u{d7a3}' => 2,
        '\u{f900}'..='\u{faff}' | '\u{fe30}'..='\u{fe6f}' | '\u{ff01}'..='\u{ff60}' => 2,
        '\u{ffe0}'..='\u{ffe6}' | '\u{1f300}'..='\u{1faff}' | '\u{20000}'..='\u{3fffd}' => 2,
        _ => 1,
    }
}

#[cfg(test)]
mod tests {
    extern crate std;
    use super::*;
    use std::format;
    use std::string::ToString;

    fn at(text: &str, offset: usize) -> (usize, usize, std::string::String) {
        let place = Place::of(text.as_bytes(), offset);
        (place.line, place.column, place.to_string())
    }

    #[test]
    fn lines_and_columns() {
        assert_eq!(at("", 0), (1, 1, "1 | \n  | ^".into()));
        assert_eq!(at("[1,]", 3), (1, 4, "1 | [1,]\n  |    ^".into()));
        assert_eq!(at("[\r\n1,\r\n]", 7), (3, 1, "3 | ]\n  | ^".into()));
        assert_eq!(at("[\"é", 4), (1, 4, "1 | [\"é\n  |    ^".into()));
        assert_eq!(at("[\"漢\"x", 6), (1, 5, "1 | [\"漢\"x\n  |      ^".into()));
        assert_eq!(at("[\t1\tx", 4), (1, 5, "1 | [ 1 x\n  |     ^".into()));
    }

    #[test]
    fn an_empty_line_comes_with_the_one_above() {
        assert_eq!(at("[1,\n", 4), (2, 1, "  | [1,\n2 | \n  | ^".into()));
        assert_eq!(at("[1,\n\n  ", 7), (3, 3, "  | [1,\n3 |   \n  |   ^".into()));
    }

    #[test]
    fn numbers_of_several_digits_are_aligned() {
        let text = "\n".repeat(9) + "x";
        assert_eq!(at(&text, 9), (10, 1, "10 | x\n   | ^".into()));
    }

    #[test]
    fn long_lines_are_cut_on_both_sides() {
        let text = "a".repeat(1000) + "!" + &"b".repeat(1000);
        let (line, column, shown) = at(&text, 1000);
        assert_eq!((line, column), (1, 1001));
        let front = "a".repeat(BEFORE);
        let back = "b".repeat(WIDTH - BEFORE - 1);
        let under = " ".repeat(BEFORE + 1);
        assert_eq!(shown, format!("1 | …{front}!{back}…\n  | {under}^"));
        let early = at(&text, 3).2;
        assert_eq!(early, format!("1 | {}…\n  |    ^", "a".repeat(WIDTH)));
    }

    #[test]
    fn bytes_that_are_not_utf8_take_one_column() {
        let place = Place::of(b"[\"\xc3(", 3);
        assert_eq!(
            (place.column, place.to_string()),
            (4, "1 | [\"\u{fffd}(\n  |    ^".to_string())
        );
        let place = Place::of(b"\xff\xfe[", 0);
        assert_eq!(place.to_string(), "1 | \u{fffd}\u{fffd}[\n  | ^");
    }

    #[test]
    fn every_offset_of_every_text_is_a_place() {
        let text = b"a\n\xff\r\n\t\xc3\xa9\xe2\x80\x8b\n\n".repeat(30);
        for offset in 0..text.len() + 2 {
            assert!(Place::of(&text, offset).to_string().contains('^'));
        }
    }
}
