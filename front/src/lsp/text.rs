//! Texts as an editor counts in them: lines from 0, and columns from 0 in code units of UTF-16.

use std::ops::Range;

use serde_json::{json, Value};

use crate::token::{Position, Span};

/// A text with the beginnings of its lines.
#[derive(Clone, Debug)]
pub struct Text {
    text: String,
    /// Where lines begin for an editor, for which `\r` alone ends a line too.
    lines: Vec<usize>,
    /// Where lines begin for the reader of tokens.
    token_lines: Vec<usize>,
}

const MARK: &str = "\u{feff}";

impl Text {
    /// A text, of which lines are found.
    pub fn new(text: String) -> Text {
        let mut made = Text { text, lines: Vec::new(), token_lines: Vec::new() };
        made.find_lines();
        made
    }

    fn find_lines(&mut self) {
        (self.lines, self.token_lines) = (vec![0], vec![0]);
        self.move_lines(0..0, self.text.len());
    }

    /// Finds the lines again where a range was replaced by so many bytes.
    fn move_lines(&mut self, old: Range<usize>, new: usize) {
        let bytes = self.text.as_bytes();
        let ends = |at: usize| bytes[at - 1] == b'\n';
        let ends_here = |at: usize| ends(at) || bytes[at - 1] == b'\r' && bytes.get(at) != Some(&b'\n');
        move_starts(&mut self.lines, old.clone(), new, ends_here);
        move_starts(&mut self.token_lines, old, new, ends);
    }

    /// The text itself.
    pub fn as_str(&self) -> &str {
        &self.text
    }

    /// The offset of a place of the editor. A place behind the end of its line is the line's end, one behind the last
    /// line the text's end.
    pub fn offset(&self, line: u32, character: u32) -> usize {
        let Some(start) = self.lines.get(line as usize).copied() else {
            return self.text.len();
        };
        let end = self.lines.get(line as usize + 1).copied().unwrap_or(self.text.len());
        let content = self.text[start..end].trim_end_matches(['\n', '\r']);
        let mut units = 0;
        for (at, it) in content.char_indices() {
            // Between the two units of one character is before it.
            if units + it.len_utf16() as u32 > character {
                return start + at;
            }
            units += it.len_utf16() as u32;
        }
        start + content.len()
    }

    /// The line and the column of an offset for the editor.
    pub fn place(&self, offset: usize) -> (u32, u32) {
        let offset = self.boundary(offset);
        let line = self.lines.partition_point(|it| *it <= offset) - 1;
        let units: usize = self.text[self.lines[line]..offset].chars().map(char::len_utf16).sum();
        (line as u32, units as u32)
    }

    /// The nearest boundary of a character at or before an offset.
    fn boundary(&self, offset: usize) -> usize {
        let mut offset = offset.min(self.text.len());
        while !self.text.is_char_boundary(offset) {
            offset -= 1;
        }
        offset
    }

    /// The position of an offset as tokens have it.
    pub fn position(&self, offset: usize) -> Position {
        let offset = self.boundary(offset);
        let line = self.token_lines.partition_point(|it| *it <= offset) - 1;
        let before = &self.text[self.token_lines[line]..offset];
        // A byte order mark counts for the editor alone.
        let before = if line == 0 { before.strip_prefix(MARK).unwrap_or(before) } else { before };
        Position { line: line as u32 + 1, column: before.chars().count() as u32 + 1 }
    }

    /// The offset of a position of tokens.
    pub fn offset_of(&self, at: Position) -> usize {
        let line = at.line.max(1) as usize - 1;
        let Some(start) = self.token_lines.get(line).copied() else {
            return self.text.len();
        };
        let end = self.token_lines.get(line + 1).copied().unwrap_or(self.text.len());
        let mut content = &self.text[start..end];
        let mut skipped = 0;
        if let (0, Some(rest)) = (line, content.strip_prefix(MARK)) {
            (content, skipped) = (rest, MARK.len());
        }
        let content = content.trim_end_matches(['\n', '\r']);
        let behind = content.char_indices().nth(at.column.max(1) as usize - 1).map_or(content.len(), |it| it.0);
        start + skipped + behind
    }

    /// What stands in a span.
    pub fn written(&self, span: Span) -> &str {
        self.text.get(self.offset_of(span.start)..self.offset_of(span.end)).unwrap_or_default()
    }

    /// The line in which a position is, up to there.
    pub fn line_before(&self, at: Position) -> &str {
        self.written(Span { start: Position { column: 1, ..at }, end: at })
    }

    /// A range for the editor.
    pub fn range(&self, span: Span) -> Value {
        let (start, end) = (self.offset_of(span.start), self.offset_of(span.end));
        self.range_of(start..end.max(start))
    }

    /// The range that a span of this text has in another that was made of it by an edit.
    pub fn range_in(&self, other: &Text, span: Span) -> Value {
        if std::ptr::eq(self, other) {
            return self.range(span);
        }
        let [start, end] = [span.start, span.end].map(|it| self.moved(other, self.offset_of(it)));
        other.range_of(start..end.max(start))
    }

    /// A range of offsets for the editor.
    pub fn range_of(&self, range: Range<usize>) -> Value {
        let ((line, character), (end_line, end)) = (self.place(range.start), self.place(range.end));
        json!({"start": {"line": line, "character": character}, "end": {"line": end_line, "character": end}})
    }

    /// Puts a text in place of what stands in a range of the editor, or of all.
    pub fn edit(&mut self, range: Option<[(u32, u32); 2]>, new: &str) {
        match range {
            None => {
                new.clone_into(&mut self.text);
                self.find_lines();
            }
            Some([start, end]) => {
                let (start, end) = (self.offset(start.0, start.1), self.offset(end.0, end.1));
                self.text.replace_range(start..end.max(start), new);
                self.move_lines(start..end.max(start), new.len());
            }
        }
    }

    /// Where an offset of this text is in another that was made of it by an edit.
    pub fn moved(&self, other: &Text, offset: usize) -> usize {
        let (old, new) = (self.text.as_bytes(), other.text.as_bytes());
        let most = old.len().min(new.len());
        let same = old.iter().zip(new).take_while(|(one, two)| one == two).count();
        let behind = old.iter().rev().zip(new.iter().rev()).take(most - same).take_while(|(one, two)| one == two);
        let behind = behind.count();
        match offset {
            it if it <= same => it,
            it if it + behind >= old.len() => new.len() - old.len().saturating_sub(it).min(new.len()),
            _ => other.boundary(same),
        }
    }
}

/// Where lines begin after a range was replaced by so many bytes, if before each of them `ends` holds. Of the end of a line
/// two bytes count.
fn move_starts(starts: &mut Vec<usize>, old: Range<usize>, new: usize, ends: impl Fn(usize) -> bool) {
    let first = old.start.max(1);
    let from = starts.partition_point(|it| *it < first);
    let to = starts.partition_point(|it| *it <= old.end);
    starts[to..].iter_mut().for_each(|it| *it = *it - old.len() + new);
    starts.splice(from..to, (first..=old.start + new).filter(|it| ends(*it)));
}

#[cfg(test)]
mod tests {
    use super::*;

    const TEXTS: [&str; 7] = [
        "",
        "fn f() {}\n",
        "\u{feff}use a::b;\r\nuse c;\r\n",
        "// 🦀🦀 crab\nuse 名前::x; // e\u{301}\u{301}\n\n",
        "a\rb\r\nc\n\r",
        "🦀",
        "no end of line é",
    ];

    #[test]
    fn each_offset_comes_back() {
        for text in TEXTS.map(|it| Text::new(it.to_owned())) {
            for offset in (0..=text.as_str().len()).filter(|it| text.as_str().is_char_boundary(*it)) {
                let (line, character) = text.place(offset);
                let is_inside = text.as_str()[..offset].ends_with('\r') && text.as_str()[offset..].starts_with('\n');
                if !is_inside {
                    assert_eq!(text.offset(line, character), offset, "{text:?}");
                }
                let is_mark = offset == 0 && text.as_str().starts_with(MARK);
                let before = text.as_str()[..offset].chars().next_back();
                if !is_mark && before != Some('\r') {
                    assert_eq!(text.offset_of(text.position(offset)), offset, "{text:?}");
                }
            }
        }
    }

    #[test]
    fn columns_are_those_of_utf_16() {
        let text = Text::new("// 🦀é\r\nlet x;".to_owned());
        assert_eq!(text.place(7), (0, 5));
        assert_eq!(text.place(9), (0, 6));
        assert_eq!(text.offset(0, 4), 3);
        assert_eq!(text.offset(0, 99), 9);
        assert_eq!(text.offset(1, 4), 15);
        assert_eq!(text.offset(7, 0), text.as_str().len());
        assert_eq!(text.position(9), Position { line: 1, column: 6 });
    }

    #[test]
    fn what_stands_in_spans() {
        let text = Text::new("\u{feff}ab\n é🦀 c\r\n".to_owned());
        let at = |line, column| Position { line, column };
        assert_eq!(text.written(Span { start: at(2, 2), end: at(2, 4) }), "é🦀");
        assert_eq!(text.written(Span { start: at(1, 2), end: at(2, 3) }), "b\n é");
        assert_eq!(text.written(Span { start: at(2, 4), end: at(2, 2) }), "");
        assert_eq!([at(1, 3), at(2, 1), at(2, 99)].map(|it| text.line_before(it)), ["ab", "", " é🦀 c"]);
    }

    #[test]
    fn edits_of_ranges() {
        let mut text = Text::new("a🦀b\nc".to_owned());
        text.edit(Some([(0, 1), (0, 3)]), "é");
        text.edit(Some([(0, 9), (1, 0)]), "");
        assert_eq!(text.as_str(), "aébc");
        text.edit(Some([(9, 9), (0, 0)]), "!");
        assert_eq!(text.as_str(), "aébc!");
        text.edit(None, "x");
        assert_eq!(text.as_str(), "x");
    }

    #[test]
    fn lines_after_edits() {
        const PIECES: [&str; 8] = ["", "\r", "\n", "\r\n", "a", "🦀\n", "b\rc\n\n", "\n\r"];
        let mut number = 1usize;
        let mut below = |most: usize| {
            number = number.wrapping_mul(6_364_136_223_846_793_005).wrapping_add(1_442_695_040_888_963_407);
            (number >> 33) % most
        };
        let mut text = Text::new(String::new());
        for _ in 0..5000 {
            let mut place = || (below(12) as u32, below(5) as u32);
            let range = [place(), place()];
            let is_long = text.as_str().len() > 60;
            text.edit(Some(range), if is_long { "" } else { PIECES[below(PIECES.len())] });
            let fresh = Text::new(text.as_str().to_owned());
            assert_eq!((&text.lines, &text.token_lines), (&fresh.lines, &fresh.token_lines), "{:?}", text.as_str());
        }
    }

    #[test]
    fn places_that_an_edit_moves() {
        let (old, new) = (Text::new("abc def".to_owned()), Text::new("abc 123 def".to_owned()));
        assert_eq!([0, 3, 4, 7].map(|it| old.moved(&new, it)), [0, 3, 4, 11]);
        assert_eq!([0, 4, 6, 11].map(|it| new.moved(&old, it)), [0, 4, 4, 7]);
    }
}
