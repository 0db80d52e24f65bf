//! A worked card whose values all differ, as definitions for the theorems over its image and over its text. Document 01's
//! own figures are of a fresh card of 64 blocks, where n is the free count, start is length and all bits of a word are ones.

use crate::blocks::{to_words, words_of};
use crate::card::{entry, sealed, Card};
use crate::image::{body_of, image_of};
use crate::printer;
use std::fmt::Display;

const N: usize = 70;

/// A sheet with an extent: mark, start and length.
pub(crate) type Sheet = (u32, usize, usize);

/// Sheet 0 is Open, sheet 1 Complete.
const SHEETS: [Sheet; 2] = [(0x4f, 9, 4), (0x43, 37, 30)];

/// The card of n blocks that holds sheets: a block is free exactly when no sheet covers it.
pub(crate) fn card_of(n: usize, sheets: &[Sheet]) -> Card {
    let mut map: Vec<bool> = (0..64 * words_of(n)).map(|b| b < n).collect();
    for &(_, start, length) in sheets {
        map[start..start + length].fill(false);
    }
    Card {
        n,
        free: map.iter().filter(|&&free| free).count(),
        map,
        sheets: sheets
            .iter()
            .map(|&(mark, start, length)| entry(mark, start as u32, length as u32))
            .collect(),
        bytes: Vec::new(),
        summary: Vec::new(),
    }
}

fn card() -> Card {
    card_of(N, &SHEETS)
}

/// The image of the largest card with the most sheets and a text about as long as one can be: 934 starts have 6 digits and the
/// others 5, 166 lengths have 4 and the others 3, and there are 345 runs, the longest of 10,000 blocks.
pub fn longest() -> Vec<u8> {
    let mut start = 10000;
    let mut sheets = Vec::new();
    for sheet in 0..1024 {
        let length = if sheet < 166 { 1000 } else { 100 };
        let mark = if sheet % 2 == 0 { 0x4f } else { 0x43 };
        sheets.push((mark, start, length));
        // a free block behind each of the last 344
        start += length + (sheet >= 680) as usize;
    }
    image_of(&body_of(&card_of(262144, &sheets)))
}

/// The sums of a sealed block whose 496 bytes of payload are all 255, of the last sheet and the last place that there can be,
/// as definitions: both pass 65,521, where document 01's own figures stay below it.
pub fn sums() -> String {
    let (sheet, place, byte) = (1023, 262143, 255);
    let block = sealed(sheet, place, &[byte; 496]);
    let stored = |at: usize| u32::from_be_bytes(block[at..at + 4].try_into().expect("four bytes"));
    let mut file = "-- A worked block whose sums A and B pass 65,521, as the program in tests/ works them out: \
                    `worked-sums` there writes this\n-- file, and the gate compares.\n-- Assumes nothing.\n\
                    use Rattle.std.specs.Prelude.{ℕ}\n"
        .to_string();
    number(&mut file, "worked_sheet", "its sheet", sheet);
    number(&mut file, "worked_place", "its place", place);
    number(&mut file, "worked_byte", "each byte of its payload", byte);
    number(&mut file, "worked_a", "A", stored(504));
    number(&mut file, "worked_b", "B", stored(508));
    file
}

/// Defines a number.
fn number(file: &mut String, name: &str, comment: &str, value: impl Display) {
    *file += &format!("\n-- {comment}\nabbrev pub {name} : ℕ\n{name} = {value}\n");
}

/// Defines a list of numbers, some of them to a line.
fn list(file: &mut String, name: &str, comment: &str, lines: &[String]) {
    let lines = lines.join("\n    ∷ ");
    *file +=
        &format!("\n-- {comment}\nabbrev pub {name} : List ℕ\n{name} =\n    {lines}\n    ∷ []\n");
}

/// Bytes on a line.
fn line(bytes: &[u8]) -> String {
    let bytes: Vec<String> = bytes.iter().map(|byte| format!("0x{byte:02X}")).collect();
    bytes.join(" ∷ ")
}

/// What both files begin with: what they bring in, and the card's state.
fn state(what: &str, uses: &str) -> String {
    let card = card();
    let mut file = format!(
        "-- A worked card of {N} blocks and two sheets whose values all differ, and its {what}, as the program in\n\
         -- tests/ works them out bit by bit: `worked-{what}` there writes this file, and the gate compares.\n\
         -- Assumes nothing.\n\
         {uses}\n"
    );
    number(&mut file, "blocks", "n", card.n);
    number(&mut file, "spare", "free count", card.free);
    for (sheet, held) in card.sheets.iter().enumerate() {
        let mark = format!("0x{:02X}", held.mark);
        let mut field = |field, value: &dyn Display| {
            let comment = format!("{field} of sheet {sheet}");
            number(&mut file, &format!("{field}_{sheet}"), &comment, value);
        };
        field("mark", &mark);
        field("start", &held.start);
        field("length", &held.length);
    }
    let words = to_words(&card.map);
    let words: Vec<String> = words.iter().map(|w| format!("0x{w:016X}")).collect();
    list(&mut file, "map", "the words of the map", &words);
    file
}

/// The state, and its image: the bytes before the fill, a number of 4 bytes to a line, the length of the fill, A and B.
pub fn image() -> String {
    let image = image_of(&body_of(&card()));
    let used = 8 + 12 + 12 * SHEETS.len() + 8 * words_of(N);
    assert!(image.len() == 512 && image[used..504].iter().all(|&byte| byte == 0));
    let lines = |bytes: &[u8]| -> Vec<String> { bytes.chunks(4).map(line).collect() };
    let mut file = state(
        "image",
        "use mathlib.Core.List.{List, [], ◌∷◌}\nuse Prim.Native.Nat.{ℕ}",
    );
    let comment = "block number, number of blocks; n, free count, c; mark, start, length of each; halves of each word";
    list(&mut file, "head", comment, &lines(&image[..used]));
    number(&mut file, "fill", "how many zeros follow", 504 - used);
    list(&mut file, "sums", "A and B", &lines(&image[504..]));
    file
}

/// The state, and what is printed of it: a line of the text on a line or, if it is long, on some.
pub fn text() -> String {
    let text = printer::text(&image_of(&body_of(&card())));
    let lines: Vec<String> = text
        .split_inclusive('\n')
        .flat_map(|printed| printed.as_bytes().chunks(16).map(line))
        .collect();
    let mut file = state("text", "use Rattle.std.specs.Prelude.{List, [], ◌∷◌, ℕ}");
    let comment = text.trim_end().replace('\n', "\n-- ");
    list(&mut file, "text", &comment, &lines);
    file
}

#[cfg(test)]
mod tests {
    use super::*;
    use crate::blocks::survey;

    /// No two of the printed values are equal, nor are two halves of a word.
    #[test]
    fn values_all_differ() {
        let card = card();
        let counts = survey(&card.map, N);
        let mut values = vec![N, card.free, SHEETS.len(), counts.runs, counts.longest];
        for (sheet, &(mark, start, length)) in SHEETS.iter().enumerate() {
            values.extend([sheet, mark as usize, start, length]);
        }
        for word in to_words(&card.map) {
            values.extend([word >> 32, word & 0xffff_ffff].map(|half| half as usize));
        }
        let many = values.len();
        values.sort();
        values.dedup();
        // the last half is of blocks past n: it is 0, as the number of the first sheet is
        assert_eq!(values.len(), many - 1, "{values:?}");
    }

    /// It is longer than half the 32,768 bytes that the printer has for a text.
    #[test]
    fn the_longest_text() {
        let text = printer::text(&longest());
        assert!(
            text.starts_with("card 262144 10344 1024\nruns 345 longest 10000\n0 O 10000 1000\n")
        );
        assert!(text.ends_with("1023 C 262043 100\n"));
        assert_eq!(text.len(), 17444);
    }
}
