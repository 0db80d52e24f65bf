//! What the card printer must print (document 01, "Saved image"), and images to hold it to.

use crate::before;
use crate::blocks::{from_words, scratch_words, survey, words_of, Counts};
use crate::card::{entry, Answer, Card};
use crate::image::{blocks_of, body_of, framed, image_of};
use crate::random::Random;
use crate::roles::PHARMACIST;
use crate::worked;
use std::fmt::Write as _;
use std::io::Write as _;
use std::process::{Command, Stdio};

/// A card of n blocks and c sheets, all Absent.
fn fresh(n: usize, c: usize) -> Card {
    let mut card = Card {
        n,
        free: n,
        map: from_words(&vec![0; words_of(n)]),
        sheets: vec![entry(0x41, 0, 0); c],
        bytes: vec![0; 512 * n],
        summary: Vec::new(),
    };
    card.map.iter_mut().take(n).for_each(|block| *block = true);
    card
}

/// A sheet with an extent, taken in the map and off the free count.
fn hold(card: &mut Card, sheet: usize, mark: u32, start: usize, length: usize) {
    card.sheets[sheet] = entry(mark, start as u32, length as u32);
    card.map[start..start + length].fill(false);
    card.free -= length;
}

/// The image in crates/card_print/stdin: a card of 200 blocks with a sheet of each standing, and a course that is paused.
pub fn example() -> Vec<u8> {
    let mut card = fresh(200, 7);
    hold(&mut card, 1, 0x4f, 0, 3);
    hold(&mut card, 2, 0x43, 60, 70);
    card.sheets[3] = entry(0x50, 0, 0);
    hold(&mut card, 5, 0x43, 199, 1);
    hold(&mut card, 6, 0x50, 131, 18);
    image_of(&body_of(&card))
}

/// What is printed of an image: the card, or only `refused` and the number.
pub fn text(image: &[u8]) -> String {
    let at = |i: usize| match image.get(i..i + 4) {
        Some(bytes) => bytes
            .iter()
            .fold(0, |number, &byte| 256 * number + byte as usize),
        None => 0,
    };
    // n and c stand in the first image block, behind its number and the number of image blocks
    let (n, c) = (at(8).clamp(1, 262144), at(16).clamp(1, 1024));
    let mut card = fresh(n, c);
    let mut scratch = vec![0; scratch_words(n)];
    match card.load(PHARMACIST, image, &mut scratch) {
        Answer::Refused(number) => return format!("refused {number}\n"),
        _ => {}
    }
    let Counts { runs, longest, .. } = survey(&card.map, card.n);
    let mut text = format!(
        "card {} {} {}\nruns {runs} longest {longest}\n",
        card.n, card.free, c
    );
    for (sheet, held) in card.sheets.iter().enumerate() {
        let mark = held.mark as u8 as char;
        writeln!(text, "{sheet} {mark} {} {}", held.start, held.length).unwrap();
    }
    text
}

/// Images of cards at the limits and of cards with sheets of each standing, one from before a paused sheet could have blocks,
/// and such that load refuses: every length to 93 blocks and a byte to either side, changed bytes, and contents that cannot be
/// behind correct frames.
fn images() -> Vec<Vec<u8>> {
    let mut random = Random::of(17);
    let sizes = [
        (64, 1),
        (1, 1),
        (65, 2),
        (262144, 1024),
        (262144, 1),
        (1, 1024),
        (4096, 1024),
    ];
    let mut images = vec![example(), before::IMAGE.to_vec()];
    images.extend(sizes.map(|(n, c)| image_of(&body_of(&fresh(n, c)))));
    let most = largest();
    images.push(most.clone());
    images.push(worked::longest());
    for blocks in 0..=93 {
        for length in [
            512 * blocks,
            512 * blocks + 1,
            (512 * blocks + 511) % (512 * 93),
        ] {
            let mut image = most.clone();
            image.resize(length, 0);
            images.push(image);
        }
    }
    let small = example();
    for _ in 0..400 {
        let mut image = small.clone();
        let at = random.within(0, image.len());
        image[at] ^= 1 << random.within(0, 8);
        images.push(image);
    }
    images.extend(other_contents(&mut random));
    images
}

/// The image of a card of full size with all its sheets.
fn largest() -> Vec<u8> {
    let mut card = fresh(262144, 1024);
    for sheet in 0..1024 {
        let mark = [0x4f, 0x43, 0x50][sheet % 3];
        hold(&mut card, sheet, mark, 256 * sheet, 1 + sheet % 200);
    }
    image_of(&body_of(&card))
}

/// Contents behind correct frames: each byte of the body in turn is changed.
fn other_contents(random: &mut Random) -> Vec<Vec<u8>> {
    let mut card = fresh(70, 3);
    hold(&mut card, 0, 0x4f, 0, 3);
    hold(&mut card, 1, 0x50, 30, 5);
    hold(&mut card, 2, 0x43, 60, 10);
    let body = body_of(&card);
    let changed = |at: usize| {
        let mut changed = body.clone();
        changed[at] ^= 1 << random.within(0, 8);
        framed(0, blocks_of(70, 3), &changed)
    };
    (0..body.len()).map(changed).collect()
}

/// Runs the printer on all images. Prints the first difference, and says whether there was none.
pub fn holds(program: &str) -> bool {
    let images = images();
    let mut refused = 0;
    for (i, image) in images.iter().enumerate() {
        let mut child = Command::new(program)
            .stdin(Stdio::piped())
            .stdout(Stdio::piped())
            .spawn()
            .expect("the card printer starts");
        // a printer that has read enough may close its input before all is written
        let _ = child.stdin.take().unwrap().write_all(image);
        let output = child.wait_with_output().expect("the card printer ends");
        let printed = String::from_utf8_lossy(&output.stdout).into_owned();
        let wanted = text(image);
        refused += wanted.starts_with("refused") as usize;
        if !output.status.success() || printed != wanted {
            eprintln!(
                "image {i} of {} bytes: wanted\n{wanted}printed\n{printed}",
                image.len()
            );
            return false;
        }
    }
    println!(
        "printer: {} images, {} of them refused, printed as they should be",
        images.len(),
        refused
    );
    true
}
