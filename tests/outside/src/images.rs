//! Save and load: images saved, loaded back, cut and damaged, and wrong contents behind correct seals.

use crate::beside::{library_of, same_outcome, same_slice, same_tables};
use crate::counts::Counts;
use crate::damage::{damage, state};
use crate::flaws::FLAWS;
use crate::generate::Generator;
use crate::library::{bytes, words};
use crate::lists::small_size;
use crate::pauses::is_paused_course;
use bitwise::before;
use bitwise::blocks::{scratch_words, survey, words_of, FREE, TAKEN};
use bitwise::call::{call, Kind, LOAD, SAVE};
use bitwise::card::{entry, Answer, Card};
use bitwise::image::{blocks_of, body_of, image_of};
use bitwise::random::Random;
use bitwise::roles::{PHARMACIST, SERVICE};

const BLOCK: usize = 512;

/// Who saves or loads: the pharmacist and the service by turns, as some number says.
fn by_turns(number: usize) -> u32 {
    [PHARMACIST, SERVICE][number % 2]
}

/// A save by one who may, into a buffer that held something, beside the model. Gives the answer, and what the buffer has
/// afterwards.
pub fn save(
    card: &Card,
    scratch: usize,
    length: usize,
    margin: usize,
    counts: &mut Counts,
) -> Result<(Answer, Vec<u8>), String> {
    let role = by_turns(card.free + scratch + length);
    save_by(role, card, scratch, length, margin, counts)
}

/// A save by any role.
pub fn save_by(
    role: u32,
    card: &Card,
    scratch: usize,
    length: usize,
    margin: usize,
    counts: &mut Counts,
) -> Result<(Answer, Vec<u8>), String> {
    let held = card.held_by_save(role, scratch, length);
    let library = &mut library_of(card, margin);
    let (mut image, mut zeros) = (vec![0x7e; length], vec![0x55; scratch]);
    let (mut lent, mut lent_scratch) = (bytes(&image, margin), words(&zeros, margin));
    let outcome = library.save(role, &mut lent_scratch, &mut lent);
    let answer = card.save(role, &mut zeros, &mut image);
    let result = same_outcome(outcome, card, answer)
        .and_then(|()| same_tables(library, card))
        .and_then(|()| same_slice("image", &lent, &image))
        .and_then(|()| same_slice("scratch", &lent_scratch, &zeros));
    let about = |error| {
        format!("save by {role} to {length} bytes with {scratch} words of scratch: {error}")
    };
    result.map_err(about)?;
    counts.note(SAVE.0, &held);
    Ok((answer, image))
}

/// A load by one who may, beside the model, into the card's map and catalogue.
pub fn load(
    card: &mut Card,
    image: &[u8],
    scratch: usize,
    margin: usize,
    counts: &mut Counts,
) -> Result<Answer, String> {
    let last = image.last().copied().unwrap_or(0) as usize;
    let role = by_turns(image.len() / BLOCK + scratch + last);
    load_by(role, card, image, scratch, margin, counts)
}

/// A load by any role.
pub fn load_by(
    role: u32,
    card: &mut Card,
    image: &[u8],
    scratch: usize,
    margin: usize,
    counts: &mut Counts,
) -> Result<Answer, String> {
    let held = card.held_by_load(role, image, scratch);
    let library = &mut library_of(card, margin);
    let mut zeros = vec![0x55; scratch];
    let (mut lent, mut lent_scratch) = (bytes(image, margin), words(&zeros, margin));
    let outcome = library.load(role, &mut lent, &mut lent_scratch);
    let answer = card.load(role, image, &mut zeros);
    let result = same_outcome(outcome, card, answer)
        .and_then(|()| same_tables(library, card))
        .and_then(|()| same_slice("image", &lent, image))
        .and_then(|()| same_slice("scratch", &lent_scratch, &zeros));
    let about = |error| {
        format!(
            "load by {role} of {} bytes into {} words and {} entries with {scratch} words of scratch: {error}",
            image.len(),
            card.map.len() / 64,
            card.sheets.len()
        )
    };
    result.map_err(about)?;
    counts.note(LOAD.0, &held);
    Ok(answer)
}

/// A shape, a map and a catalogue that hold something else, of the lengths that n blocks and c sheets ask for.
pub fn other_tables(n: usize, c: usize) -> Card {
    Card {
        n: 7,
        free: 3000,
        map: (0..64 * words_of(n)).map(|b| b % 3 == 0).collect(),
        sheets: vec![entry(0x43, 5, 6); c],
        bytes: Vec::new(),
        summary: Vec::new(),
    }
}

/// A sound state without the card's bytes, which save and load are not lent. Some of its finished courses are paused.
fn sound_state(n: usize, c: usize, random: Random) -> (Card, Random) {
    let generator = &mut Generator::new(random);
    let mut card = state(n, c, generator);
    (card.bytes, card.summary) = (Vec::new(), Vec::new());
    for entry in card.sheets.iter_mut().filter(|entry| entry.mark == 0x43) {
        entry.mark = generator.random.one(&[0x43, 0x50]);
    }
    (card, Random(generator.random.draw()))
}

/// Saves a sound state, loads it back, and saves what was loaded. Gives the image.
pub fn there_and_back(card: &Card, margin: usize, counts: &mut Counts) -> Result<Vec<u8>, String> {
    let (n, c) = (card.n, card.sheets.len());
    let w = scratch_words(n);
    let length = BLOCK * blocks_of(n, c);
    let (answer, image) = save(card, w, length, margin, counts)?;
    counts.note_image("save, a sound state", answer);
    if card.sheets.iter().any(is_paused_course) {
        counts.note_image("save, a paused course", answer);
    }
    let mut loaded = other_tables(n, c);
    let answer = load(&mut loaded, &image, w, margin, counts)?;
    counts.note_image("load, what was saved", answer);
    if card.sheets.iter().any(is_paused_course) {
        counts.note_image("load, a paused course", answer);
    }
    if loaded != *card {
        return Err("what was saved did not load back".to_string());
    }
    if save(&loaded, w, length, margin, counts)?.1 != image {
        return Err("what was loaded is saved as another image".to_string());
    }
    Ok(image)
}

/// A sound state there and back, with wrong lengths and damage on the way, and every flaw that an image can have.
pub fn images(seed: u64, margin: usize, counts: &mut Counts) -> Result<(), String> {
    let mut random = Random::of(seed);
    let (n, c) = small_size(&mut random);
    let c = if random.chance(1, 4) {
        random.within(30, 130)
    } else {
        c
    };
    let (card, mut random) = sound_state(n, c, random);
    let image = there_and_back(&card, margin, counts)?;
    wrong_lengths(&card, &image, margin, counts)?;
    flaws(&card, margin, &mut random, counts)?;
    damaged_states(card, margin, random, counts)
}

/// Lengths that the scratch of a card of n blocks does not have, the map's own among them where it is longer.
pub fn other_scratches(n: usize) -> Vec<usize> {
    let s = scratch_words(n);
    let mut lengths = vec![0, 1, s - 1, s + 1, 63, 64, 65, words_of(n)];
    lengths.sort();
    lengths.dedup();
    lengths.retain(|&length| length != s);
    lengths
}

/// Wrong lengths of map, catalogue and scratch.
fn wrong_lengths(
    card: &Card,
    image: &[u8],
    margin: usize,
    counts: &mut Counts,
) -> Result<(), String> {
    let (w, s, c) = (words_of(card.n), scratch_words(card.n), card.sheets.len());
    for scratch in other_scratches(card.n) {
        let (answer, _) = save(card, scratch, image.len(), margin, counts)?;
        counts.note_image("save, another scratch", answer);
        let answer = load(&mut other_tables(card.n, c), image, scratch, margin, counts)?;
        counts.note_image("load, another scratch", answer);
    }
    for (words, sheets) in [(w + 1, c), (w - 1, c), (w, c + 1), (w, c - 1), (0, 0)] {
        let mut lent = other_tables(64 * words, sheets);
        let answer = load(&mut lent, image, s, margin, counts)?;
        counts.note_image("load, another map or catalogue", answer);
        lent = card.clone();
        lent.map.resize(64 * words, TAKEN);
        let (answer, _) = save(&lent, s, image.len(), margin, counts)?;
        if words != w {
            counts.note_image("save, another map", answer);
        }
    }
    Ok(())
}

/// Damaged states, saved, and loaded from images with correct seals that hold them.
fn damaged_states(
    mut card: Card,
    margin: usize,
    random: Random,
    counts: &mut Counts,
) -> Result<(), String> {
    let generator = &mut Generator::new(random);
    let (n, c) = (card.n, card.sheets.len());
    for _ in 0..4 {
        damage(&mut card, generator);
        let w = (card.map.len() / 64).min(64);
        let (answer, _) = save(&card, w, BLOCK * blocks_of(n, c), margin, counts)?;
        counts.note_image("save, a damaged state", answer);
        let image = image_of(&body_of(&card));
        let mut lent = other_tables(n, c);
        let answer = load(&mut lent, &image, scratch_words(n), margin, counts)?;
        counts.note_image("load, a damaged state", answer);
    }
    Ok(())
}

fn flaws(
    card: &Card,
    margin: usize,
    random: &mut Random,
    counts: &mut Counts,
) -> Result<(), String> {
    let (n, c) = (card.n, card.sheets.len());
    for (name, number, flaw) in FLAWS {
        let Some(image) = flaw(card, random) else {
            continue;
        };
        let about = |error| format!("{name}: {error}");
        let answer = load(
            &mut other_tables(n, c),
            &image,
            scratch_words(n),
            margin,
            counts,
        )
        .map_err(about)?;
        if answer != Answer::Refused(*number) {
            return Err(format!(
                "{name}: {answer:?}, and the flaw was to be refused with {number}"
            ));
        }
        counts.note_image(name, answer);
        let mut lent = other_tables(n, c);
        lent.map
            .resize(64 * random.within(0, words_of(n) + 2), FREE);
        let answer = load(&mut lent, &image, scratch_words(n), margin, counts).map_err(about)?;
        counts.note_image("load, a flaw and another map", answer);
    }
    Ok(())
}

/// An image from before a paused sheet could have blocks is loaded, and saved again byte for byte.
pub fn from_before(margin: usize, counts: &mut Counts) -> Result<(), String> {
    let mut loaded = other_tables(1000, 60);
    let answer = load(&mut loaded, before::IMAGE, words_of(1000), margin, counts)?;
    counts.note_image("load, an image from before", answer);
    if loaded != before::card() {
        return Err("the image from before loaded as another card".to_string());
    }
    if there_and_back(&loaded, margin, counts)? != before::IMAGE {
        return Err("the image from before is saved as another image".to_string());
    }
    Ok(())
}

/// Every byte of a small image changed.
pub fn image_bytes(seed: u64, margin: usize, counts: &mut Counts) -> Result<(), String> {
    let mut random = Random::of(seed);
    let (n, c) = (random.within(1, 201), random.one(&[1, 3, 8, 45, 80]));
    let (card, mut random) = sound_state(n, c, random);
    let mut image = there_and_back(&card, margin, counts)?;
    for at in 0..image.len() {
        for change in [1, 128, 255, random.within(1, 256) as u8] {
            image[at] ^= change;
            let answer = load(
                &mut other_tables(n, c),
                &image,
                scratch_words(n),
                margin,
                counts,
            );
            let answer =
                answer.map_err(|error| format!("byte {at} changed by {change}: {error}"))?;
            counts.note_image("load, a changed byte", answer);
            image[at] ^= change;
        }
    }
    Ok(())
}

/// Every length from 0 to 93 blocks, and a byte to either side, of a small image and of the largest.
pub fn image_lengths(margin: usize, counts: &mut Counts) -> Result<(), String> {
    for (n, c) in [(70, 3), (262144, 1024)] {
        let mut card = other_tables(n, c);
        card.call(call(Kind::Fresh, 0, n as u32), &mut []);
        let image = there_and_back(&card, margin, counts)?;
        for length in
            (0..=93).flat_map(|blocks| [512 * blocks, 512 * blocks + 1, 512 * blocks + 511])
        {
            let (answer, _) = save(&card, scratch_words(n), length, margin, counts)?;
            counts.note_image("save, any length", answer);
            let mut cut = image.clone();
            cut.resize(length, 0);
            let answer = load(
                &mut other_tables(n, c),
                &cut,
                scratch_words(n),
                margin,
                counts,
            )?;
            counts.note_image("load, any length", answer);
        }
    }
    Ok(())
}

/// A card of full size with all its sheets, there and back, with flaws and some changed bytes.
pub fn full_image(seed: u64, margin: usize, counts: &mut Counts) -> Result<(), String> {
    let mut random = Random::of(seed);
    let n = random.one(&[262144, 262143, 262081]);
    let (card, mut random) = sound_state(n, 1024, random);
    if survey(&card.map, n).free == n {
        return Err("the card is empty: nothing is tested".to_string());
    }
    let mut image = there_and_back(&card, margin, counts)?;
    for _ in 0..50 {
        let (at, change) = (random.within(0, image.len()), random.within(1, 256) as u8);
        image[at] ^= change;
        let answer = load(
            &mut other_tables(n, 1024),
            &image,
            scratch_words(n),
            margin,
            counts,
        );
        let answer = answer.map_err(|error| format!("byte {at} changed by {change}: {error}"))?;
        counts.note_image("load, a changed byte", answer);
        image[at] ^= change;
    }
    flaws(&card, margin, &mut random, counts)
}
