//! Save and load at the edges of the windows that a scratch of 64 words makes (document 02, (h)): extents that start, end and
//! cross there, and states that fail to be sound by a block there.

use crate::counts::Counts;
use crate::images::{load, other_scratches, other_tables, save, there_and_back};
use bitwise::blocks::{fresh, scratch_words, words_of, FREE, TAKEN};
use bitwise::card::{entry, Answer, Card};
use bitwise::image::{blocks_of, body_of, image_of};

const BLOCK: usize = 512;

/// The blocks of a window.
const WINDOW: usize = 4096;

/// Sizes of card about which a window begins or ends, and the largest.
const SIZES: [usize; 6] = [4032, 4095, 4096, 4097, 8192, 262144];

/// An extent from its first block to the one before its end.
pub type Extent = (usize, usize);

/// A card whose sheets hold some extents, with an absent and a paused sheet.
pub fn held(n: usize, extents: &[Extent]) -> Card {
    let mut map = fresh(n, words_of(n));
    let mut sheets = vec![entry(0x41, 0, 0), entry(0x50, 0, 0)];
    for (i, &(start, end)) in extents.iter().enumerate() {
        map[start..end].fill(TAKEN);
        let mark = [0x43, 0x4f, 0x50][i % 3];
        sheets.push(entry(mark, start as u32, (end - start) as u32));
    }
    let mut card = Card {
        n,
        free: 0,
        map,
        sheets,
        bytes: Vec::new(),
        summary: Vec::new(),
    };
    card.free = free_blocks(&card);
    card
}

fn free_blocks(card: &Card) -> usize {
    card.map.iter().filter(|&&block| block == FREE).count()
}

/// Extents that end, start or cross at block x, alone and beside each other, and some of more than a window.
fn extents_at(x: usize, n: usize) -> Vec<Vec<Extent>> {
    let (before, far) = (x.saturating_sub(3), x.saturating_sub(WINDOW + 1));
    let mut lists = vec![
        vec![(before, x)],
        vec![(x - 1, x)],
        vec![(far, x)],
        vec![(0, x)],
        vec![(0, n)],
    ];
    if x < n {
        let (behind, end) = ((x + 3).min(n), (x + WINDOW + 1).min(n));
        lists.extend([
            vec![(x, behind)],
            vec![(x, x + 1)],
            vec![(x - 1, x + 1)],
            vec![(before, behind)],
            vec![(before, x), (x, behind)],
            vec![(x, behind), (far, x)],
            vec![(far, end)],
            vec![(x, n)],
            vec![(x, n), (0, x)],
        ]);
    }
    lists
}

/// The extents about every edge of all sizes but the largest.
pub fn small_lists() -> impl Iterator<Item = (usize, Vec<Extent>)> {
    let sizes = SIZES.into_iter().filter(|n| *n <= 2 * WINDOW);
    let edges = sizes.flat_map(|n| edges(n).into_iter().map(move |x| (n, x)));
    edges.flat_map(|(n, x)| {
        extents_at(x, n)
            .into_iter()
            .map(move |extents| (n, extents))
    })
}

/// Where windows begin, and the end of the card. Of the largest card some of them, the first and the last among these.
fn edges(n: usize) -> Vec<usize> {
    let mut edges: Vec<usize> = (1..=n / WINDOW).map(|i| WINDOW * i).collect();
    if edges.len() > 4 {
        edges.retain(|&x| [WINDOW, 2 * WINDOW, 33 * WINDOW, n - WINDOW].contains(&x));
    }
    edges.extend([4032, n]);
    edges.sort();
    edges.dedup();
    edges.retain(|&x| x <= n);
    edges
}

/// A save of a state that is not sound, and a load of its image.
fn unsound(card: &Card, margin: usize, counts: &mut Counts) -> Result<(), String> {
    let (n, c) = (card.n, card.sheets.len());
    let scratch = scratch_words(n);
    let (saved, _) = save(card, scratch, BLOCK * blocks_of(n, c), margin, counts)?;
    let image = image_of(&body_of(card));
    let loaded = load(&mut other_tables(n, c), &image, scratch, margin, counts)?;
    counts.note_image("save, a damaged state", saved);
    counts.note_image("load, a damaged state", loaded);
    if (saved, loaded) != (Answer::Refused(4), Answer::Refused(14)) {
        return Err(format!(
            "{saved:?} and {loaded:?} of a state that is not sound"
        ));
    }
    Ok(())
}

/// A state made wrong by a block at either end of an extent: free and covered, taken and uncovered, or covered twice; with the
/// free count that the map has, so that nothing else is wrong, and with the one before. Of what is covered twice the lengths
/// together are right: a block elsewhere is taken and uncovered.
fn wrong_blocks(
    card: &Card,
    (start, end): Extent,
    margin: usize,
    counts: &mut Counts,
) -> Result<(), String> {
    let n = card.n;
    for block in [start.wrapping_sub(1), start, end - 1, end] {
        if block >= n {
            continue;
        }
        let mut wrong = card.clone();
        wrong.map[block] = !wrong.map[block];
        unsound(&wrong, margin, counts)?;
        wrong.free = free_blocks(&wrong);
        unsound(&wrong, margin, counts)?;
        if card.map[block] == TAKEN {
            let mut twice = card.clone();
            twice.sheets[0] = entry(0x4f, block as u32, 1);
            unsound(&twice, margin, counts)?;
            if let Some(other) = twice.map.iter().rposition(|&block| block == FREE) {
                twice.map[other] = TAKEN;
                twice.free -= 1;
                unsound(&twice, margin, counts)?;
            }
        }
    }
    Ok(())
}

/// Every edge of every size: sound states there and back, and wrong ones refused.
pub fn windows(margin: usize, counts: &mut Counts) -> Result<(), String> {
    for n in SIZES {
        for x in edges(n) {
            for extents in extents_at(x, n) {
                let about = |error| format!("n {n}, extents {extents:?}: {error}");
                let card = held(n, &extents);
                there_and_back(&card, margin, counts).map_err(about)?;
                // Of a long map only the ends at this edge, which is what differs from list to list.
                for &extent in extents
                    .iter()
                    .filter(|extent| n <= 8192 || extent.1 - extent.0 < WINDOW)
                {
                    wrong_blocks(&card, extent, margin, counts).map_err(about)?;
                }
            }
        }
        scratches(n, margin, counts)?;
    }
    Ok(())
}

/// Every other length of scratch, and a bit behind the last block.
fn scratches(n: usize, margin: usize, counts: &mut Counts) -> Result<(), String> {
    let mut card = held(n, &[(n - 1, n)]);
    let image = there_and_back(&card, margin, counts)?;
    let c = card.sheets.len();
    for scratch in other_scratches(n) {
        let (saved, _) = save(&card, scratch, image.len(), margin, counts)?;
        let loaded = load(&mut other_tables(n, c), &image, scratch, margin, counts)?;
        counts.note_image("save, another scratch", saved);
        counts.note_image("load, another scratch", loaded);
        if (saved, loaded) != (Answer::Refused(1), Answer::Refused(1)) {
            return Err(format!(
                "n {n}, {scratch} words of scratch: {saved:?} and {loaded:?}"
            ));
        }
    }
    if n % 64 != 0 {
        card.map[n] = FREE;
        unsound(&card, margin, counts)?;
    }
    Ok(())
}
