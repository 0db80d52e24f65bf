//! Where a dispenser keeps its saved image: two places that are written by turns, each with a mark behind it that is written
//! last. A mark is a sealed block with the number of the save, so that a mark that is torn is seen to be none.

use crate::library::{bytes, check, seal};
use bitwise::random::Random;

const BLOCK: usize = 512;

/// A place for an image, and its mark.
#[derive(Clone, Default)]
struct Place {
    image: Vec<u8>,
    mark: Vec<u8>,
}

impl Place {
    /// The number of the save that the mark stands for, if it is one.
    fn number(&self) -> Option<u32> {
        let holds = self.mark.len() == BLOCK && check(&mut bytes(&self.mark, 0)) == 1;
        let number = self.mark.first_chunk::<4>()?;
        holds.then_some(u32::from_be_bytes(*number))
    }
}

#[derive(Clone, Default)]
pub struct Storage {
    places: [Place; 2],
}

/// The blocks of `now`, some of which have come to the medium in place of those of `before`, and one of these in part.
fn half_written(before: &[u8], now: &[u8], random: &mut Random) -> Vec<u8> {
    let mut half = before.to_vec();
    half.resize(now.len(), 0);
    let blocks = now.len() / BLOCK;
    for at in (0..blocks).map(|block| BLOCK * block) {
        if random.chance(1, 2) {
            half[at..at + BLOCK].copy_from_slice(&now[at..at + BLOCK]);
        }
    }
    let at = BLOCK * random.within(0, blocks);
    let torn = at + random.within(0, BLOCK + 1);
    half[at..torn].copy_from_slice(&now[at..torn]);
    half
}

impl Storage {
    /// The place of the last save, and the other one, which the next save writes.
    fn newest(&self) -> Option<usize> {
        let numbers = [0, 1].map(|place: usize| self.places[place].number());
        (0..2)
            .filter(|place| numbers[*place].is_some())
            .max_by_key(|place| numbers[*place])
    }

    /// The image that is loaded after a power cut.
    pub fn image(&self) -> Option<&[u8]> {
        let place = self.newest()?;
        Some(&self.places[place].image)
    }

    fn mark_of(&self, number: u32) -> Vec<u8> {
        let mut mark = bytes(&[0; BLOCK], 0);
        assert_eq!(seal(number, 0, &mut bytes(&[0; 496], 0), &mut mark), 0);
        mark.now().to_vec()
    }

    /// A save: first the image, then its mark.
    pub fn save(&mut self, image: &[u8]) {
        let newest = self.newest();
        let number = newest.and_then(|place| self.places[place].number());
        let mark = self.mark_of(number.map_or(0, |number| number + 1));
        let place = newest.map_or(0, |place| 1 - place);
        self.places[place] = Place {
            image: image.to_vec(),
            mark,
        };
    }

    /// A save that is cut: within the image, or within its mark.
    pub fn save_cut(&self, image: &[u8], random: &mut Random) -> Storage {
        let mut whole = self.clone();
        whole.save(image);
        let place = whole.newest().expect("what was saved is there");
        let (old, new) = (&self.places[place], &whole.places[place]);
        let mut half = self.clone();
        half.places[place] = match random.chance(1, 2) {
            true => Place {
                image: half_written(&old.image, &new.image, random),
                mark: old.mark.clone(),
            },
            false => Place {
                image: new.image.clone(),
                mark: half_written(&old.mark, &new.mark, random),
            },
        };
        half
    }
}
