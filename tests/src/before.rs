//! An image that the C library wrote before a paused sheet could have blocks (document 02, (g)). Such images load as they did,
//! and are saved again byte for byte.

use crate::card::Card;
use crate::worked::{card_of, Sheet};

pub const IMAGE: &[u8] = include_bytes!("../images/before.image");

/// The card that was saved: 1,000 blocks and 60 sheets, of every standing by turns.
pub fn card() -> Card {
    let sheets: Vec<Sheet> = (0..60)
        .map(|sheet| match sheet % 4 {
            0 => (0x50, 0, 0),
            1 => (0x4f, 16 * sheet, 1 + sheet % 7),
            2 => (0x43, 16 * sheet + 3, 1 + sheet % 11),
            _ => (0x41, 0, 0),
        })
        .collect();
    card_of(1000, &sheets)
}

#[cfg(test)]
mod tests {
    use super::*;
    use crate::card::{entry, Answer};
    use crate::image::{body_of, image_of};
    use crate::printer;
    use crate::roles::SERVICE;

    #[test]
    fn it_loads_as_it_did() {
        let mut loaded = Card {
            n: 7,
            free: 3000,
            map: vec![true; 1024],
            sheets: vec![entry(0x43, 5, 6); 60],
            bytes: Vec::new(),
            summary: Vec::new(),
        };
        assert_eq!(loaded.load(SERVICE, IMAGE, &mut [5; 16]), Answer::Done);
        assert!(loaded == card());
        let mut image = vec![0x7e; IMAGE.len()];
        assert_eq!(loaded.save(SERVICE, &mut [5; 16], &mut image), Answer::Done);
        assert!(image == IMAGE && image == image_of(&body_of(&card())));
    }

    #[test]
    fn its_text() {
        let text = printer::text(IMAGE);
        assert!(text.starts_with("card 1000 "));
        assert!(text.contains("\n0 P 0 0\n1 O 16 2\n2 C 35 3\n3 A 0 0\n4 P 0 0\n"));
        assert!(text.ends_with("\n59 A 0 0\n"));
    }
}
