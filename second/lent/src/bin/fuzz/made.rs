//! Random and damaged bytes for a call.

use second::random::Random;
use second::table::ALL_FLAGS;
use second::Session;

use lent_calls::call::Kind;
use lent_calls::damage;
use lent_calls::sessions::{self, held, Listed};
use lent_calls::stored::{Stored, SESSION};

pub const LONGEST_TABLE: usize = 4096;
pub const LONGEST_BUFFER: usize = 4096;
/// A body of 65535 bytes, the trailer, and more.
pub const LONGEST_IMAGE: usize = 0x1_1000;

/// A good table and a sound session, to be damaged.
pub struct Base {
    listed: Listed,
    pub session: Session,
}

/// What a call is made of. It uses what belongs to its kind.
pub struct Made {
    pub kind: Kind,
    pub table: Vec<u8>,
    pub session: Stored,
    pub edition: u8,
    pub screen: u8,
    pub flags: u32,
    pub image: Vec<u8>,
    pub length: usize,
}

impl Base {
    pub fn random(random: &mut Random) -> Base {
        let listed = Listed::random(random);
        let session = sessions::sound(random, &listed);
        Base { listed, session }
    }

    pub fn made(&self, random: &mut Random) -> Made {
        let kind = random.one_of(&Kind::ALL);
        Made {
            kind,
            table: self.table(random),
            session: self.stored(random),
            edition: random.edition_byte(),
            screen: self.screen(random),
            flags: flags(random),
            image: match kind {
                Kind::Restore => self.image(random),
                _ => Vec::new(),
            },
            length: self.length(random),
        }
    }

    /// Mostly a screen that the table lists.
    fn screen(&self, random: &mut Random) -> u8 {
        match random.below(20) {
            0 => random.byte(256),
            _ => random.byte(u16::from(self.listed.screens) + 1),
        }
    }

    fn table(&self, random: &mut Random) -> Vec<u8> {
        match random.below(10) {
            0 => damage::noise(random, 200),
            1 => damage::noise(random, LONGEST_TABLE as u64),
            2 | 3 => damage::table(random, &self.listed),
            _ => self.listed.bytes.clone(),
        }
    }

    fn stored(&self, random: &mut Random) -> Stored {
        match random.below(10) {
            0 => {
                let limit = random.one_of(&[2, 5, 17, 33, 64, 256]);
                Stored::from_bytes([0; SESSION].map(|_| random.byte(limit)))
            }
            1..=3 => damage::stored(random, &self.listed, &self.session),
            4 => Stored::FRESH,
            _ => held(&self.session),
        }
    }

    fn image(&self, random: &mut Random) -> Vec<u8> {
        match random.below(200) {
            0 => damage::noise(random, LONGEST_IMAGE as u64),
            1 => damage::with_trailer(vec![random.byte(3); 0xffff], damage::any_fields(random)),
            2..=49 => self.session.image(),
            _ => damage::image(random, &self.listed, &self.session),
        }
    }

    fn length(&self, random: &mut Random) -> usize {
        let fits = self.session.image().len();
        match random.below(5) {
            0 => fits,
            1 => fits - 1,
            2 => random.between(0, LONGEST_BUFFER as u64) as usize,
            _ => random.between(0, 700) as usize,
        }
    }
}

/// Any word, any set of the seven flags, or such a set and any one bit.
fn flags(random: &mut Random) -> u32 {
    let word = random.next() as u32;
    match random.below(10) {
        0 => word,
        1 => word & ALL_FLAGS | 1 << random.below(32),
        _ => word & ALL_FLAGS,
    }
}
