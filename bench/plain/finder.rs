//! Finds the switch of a line by its name.

const EMPTY: u16 = u16::MAX;

/// A hash table of numbers. At least three quarters of its places are empty, so that most names are at the first place
/// that is tried.
pub struct Finder<'p> {
    names: &'p [String],
    places: Vec<u16>,
}

impl<'p> Finder<'p> {
    pub fn new(names: &'p [String]) -> Finder<'p> {
        let mut finder = Finder { names, places: vec![EMPTY; (4 * names.len() + 4).next_power_of_two()] };
        for (number, name) in (0..).zip(names) {
            let mut place = finder.first_place(name.as_bytes());
            while finder.places[place] != EMPTY {
                place = finder.next_place(place);
            }
            finder.places[place] = number;
        }
        finder
    }

    #[inline(always)]
    pub fn find(&self, name: &[u8]) -> Option<u16> {
        let mut place = self.first_place(name);
        loop {
            let number = self.places[place];
            if number == EMPTY {
                return None;
            }
            if self.names[number as usize].as_bytes() == name {
                return Some(number);
            }
            place = self.next_place(place);
        }
    }

    fn first_place(&self, name: &[u8]) -> usize {
        hash(name) & (self.places.len() - 1)
    }

    fn next_place(&self, place: usize) -> usize {
        (place + 1) & (self.places.len() - 1)
    }
}

/// Takes eight bytes at a time, and the last ones one by one.
#[inline(always)]
fn hash(name: &[u8]) -> usize {
    let mix = |sum: u64, word: u64| (sum ^ word).wrapping_mul(0x9E37_79B9_7F4A_7C15).rotate_left(29);
    let (mut sum, mut words) = (name.len() as u64, name.chunks_exact(8));
    for word in &mut words {
        sum = mix(sum, u64::from_le_bytes(word.try_into().expect("eight bytes")));
    }
    words.remainder().iter().fold(sum, |sum, &byte| mix(sum, byte.into())) as usize
}
