//! Memory lent to the library, watched whole.
//!
//! A lent slice lies inside a longer list, whose entries on both sides the library was not lent. A second list says
//! what the first must hold, so that after each call every entry is compared: filled, left as it was, or outside.

use crate::alteration::Part;
use crate::random::Random;
use crate::room::Room;
use std::fmt::Debug;

/// How many entries there are at least on each side of a lent slice.
const MARGIN: usize = 16;

/// How many entries a difference shows at most before it, and of those to be filled after it.
const SHOWN: usize = 10;

/// What a call does with what it is lent.
#[derive(Clone, Copy, PartialEq, Eq)]
pub enum Use {
    /// reads all of it
    Read,
    /// reads all of it, and changes some
    Changed,
    /// reads it up to a count, and adds an entry there
    Extended,
    /// fills it up to a count
    Filled,
    /// sets the one number that it is
    Set,
}

pub struct Lent<T> {
    name: &'static str,
    usage: Use,
    held: Vec<T>,
    known: Vec<T>,
    from: usize,
    to: usize,
    filled: usize,
}

/// A number of any value, or a few of them, from any bits.
pub trait Entry: Copy + PartialEq + Debug {
    fn from_bits(bits: u64) -> Self;

    /// The same with one bit turned.
    fn altered(self, random: &mut Random) -> Self;
}

macro_rules! entry {
    ($($number:ty)*) => {
        $(impl Entry for $number {
            fn from_bits(bits: u64) -> $number {
                bits as $number
            }

            fn altered(self, random: &mut Random) -> $number {
                self ^ 1 << random.below(<$number>::BITS as usize)
            }
        })*
    };
}

entry!(u8 u32 i32 i64 u64 usize);

impl Entry for humoraki::Entry {
    fn from_bits(bits: u64) -> humoraki::Entry {
        humoraki::Entry { address: bits as u32, held: (bits >> 32) as u32 }
    }

    fn altered(self, random: &mut Random) -> humoraki::Entry {
        let humoraki::Entry { address, held } = self;
        match random.one_in(2) {
            true => humoraki::Entry { address: address.altered(random), held },
            false => humoraki::Entry { address, held: held.altered(random) },
        }
    }
}

impl<T: Entry> Lent<T> {
    pub fn new(name: &'static str, usage: Use) -> Lent<T> {
        Lent { name, usage, held: Vec::new(), known: Vec::new(), from: 0, to: 0, filled: 0 }
    }

    /// Lends entries that the library is to read.
    pub fn lend_filled(&mut self, entries: &[T], random: &mut Random) {
        self.lend(entries.len(), 0, random);
        self.held[self.from..self.to].copy_from_slice(entries);
        self.expect(entries);
    }

    pub fn entries(&self) -> &[T] {
        &self.held[self.from..self.to]
    }

    pub fn entries_mut(&mut self) -> &mut [T] {
        &mut self.held[self.from..self.to]
    }

    /// The only entry of a slice of one, for a parameter that is set.
    pub fn entry_mut(&mut self) -> &mut T {
        &mut self.held[self.from]
    }

    /// What the slice must hold from its start on; all else must be as it was.
    pub fn expect(&mut self, entries: &[T]) {
        self.filled = entries.len();
        self.known[self.from..self.from + entries.len()].copy_from_slice(entries);
    }
}

/// What every lent slice can be asked, whatever its entries.
pub trait Watched {
    /// Lends that many entries, somewhere in the list, with whatever they hold, but for fresh junk in the first
    /// `fresh` of them and a few behind, so that an entry that was to be filled does not have its value by chance.
    fn lend(&mut self, length: usize, fresh: usize, random: &mut Random);

    fn name(&self) -> &'static str;

    fn usage(&self) -> Use;

    fn len(&self) -> usize;

    /// Turns a bit of some entry in a part of the list; whether there is one.
    fn alter(&mut self, part: Part, random: &mut Random) -> bool;

    /// Nothing if all is as it must be; else where it is not, in words.
    fn difference(&self) -> Option<String>;
}

impl<T: Entry> Watched for Lent<T> {
    fn lend(&mut self, length: usize, fresh: usize, random: &mut Random) {
        self.from = MARGIN + random.below(MARGIN);
        self.to = self.from + length;
        self.filled = 0;
        while self.held.len() < self.to + MARGIN {
            self.held.push(T::from_bits(random.next()));
            self.known.push(self.held[self.held.len() - 1]);
        }
        let junk = self.held.len().min(self.from + fresh + MARGIN);
        for place in self.from..junk {
            self.held[place] = T::from_bits(random.next());
            self.known[place] = self.held[place];
        }
    }

    fn name(&self) -> &'static str {
        self.name
    }

    fn usage(&self) -> Use {
        self.usage
    }

    fn len(&self) -> usize {
        self.to - self.from
    }

    fn alter(&mut self, part: Part, random: &mut Random) -> bool {
        let counted = self.from + self.filled;
        let places: Vec<usize> = match part {
            Part::Accepted => (self.from..counted).collect(),
            Part::Past => (counted..self.to).collect(),
            Part::Refused => (self.from..self.to).collect(),
            Part::Outside => (0..self.from).chain(self.to..self.held.len()).collect(),
        };
        if places.is_empty() {
            return false;
        }
        let place = random.pick(&places);
        self.held[place] = self.held[place].altered(random);
        true
    }

    fn difference(&self) -> Option<String> {
        if self.held == self.known {
            return None;
        }
        let place = (0..self.held.len()).find(|&place| self.held[place] != self.known[place])?;
        let begin = place.saturating_sub(SHOWN).max(self.from).min(place);
        let end = (self.from + self.filled).min(place + SHOWN).max(place + 1);
        let (expected, given) = (listed(&self.known[begin..end]), listed(&self.held[begin..end]));
        let (name, length) = (self.name, self.len());
        let [place, begin] = [place, begin].map(|place| place as i64 - self.from as i64);
        Some(format!(
            "{name}, of length {length}, differs at entry {place}; from entry {begin} on\n    \
             expected {expected}\n    given    {given}\n"
        ))
    }
}

/// Lends the slices that a call is to fill, each as long as the room says; whether one is too short.
pub fn lend_room(
    slices: &mut [&mut dyn Watched],
    room: &Room,
    least: usize,
    fresh: usize,
    random: &mut Random,
) -> bool {
    let mut short = false;
    for (place, slice) in slices.iter_mut().enumerate() {
        slice.lend(room.length(place, least, random), fresh, random);
        short |= slice.len() < least;
    }
    short
}

fn listed<T: Debug>(entries: &[T]) -> String {
    let words: Vec<String> = entries.iter().map(|entry| format!("{entry:?}")).collect();
    words.join(" ")
}
