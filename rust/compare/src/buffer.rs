use tables::Generator;

/// A buffer of which a call gets the first `lent` items. The items after them are
/// there to show that no call touches them.
#[derive(Clone, Debug, PartialEq)]
pub struct Buffer<T> {
    lent: usize,
    items: Vec<T>,
}

/// An item that can be filled with random bits.
pub trait Item: Copy {
    fn from_bits(bits: u64) -> Self;
}

impl Item for u8 {
    fn from_bits(bits: u64) -> u8 {
        bits as u8
    }
}

impl Item for u16 {
    fn from_bits(bits: u64) -> u16 {
        bits as u16
    }
}

impl Item for i16 {
    fn from_bits(bits: u64) -> i16 {
        bits as i16
    }
}

impl Item for u32 {
    fn from_bits(bits: u64) -> u32 {
        bits as u32
    }
}

impl Item for i32 {
    fn from_bits(bits: u64) -> i32 {
        bits as i32
    }
}

impl Item for u64 {
    fn from_bits(bits: u64) -> u64 {
        bits
    }
}

impl Item for i64 {
    fn from_bits(bits: u64) -> i64 {
        bits as i64
    }
}

/// How many items stand after the lent ones.
const AFTER: usize = 5;

impl<T: Item> Buffer<T> {
    /// A buffer filled with a random pattern.
    pub fn random(generator: &mut Generator, lent: usize) -> Buffer<T> {
        let items = (0..lent + AFTER)
            .map(|_| T::from_bits(generator.bits()))
            .collect();
        Buffer { lent, items }
    }

    /// A buffer that begins with these items and lends these alone.
    pub fn holding(generator: &mut Generator, items: &[T]) -> Buffer<T> {
        Buffer::random(generator, items.len()).with(items)
    }

    /// The same buffer with as many items in place of those that it lends.
    pub fn with(&self, items: &[T]) -> Buffer<T> {
        let mut buffer = self.clone();
        buffer.lent_mut().copy_from_slice(items);
        buffer
    }

    /// The same buffer with every item changed so, those after the lent ones too.
    pub fn map<Other>(&self, change: impl FnMut(T) -> Other) -> Buffer<Other> {
        Buffer {
            lent: self.lent,
            items: self.items.iter().copied().map(change).collect(),
        }
    }

    pub fn lent(&self) -> &[T] {
        &self.items[..self.lent]
    }

    pub fn lent_mut(&mut self) -> &mut [T] {
        &mut self.items[..self.lent]
    }
}

/// Lengths around the one that is needed: just right, one short, none, and longer.
pub fn lengths_around(generator: &mut Generator, needed: usize) -> [usize; 4] {
    [
        needed,
        needed.saturating_sub(1),
        0,
        needed + generator.between(1, 20) as usize,
    ]
}

/// A length that is enough: just right or longer.
pub fn enough(generator: &mut Generator, needed: usize) -> usize {
    needed + (generator.below(2) * generator.between(1, 20)) as usize
}
