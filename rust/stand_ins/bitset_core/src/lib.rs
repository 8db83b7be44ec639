/// Bits of a vector of bytes, the lowest of a byte first.
pub trait BitSet {
    fn bit_len(&self) -> usize;
    fn bit_test(&self, bit: usize) -> bool;
    fn bit_set(&mut self, bit: usize) -> &mut Self;
    fn bit_reset(&mut self, bit: usize) -> &mut Self;
}

impl BitSet for Vec<u8> {
    fn bit_len(&self) -> usize {
        self.len() * 8
    }
    fn bit_test(&self, bit: usize) -> bool {
        self[bit / 8] & (1 << (bit % 8)) != 0
    }
    fn bit_set(&mut self, bit: usize) -> &mut Self {
        self[bit / 8] |= 1 << (bit % 8);
        self
    }
    fn bit_reset(&mut self, bit: usize) -> &mut Self {
        self[bit / 8] &= !(1 << (bit % 8));
        self
    }
}
