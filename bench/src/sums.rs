//! The checksum of both sides: two sums that wrap, the second one of the first's values.

#[derive(Clone, Copy, Default)]
pub struct Sums {
    a: u64,
    pub b: u64,
}

impl Sums {
    #[inline(always)]
    pub fn add(&mut self, x: u64) {
        self.a = self.a.wrapping_add(x);
        self.b = self.b.wrapping_add(self.a);
    }

    #[inline(always)]
    pub fn add_all(&mut self, xs: &[u64]) {
        for x in xs {
            self.add(*x);
        }
    }
}
