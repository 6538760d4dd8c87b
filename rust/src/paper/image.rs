//! Where one place of a part ends up in the whole net.
//!
//! Lists are joined and multiplied in a fixed order, so the final places that
//! have the `k`-th place of a part's list as a component are
//! `base + k * stride + j1 * s1 + .. + jn * sn` with each `j` below its count:
//! the other components run freely. No list is built to find them.

/// Most free components with more than one value: their counts multiply to
/// at most 2,048 places.
const FREE: usize = 11;

/// The places of the whole net that hold one list of a part as a component.
#[derive(Clone, Copy, Debug)]
pub struct Image {
    base: u32,
    stride: u32,
    free: usize,
    /// Count and stride of each free component, strides rising.
    dims: [(u16, u16); FREE],
}

impl Image {
    /// A list that stands in the net as it is, from place `base` on.
    pub fn at(base: u32) -> Image {
        Image { base, stride: 1, free: 0, dims: [(0, 0); FREE] }
    }

    /// The image of an operand's list whose places follow `before` others in
    /// a joined list.
    pub fn behind(mut self, before: u32) -> Image {
        self.base += before * self.stride;
        self
    }

    /// The image of an operand's list of `own` places in a product: `high`
    /// combinations run slower than it, `low` combinations run faster.
    pub fn within(mut self, high: u32, own: u32, low: u32) -> Image {
        let step = self.stride;
        self.stride = step * low;
        self.add(low, step);
        self.add(high, step * low * own);
        self
    }

    fn add(&mut self, count: u32, stride: u32) {
        if count == 1 {
            return;
        }
        let dim = (count as u16, stride as u16);
        let mut spot = self.free;
        while spot > 0 && self.dims[spot - 1].1 > dim.1 {
            self.dims[spot] = self.dims[spot - 1];
            spot -= 1;
        }
        self.dims[spot] = dim;
        self.free += 1;
    }

    /// The lowest place that holds the list's first place.
    pub fn first(&self) -> u32 {
        self.base
    }

    /// How many places hold the list's first place.
    pub fn count(&self) -> usize {
        self.dims[..self.free].iter().map(|dim| usize::from(dim.0)).product()
    }

    /// Writes the places that hold the list's first place to the front of
    /// `places`, rising, and answers how many there are.
    pub fn write(&self, places: &mut [u16]) -> usize {
        places[0] = self.base as u16;
        let mut filled = 1;
        for &(count, stride) in &self.dims[..self.free] {
            let end = filled * usize::from(count);
            let places = &mut places[..end];
            if filled == 1 {
                let mut next = places[0];
                for place in &mut places[1..] {
                    next += stride;
                    *place = next;
                }
            } else {
                let (done, rest) = places.split_at_mut(filled);
                let mut shift = 0;
                for block in rest.chunks_exact_mut(filled) {
                    shift += stride;
                    for (to, from) in block.iter_mut().zip(&*done) {
                        *to = from + shift;
                    }
                }
            }
            filled = end;
        }
        filled
    }
}
