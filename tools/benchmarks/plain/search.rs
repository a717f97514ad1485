//! The first of the cheapest routes between two vertices: a search over the faces from the target,
//! in buckets by distance.

use crate::picture::{segment_of, twin, Half, Picture};

/// The height of a face that no walk from the target has reached.
const UNREACHED: u32 = 1 << 31;

/// Prices are at most 1000, so heights that wait at the same time lie in as many buckets.
const BUCKETS: usize = 1024;

/// Faces that wait for their turn, by their heights.
struct BucketQueue {
    buckets: Vec<Vec<u32>>,
    /// A bit for each bucket that is not empty.
    filled: [u64; BUCKETS / 64],
}

impl BucketQueue {
    fn push(&mut self, height: u32, face: u32) {
        let bucket = height as usize % BUCKETS;
        self.buckets[bucket].push(face);
        self.filled[bucket / 64] |= 1 << (bucket % 64);
    }

    /// The least height from this one on that has a bucket which is not empty.
    fn next_height(&self, height: u32) -> Option<u32> {
        let bucket = height as usize % BUCKETS;
        let mut word = bucket / 64;
        let mut bits = self.filled[word] & (u64::MAX << (bucket % 64));
        for _ in 0..=self.filled.len() {
            if bits != 0 {
                let found = word * 64 + bits.trailing_zeros() as usize;
                return Some(height + ((found + BUCKETS - bucket) % BUCKETS) as u32);
            }
            word = (word + 1) % self.filled.len();
            bits = self.filled[word];
        }
        None
    }

    /// Empties a bucket. The list may be handed back, so that its memory serves again.
    fn take(&mut self, height: u32) -> Vec<u32> {
        let bucket = height as usize % BUCKETS;
        self.filled[bucket / 64] &= !(1 << (bucket % 64));
        std::mem::take(&mut self.buckets[bucket])
    }

    fn hand_back(&mut self, height: u32, mut faces: Vec<u32>) {
        faces.clear();
        self.buckets[height as usize % BUCKETS] = faces;
    }

    fn clear(&mut self) {
        for word in 0..self.filled.len() {
            let mut bits = std::mem::take(&mut self.filled[word]);
            while bits != 0 {
                self.buckets[word * 64 + bits.trailing_zeros() as usize].clear();
                bits &= bits - 1;
            }
        }
    }
}

pub struct Route {
    pub start: usize,
    pub end: usize,
    pub price: u32,
}

/// What searches write on. Between two searches all heights are `UNREACHED`, no face is a start,
/// and nothing waits.
pub struct Sheet {
    /// By the label of a face, the least cost of a walk from it to the target that is known.
    heights: Vec<u32>,
    is_start: Vec<bool>,
    /// The faces that have a height.
    reached: Vec<u32>,
    waiting: BucketQueue,
    /// The half-edges that the route found last crosses.
    pub crossed: Vec<u32>,
}

impl Sheet {
    pub fn new() -> Sheet {
        Sheet {
            heights: Vec::new(),
            is_start: Vec::new(),
            reached: Vec::new(),
            waiting: BucketQueue {
                buckets: vec![Vec::new(); BUCKETS],
                filled: [0; BUCKETS / 64],
            },
            crossed: Vec::new(),
        }
    }

    /// The first of the cheapest routes from u to v, if any has a cost.
    pub fn search(&mut self, picture: &Picture, u: u32, v: u32) -> Option<Route> {
        self.crossed.clear();
        let count = picture.faces().len();
        if self.heights.len() < count {
            self.heights.resize(count, UNREACHED);
            self.is_start.resize(count, false);
        }
        let route = self
            .search_without_crossing(picture, u, v)
            .or_else(|| self.search_across(picture, u, v));
        for face in self.reached.drain(..) {
            self.heights[face as usize] = UNREACHED;
        }
        route
    }

    /// A route that crosses nothing is the first of all. If there is none, the faces at v have
    /// their height then.
    fn search_without_crossing(&mut self, picture: &Picture, u: u32, v: u32) -> Option<Route> {
        let first = picture.corner_face(u, picture.rotation(u)[0]);
        for (end, edge) in picture.rotation(v).iter().enumerate() {
            let face = picture.corner_face(v, *edge);
            if face == first {
                return Some(Route {
                    start: 0,
                    end,
                    price: 0,
                });
            }
            if self.heights[face as usize] != 0 {
                self.heights[face as usize] = 0;
                self.reached.push(face);
            }
        }
        self.start_at_height(picture, u, v, 0)
    }

    /// The route from the first corner of u with this height down to v.
    fn start_at_height(&mut self, picture: &Picture, u: u32, v: u32, height: u32) -> Option<Route> {
        let is_lowest = |edge: &u32| self.heights[picture.corner_face(u, *edge) as usize] == height;
        let start = picture.rotation(u).iter().position(is_lowest)?;
        let face = self.follow_down(picture, picture.corner_face(u, picture.rotation(u)[start]));
        let end = picture
            .rotation(v)
            .iter()
            .position(|edge| picture.corner_face(v, *edge) == face)?;
        Some(Route {
            start,
            end,
            price: height,
        })
    }

    fn search_across(&mut self, picture: &Picture, u: u32, v: u32) -> Option<Route> {
        for edge in picture.rotation(u) {
            self.is_start[picture.corner_face(u, *edge) as usize] = true;
        }
        let height = self.spread(picture);
        for edge in picture.rotation(u) {
            self.is_start[picture.corner_face(u, *edge) as usize] = false;
        }
        self.waiting.clear();
        if height == UNREACHED {
            None
        } else {
            self.start_at_height(picture, u, v, height)
        }
    }

    /// Gives the faces their heights, in rising order, up to the lowest one at the start, whose
    /// height is the answer. Faces as high as that or higher may have been passed over.
    fn spread(&mut self, picture: &Picture) -> u32 {
        let halves = picture.halves();
        for face in &self.reached {
            self.waiting.push(0, picture.faces()[*face as usize].half);
        }
        let mut lowest = UNREACHED;
        let mut height = 0;
        while let Some(found) = self.waiting.next_height(height) {
            height = found;
            if height >= lowest {
                break;
            }
            let turn = self.waiting.take(height);
            for first in &turn {
                let Half { next, face } = halves[*first as usize];
                if self.heights[face as usize] != height {
                    continue;
                }
                if height == 0 {
                    // no lower face lies beyond
                    self.lower(picture, *first, 0, &mut lowest);
                }
                let mut half = next;
                while half != *first {
                    self.lower(picture, half, height, &mut lowest);
                    half = halves[half as usize].next;
                }
            }
            self.waiting.hand_back(height, turn);
        }
        lowest
    }

    /// Lowers the face beyond a half-edge of a face with this height.
    #[inline(always)]
    fn lower(&mut self, picture: &Picture, half: u32, height: u32, lowest: &mut u32) {
        let beyond = picture.halves()[twin(half) as usize].face;
        let known = &mut self.heights[beyond as usize];
        if *known <= height + 1 {
            return;
        }
        let price = u32::from(picture.prices()[segment_of(half) as usize]);
        let new = height + price;
        if price == 0 || new >= *known || new > *lowest {
            return;
        }
        if *known == UNREACHED {
            self.reached.push(beyond);
        }
        *known = new;
        if self.is_start[beyond as usize] {
            *lowest = new;
        }
        self.waiting.push(new, twin(half));
    }

    /// Crosses, face by face, the first half-edge in canonical order that leads down by its price.
    /// The answer is the last face.
    fn follow_down(&mut self, picture: &Picture, start: u32) -> u32 {
        let (halves, prices) = (picture.halves(), picture.prices());
        let mut face = start;
        loop {
            let height = self.heights[face as usize];
            if height == 0 {
                return face;
            }
            let first = picture.faces()[face as usize].half;
            let mut best = None;
            let mut half = first;
            loop {
                let beyond = halves[twin(half) as usize].face;
                let price = u32::from(prices[segment_of(half) as usize]);
                if price != 0
                    && self.heights[beyond as usize] + price == height
                    && best.is_none_or(|other| is_before(picture, half, other))
                {
                    best = Some(half);
                }
                half = halves[half as usize].next;
                if half == first {
                    break;
                }
            }
            let Some(half) = best else { return face };
            self.crossed.push(half);
            face = halves[twin(half) as usize].face;
        }
    }
}

/// By edge, then by segment, then forward before back.
fn is_before(picture: &Picture, half: u32, other: u32) -> bool {
    let (edge, other_edge) = (picture.edge_of(half), picture.edge_of(other));
    if edge != other_edge {
        return edge < other_edge;
    }
    (picture.place_of(half), half % 2) < (picture.place_of(other), other % 2)
}
