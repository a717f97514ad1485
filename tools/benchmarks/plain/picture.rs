//! A picture: its rows, kept by id, and the half-edges of its segments, which know the next one
//! along their face and the label of that face.

mod changes;
mod embedding;
mod texts;

use crate::reader::Read;
use crate::rows::{Joined, Limits, Rows, Sign};
pub use embedding::count_faces;
use embedding::embed;
use std::collections::VecDeque;

/// The kind of an edge that is not there.
const NO_KIND: u8 = u8::MAX;

/// What a crossing that is not there crosses.
const NO_EDGE: u32 = u32::MAX;

/// Half-edges 2s and 2s + 1 are those of segment s: the first leads from the end `a` of its edge
/// towards `b`, the other back.
#[derive(Clone, Copy)]
pub struct Half {
    /// The next one along the face on the left.
    pub next: u32,
    /// The label of that face.
    pub face: u32,
}

/// The ends of an edge, and its first and its last segment.
#[derive(Clone, Copy)]
struct Ends {
    a: u32,
    b: u32,
    first: u32,
    last: u32,
}

/// The crossings of an edge from `a` to `b`, and the segment behind each.
#[derive(Default)]
struct Path {
    crossings: Vec<u32>,
    segments: Vec<u32>,
}

#[derive(Clone, Copy)]
struct Crossing {
    crossed: u32,
    newcomer: u32,
    sign: Sign,
}

impl Crossing {
    const NONE: Crossing = Crossing {
        crossed: NO_EDGE,
        newcomer: NO_EDGE,
        sign: Sign::LeftToRight,
    };
}

/// Any half-edge of a face, and how many it has.
#[derive(Clone, Copy)]
pub struct Face {
    pub half: u32,
    size: u32,
}

/// Where the twin of a new half-edge can be put: the half-edge that arrives there, and the one that
/// leaves behind it along the same face.
#[derive(Clone, Copy)]
struct Corner {
    arrives: u32,
    leaves: u32,
}

/// The two corners at a new crossing: in the face that the crossed half-edge lies in, and in that
/// of its twin.
struct Passage {
    near: Corner,
    far: Corner,
}

/// The half-edge that leads to one at the outer end of some segments of an edge.
enum Outer {
    /// To the one that starts behind the last of them and leads back.
    Behind(u32),
    /// To the one that starts before the first of them and leads forward.
    Before(u32),
}

pub struct Picture {
    /// The edges round each vertex, clockwise, from the least id on.
    rotations: Vec<VecDeque<u32>>,
    // by the id of an edge
    kinds: Vec<u8>,
    ends: Vec<Ends>,
    paths: Vec<Path>,
    // by the id of a crossing
    crossings: Vec<Crossing>,
    halves: Vec<Half>,
    // by segment
    edge_of: Vec<u32>,
    price_of: Vec<u16>,
    free_segments: Vec<u32>,
    // by label
    faces: Vec<Face>,
    free_labels: Vec<u32>,
    /// The faces that a deletion joins, and else each for itself.
    joined: Joined,
    /// By kind. Edges with price 0 are never crossed.
    prices: [u16; 64],
}

pub fn twin(half: u32) -> u32 {
    half ^ 1
}

pub fn segment_of(half: u32) -> u32 {
    half / 2
}

/// The place of a number in a list, or its length where it has none. Blocks are looked through at
/// once.
fn place_in(list: &[u32], number: u32) -> usize {
    const BLOCK: usize = 16;
    let has_number = |block: &[u32]| {
        block
            .iter()
            .fold(false, |found, other| found | (*other == number))
    };
    let blocks = list
        .chunks_exact(BLOCK)
        .position(has_number)
        .unwrap_or(list.len() / BLOCK);
    let at = blocks * BLOCK;
    list[at..]
        .iter()
        .position(|other| *other == number)
        .map_or(list.len(), |beyond| at + beyond)
}

impl Picture {
    pub fn load(rows: &Rows, limits: &Limits, prices: [u16; 64]) -> Read<Picture> {
        let (places, halves, faces) = embed(rows, limits)?;
        let edge_count = rows.next_edge as usize;
        let segment_count = places.segments as usize;
        let mut picture = Picture {
            rotations: (0..rows.rotations.len())
                .map(|v| rows.rotations.get(v).to_vec().into())
                .collect(),
            kinds: vec![NO_KIND; edge_count],
            ends: vec![
                Ends {
                    a: 0,
                    b: 0,
                    first: 0,
                    last: 0
                };
                edge_count
            ],
            paths: Vec::new(),
            crossings: vec![Crossing::NONE; rows.next_crossing as usize],
            halves,
            edge_of: Vec::with_capacity(segment_count),
            price_of: Vec::with_capacity(segment_count),
            free_segments: Vec::new(),
            joined: Joined::new(faces.len()),
            faces,
            free_labels: Vec::new(),
            prices,
        };
        picture.paths.resize_with(edge_count, Path::default);
        for (place, row) in rows.edges.iter().enumerate() {
            let id = row.id as usize;
            let first = places.first_segments[place];
            let crossings = rows.paths.get(place);
            let last = first + crossings.len() as u32;
            picture.kinds[id] = row.kind as u8;
            picture.ends[id] = Ends {
                a: row.a,
                b: row.b,
                first,
                last,
            };
            picture.paths[id] = Path {
                crossings: crossings.to_vec(),
                segments: (first + 1..=last).collect(),
            };
            picture.edge_of.resize(last as usize + 1, row.id);
            picture
                .price_of
                .resize(last as usize + 1, prices[row.kind as usize]);
        }
        for row in &rows.crossings {
            picture.crossings[row.id as usize] = Crossing {
                crossed: row.crossed,
                newcomer: row.newcomer,
                sign: row.sign,
            };
        }
        Ok(picture)
    }

    // ---- What is there

    pub fn vertex_count(&self) -> u32 {
        self.rotations.len() as u32
    }

    pub fn next_edge(&self) -> u32 {
        self.kinds.len() as u32
    }

    pub fn next_crossing(&self) -> u32 {
        self.crossings.len() as u32
    }

    pub fn has_edge(&self, edge: u32) -> bool {
        self.kinds
            .get(edge as usize)
            .is_some_and(|kind| *kind != NO_KIND)
    }

    pub fn rotation(&self, v: u32) -> &VecDeque<u32> {
        &self.rotations[v as usize]
    }

    pub fn halves(&self) -> &[Half] {
        &self.halves
    }

    pub fn faces(&self) -> &[Face] {
        &self.faces
    }

    /// The prices of all segments.
    pub fn prices(&self) -> &[u16] {
        &self.price_of
    }

    pub fn edge_of(&self, half: u32) -> u32 {
        self.edge_of[segment_of(half) as usize]
    }

    /// The half-edge of an edge that starts at its end v.
    pub fn leaves(&self, v: u32, edge: u32) -> u32 {
        let ends = &self.ends[edge as usize];
        if ends.a == v {
            2 * ends.first
        } else {
            2 * ends.last + 1
        }
    }

    /// The face of the corner before an edge at its end v.
    pub fn corner_face(&self, v: u32, edge: u32) -> u32 {
        self.halves[self.leaves(v, edge) as usize].face
    }

    /// Which segment of its edge a half-edge lies on, counted from the end `a`.
    pub fn place_of(&self, half: u32) -> u32 {
        let segment = segment_of(half);
        let edge = self.edge_of[segment as usize] as usize;
        if self.ends[edge].first == segment {
            0
        } else {
            place_in(&self.paths[edge].segments, segment) as u32 + 1
        }
    }

    fn segment_at(&self, edge: u32, place: usize) -> u32 {
        if place == 0 {
            self.ends[edge as usize].first
        } else {
            self.paths[edge as usize].segments[place - 1]
        }
    }

    // ---- Room in the tables

    fn new_segment(&mut self, edge: u32) -> u32 {
        let price = self.prices[self.kinds[edge as usize] as usize];
        match self.free_segments.pop() {
            Some(segment) => {
                self.edge_of[segment as usize] = edge;
                self.price_of[segment as usize] = price;
                segment
            }
            None => {
                let segment = self.edge_of.len() as u32;
                self.edge_of.push(edge);
                self.price_of.push(price);
                let half = Half { next: 0, face: 0 };
                self.halves.extend([half, half]);
                segment
            }
        }
    }

    fn new_label(&mut self) -> u32 {
        self.free_labels.pop().unwrap_or_else(|| {
            self.faces.push(Face { half: 0, size: 0 });
            self.faces.len() as u32 - 1
        })
    }

    fn next(&self, half: u32) -> u32 {
        self.halves[half as usize].next
    }

    fn set_next(&mut self, half: u32, next: u32) {
        self.halves[half as usize].next = next;
    }

    // ---- Corners and rotations

    fn place_round(&self, v: u32, edge: u32) -> usize {
        let (front, back) = self.rotations[v as usize].as_slices();
        let place = place_in(front, edge);
        if place < front.len() {
            place
        } else {
            place + place_in(back, edge)
        }
    }

    /// The corner before a place of a vertex's list.
    fn corner(&self, v: u32, place: usize) -> Corner {
        let around = &self.rotations[v as usize];
        let before = if place == 0 {
            around.len() - 1
        } else {
            place - 1
        };
        Corner {
            arrives: twin(self.leaves(v, around[before])),
            leaves: self.leaves(v, around[place]),
        }
    }

    /// Puts a new edge, whose id is the greatest, into the corner at a place.
    fn put_round(&mut self, v: u32, place: usize, edge: u32) {
        let around = &mut self.rotations[v as usize];
        if place == 0 {
            around.push_back(edge);
        } else {
            around.insert(place, edge);
        }
    }

    /// Takes an edge out of a vertex's list, which begins with its least id again.
    fn take_from(&mut self, v: u32, place: usize) {
        let Some(edge) = self.rotations[v as usize].remove(place) else {
            return;
        };
        if place > 0 {
            return;
        }
        let around = &self.rotations[v as usize];
        // all others are greater, so the least may be one of the next ids
        let ends_here = |other: &u32| {
            let ends = &self.ends[*other as usize];
            self.has_edge(*other) && (ends.a == v || ends.b == v)
        };
        let mut next = (edge + 1..self.next_edge()).take(around.len());
        let least = next.find(ends_here).unwrap_or_else(|| {
            around
                .iter()
                .fold(u32::MAX, |least, other| least.min(*other))
        });
        if around.back() == Some(&least) {
            self.rotations[v as usize].rotate_right(1);
        } else {
            let first = self.place_round(v, least);
            self.rotations[v as usize].rotate_left(first);
        }
    }

    /// The half-edge before one that starts at a crossing, along its face.
    fn before_at_crossing(&self, half: u32) -> u32 {
        let mut around = half;
        for _ in 0..3 {
            around = self.next(twin(around));
        }
        twin(around)
    }

    /// The half-edge before the one of an edge that starts at its end v, along its face.
    fn before_at_end(&self, v: u32, edge: u32) -> u32 {
        self.corner(v, self.place_round(v, edge)).arrives
    }

    /// Where a segment of an edge is parted, or some become one, the half-edge that starts at one
    /// of their outer ends gets another number, so that what leads to it has to be told. Either end
    /// will do. At a crossing the answer is near, and at a vertex it takes a look along the list,
    /// so of two vertices the one with the shorter list is taken.
    fn before_outer(&self, edge: u32, first: usize, last: usize) -> Outer {
        let ends = self.ends[edge as usize];
        let degree = |v: u32| self.rotations[v as usize].len();
        if last < self.paths[edge as usize].crossings.len() {
            Outer::Behind(self.before_at_crossing(2 * self.segment_at(edge, last) + 1))
        } else if first > 0 {
            Outer::Before(self.before_at_crossing(2 * self.segment_at(edge, first)))
        } else if degree(ends.b) <= degree(ends.a) {
            Outer::Behind(self.before_at_end(ends.b, edge))
        } else {
            Outer::Before(self.before_at_end(ends.a, edge))
        }
    }
}
