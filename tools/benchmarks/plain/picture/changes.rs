//! Growths, insertions and deletions.

use super::embedding::relabel;
use super::{
    place_in, segment_of, twin, Corner, Crossing, Ends, Face, Half, Outer, Passage, Path, Picture,
    NO_KIND,
};
use crate::rows::Sign;
use std::collections::VecDeque;

impl Picture {
    /// A new vertex on a new edge in the corner at a place of u.
    pub fn grow(&mut self, u: u32, place: usize, kind: u8) {
        let edge = self.next_edge();
        let vertex = self.vertex_count();
        self.kinds.push(kind);
        self.paths.push(Path::default());
        let corner = self.corner(u, place);
        let segment = self.new_segment(edge);
        self.ends.push(Ends {
            a: u,
            b: vertex,
            first: segment,
            last: segment,
        });
        let half = 2 * segment;
        let face = self.halves[corner.leaves as usize].face;
        self.set_next(corner.arrives, half);
        self.halves[half as usize] = Half {
            next: twin(half),
            face,
        };
        self.halves[twin(half) as usize] = Half {
            next: corner.leaves,
            face,
        };
        self.faces[face as usize].size += 2;
        self.put_round(u, place, edge);
        self.rotations.push(VecDeque::from([edge]));
    }

    /// A new edge from u to v across half-edges, each in the face that the one before leads to.
    pub fn insert(&mut self, u: u32, v: u32, kind: u8, start: usize, crossed: &[u32], end: usize) {
        let edge = self.next_edge();
        self.kinds.push(kind);
        self.paths.push(Path::default());
        self.ends.push(Ends {
            a: u,
            b: v,
            first: 0,
            last: 0,
        });
        let mut path = Path {
            crossings: Vec::with_capacity(crossed.len()),
            segments: Vec::with_capacity(crossed.len()),
        };
        let mut behind = None;
        for half in crossed {
            let crossing = self.next_crossing();
            let sign = if half % 2 == 0 {
                Sign::LeftToRight
            } else {
                Sign::RightToLeft
            };
            self.crossings.push(Crossing {
                crossed: self.edge_of(*half),
                newcomer: edge,
                sign,
            });
            let passage = self.cross(*half, crossing);
            self.lead(edge, behind, start, passage.near, &mut path);
            path.crossings.push(crossing);
            behind = Some(passage.far);
        }
        let corner = self.corner(v, end);
        self.lead(edge, behind, start, corner, &mut path);
        self.put_round(v, end, edge);
        self.ends[edge as usize].last = *path
            .segments
            .last()
            .unwrap_or(&self.ends[edge as usize].first);
        self.paths[edge as usize] = path;
    }

    /// Leads a new edge on to a corner: from the corner behind its last crossing, or from its
    /// start.
    fn lead(
        &mut self,
        edge: u32,
        behind: Option<Corner>,
        start: usize,
        to: Corner,
        path: &mut Path,
    ) {
        let segment = self.new_segment(edge);
        match behind {
            Some(from) => {
                path.segments.push(segment);
                self.chord(2 * segment, from, to);
            }
            None => {
                let u = self.ends[edge as usize].a;
                self.ends[edge as usize].first = segment;
                self.chord(2 * segment, self.corner(u, start), to);
                self.put_round(u, start, edge);
            }
        }
    }

    /// Puts a half-edge and its twin between two corners of one face, which they part.
    fn chord(&mut self, half: u32, from: Corner, to: Corner) {
        let old = self.halves[to.leaves as usize].face;
        self.set_next(from.arrives, half);
        self.set_next(half, to.leaves);
        self.set_next(to.arrives, twin(half));
        self.set_next(twin(half), from.leaves);
        // round both parts at once, so that the smaller one decides what it costs
        let (mut here, mut there) = (half, twin(half));
        let mut size = 0;
        let smaller = loop {
            here = self.next(here);
            there = self.next(there);
            size += 1;
            if here == half {
                break half;
            }
            if there == twin(half) {
                break twin(half);
            }
        };
        let label = self.new_label();
        relabel(&mut self.halves, smaller, label);
        self.halves[twin(smaller) as usize].face = old;
        let whole = self.faces[old as usize].size + 2;
        self.faces[label as usize] = Face {
            half: smaller,
            size,
        };
        self.faces[old as usize] = Face {
            half: twin(smaller),
            size: whole - size,
        };
    }

    /// Puts a crossing on the segment of a half-edge.
    fn cross(&mut self, half: u32, crossing: u32) -> Passage {
        let old = segment_of(half);
        let edge = self.edge_of[old as usize];
        let place = self.place_of(half) as usize;
        let outer = self.before_outer(edge, place, place);
        let new = self.new_segment(edge);
        for (fresh, known) in [(2 * new, 2 * old), (2 * new + 1, 2 * old + 1)] {
            let face = self.halves[known as usize].face;
            self.halves[fresh as usize].face = face;
            self.faces[face as usize].size += 1;
        }
        // what arrives may be a half-edge of this segment, at a vertex with no other, so it comes first
        let (before, behind) = match outer {
            // the new segment lies behind the crossing
            Outer::Behind(arrives) => {
                self.set_next(arrives, 2 * new + 1);
                self.set_next(2 * new, self.next(2 * old));
                (old, new)
            }
            // the new segment lies before it
            Outer::Before(arrives) => {
                self.set_next(arrives, 2 * new);
                self.set_next(2 * new + 1, self.next(2 * old + 1));
                (new, old)
            }
        };
        self.set_next(2 * before, 2 * behind);
        self.set_next(2 * behind + 1, 2 * before + 1);
        let ends = &mut self.ends[edge as usize];
        let path = &mut self.paths[edge as usize];
        path.crossings.insert(place, crossing);
        path.segments.insert(place, behind);
        if place == 0 {
            ends.first = before;
        } else {
            path.segments[place - 1] = before;
        }
        if place + 1 == path.crossings.len() {
            ends.last = behind;
        }
        let forward = Corner {
            arrives: 2 * before,
            leaves: 2 * behind,
        };
        let back = Corner {
            arrives: 2 * behind + 1,
            leaves: 2 * before + 1,
        };
        if half % 2 == 0 {
            Passage {
                near: forward,
                far: back,
            }
        } else {
            Passage {
                near: back,
                far: forward,
            }
        }
    }

    /// Takes out an edge, or tells its first segment that holds the picture together where the
    /// segments before it are out.
    pub fn delete(&mut self, edge: u32) -> Result<(), u32> {
        self.join_sides(edge)?;
        self.label_joined(edge);
        let path = std::mem::take(&mut self.paths[edge as usize]);
        let ends = self.ends[edge as usize];
        let neighbour = self.unlink(ends.a, edge, 2 * ends.first);
        self.unlink(ends.b, edge, 2 * ends.last + 1);
        let half = self.leaves(ends.a, neighbour);
        self.set_any_half(half);
        for crossing in &path.crossings {
            self.smooth(*crossing, edge);
        }
        self.kinds[edge as usize] = NO_KIND;
        self.free_segments.push(ends.first);
        self.free_segments.extend(&path.segments);
        Ok(())
    }

    /// The faces on both sides of each segment of an edge become one class each, which is named by
    /// its largest face. A segment with one class on both sides is a cut: then all classes are
    /// parted again.
    fn join_sides(&mut self, edge: u32) -> Result<(), u32> {
        self.joined.make_room(self.faces.len());
        let count = self.paths[edge as usize].crossings.len() + 1;
        let sides = |picture: &Picture, place: usize| {
            let half = 2 * picture.segment_at(edge, place) as usize;
            (picture.halves[half].face, picture.halves[half + 1].face)
        };
        for place in 0..count {
            let (left, right) = sides(self, place);
            let (left, right) = (self.joined.class(left), self.joined.class(right));
            if left == right {
                for before in 0..place {
                    let (left, right) = sides(self, before);
                    self.joined.part(left);
                    self.joined.part(right);
                }
                return Err(place as u32);
            }
            let (smaller, larger) =
                if self.faces[left as usize].size < self.faces[right as usize].size {
                    (left, right)
                } else {
                    (right, left)
                };
            self.joined.lead(smaller, larger);
        }
        Ok(())
    }

    /// Labels the faces on the sides of an edge by their classes, which are parted then, and counts
    /// their half-edges without those of the edge.
    fn label_joined(&mut self, edge: u32) {
        let first_free = self.free_labels.len();
        for place in 0..=self.paths[edge as usize].crossings.len() {
            let segment = self.segment_at(edge, place);
            for half in [2 * segment, 2 * segment + 1] {
                let label = self.halves[half as usize].face;
                let class = self.joined.class(label);
                if label != class {
                    self.faces[class as usize].size += relabel(&mut self.halves, half, class);
                    self.free_labels.push(label);
                }
                self.faces[class as usize].size -= 1;
            }
        }
        for label in &self.free_labels[first_free..] {
            self.joined.part(*label);
        }
    }

    /// Notes that a half-edge lies in its face.
    fn set_any_half(&mut self, half: u32) {
        let face = self.halves[half as usize].face;
        self.faces[face as usize].half = half;
    }

    /// Takes an edge out at one of its ends. The answer is the edge that stood behind it there.
    fn unlink(&mut self, v: u32, edge: u32, half: u32) -> u32 {
        let place = self.place_round(v, edge);
        let corner = self.corner(v, place);
        self.set_next(corner.arrives, self.next(twin(half)));
        let around = &self.rotations[v as usize];
        let neighbour = around[if place + 1 == around.len() {
            0
        } else {
            place + 1
        }];
        self.take_from(v, place);
        neighbour
    }

    /// Takes a crossing of an edge that goes out of the path of the other edge, whose two segments
    /// there become one.
    fn smooth(&mut self, crossing: u32, going: u32) {
        let row = std::mem::replace(&mut self.crossings[crossing as usize], Crossing::NONE);
        let edge = if row.crossed == going {
            row.newcomer
        } else {
            row.crossed
        };
        let place = place_in(&self.paths[edge as usize].crossings, crossing);
        let (before, behind) = (
            self.segment_at(edge, place),
            self.segment_at(edge, place + 1),
        );
        // as in a crossing that is put in, what arrives comes first
        let (kept, gone) = match self.before_outer(edge, place, place + 1) {
            Outer::Behind(arrives) => {
                self.set_next(arrives, 2 * before + 1);
                self.set_next(2 * before, self.next(2 * behind));
                (before, behind)
            }
            Outer::Before(arrives) => {
                self.set_next(arrives, 2 * behind);
                self.set_next(2 * behind + 1, self.next(2 * before + 1));
                (behind, before)
            }
        };
        for side in [0, 1] {
            let face = self.halves[(2 * gone + side) as usize].face;
            self.faces[face as usize].size -= 1;
            self.set_any_half(2 * kept + side);
        }
        self.free_segments.push(gone);
        let ends = &mut self.ends[edge as usize];
        let path = &mut self.paths[edge as usize];
        path.crossings.remove(place);
        path.segments.remove(place);
        if place == 0 {
            ends.first = kept;
        } else {
            path.segments[place - 1] = kept;
        }
        if place == path.crossings.len() {
            ends.last = kept;
        }
    }
}
