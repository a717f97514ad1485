//! A picture as rows, as it stands in a text, and the tests that make it a lawful one.

use crate::faults::Fault;
use crate::reader::{Read, Reader};

/// Lists of numbers, one behind the other.
#[derive(Default)]
pub struct Lists {
    items: Vec<u32>,
    ends: Vec<usize>,
}

impl Lists {
    pub fn len(&self) -> usize {
        self.ends.len()
    }

    pub fn get(&self, place: usize) -> &[u32] {
        let first = if place == 0 { 0 } else { self.ends[place - 1] };
        &self.items[first..self.ends[place]]
    }

    fn clear(&mut self) {
        self.items.clear();
        self.ends.clear();
    }

    /// Drops what was read of a list that has not ended.
    fn restart(&mut self) {
        self.items.truncate(self.ends.last().copied().unwrap_or(0));
    }

    fn end_list(&mut self) {
        self.ends.push(self.items.len());
    }
}

#[derive(Clone, Copy, PartialEq, Eq)]
pub enum Sign {
    LeftToRight,
    RightToLeft,
}

#[derive(Clone, Copy, Default)]
pub struct EdgeRow {
    pub id: u32,
    pub a: u32,
    pub b: u32,
    pub kind: u32,
}

#[derive(Clone, Copy)]
pub struct CrossRow {
    pub id: u32,
    pub crossed: u32,
    pub newcomer: u32,
    pub sign: Sign,
}

#[derive(Default)]
pub struct Rows {
    pub rotations: Lists,
    pub edges: Vec<EdgeRow>,
    /// The crossings of each edge, from `a` to `b`.
    pub paths: Lists,
    pub crossings: Vec<CrossRow>,
    pub next_crossing: u32,
    pub next_edge: u32,
}

#[derive(Clone, Copy)]
pub struct Limits {
    pub crossings: u32,
    pub edges: u32,
    pub vertices: u32,
}

impl Limits {
    pub const GREATEST: Limits = Limits {
        crossings: 1_048_576,
        edges: 65_536,
        vertices: 65_536,
    };

    pub fn read(reader: &mut Reader) -> Read<Limits> {
        let mut limits = Limits::GREATEST;
        reader.whole_object(&["crossings", "edges", "vertices"], |reader, place| {
            let number = reader.number()?;
            match place {
                0 => limits.crossings = number,
                1 => limits.edges = number,
                _ => limits.vertices = number,
            }
            Ok(())
        })?;
        Ok(limits)
    }

    pub fn judge(&self) -> Read<()> {
        let greatest = Limits::GREATEST;
        if (2..=greatest.vertices).contains(&self.vertices)
            && (1..=greatest.edges).contains(&self.edges)
            && self.crossings <= greatest.crossings
        {
            Ok(())
        } else {
            Err(Fault::BAD_LIMITS)
        }
    }
}

/// Stands in a table for what is not there.
const NONE: u32 = u32::MAX;

/// Where the rows of a picture stand, by their ids, and where each crossing stands on its two
/// paths.
pub struct Places {
    /// By the id of an edge, the place of its row.
    pub edges: Vec<u32>,
    /// By the row of an edge, the number of its first segment, where all segments are numbered
    /// along one edge after another.
    pub first_segments: Vec<u32>,
    /// By the row of a crossing, the segment before it on the crossed edge and on the newcomer.
    pub segments_before: Vec<[u32; 2]>,
    pub segments: u32,
}

impl Rows {
    pub fn seed() -> Rows {
        let mut rows = Rows {
            next_edge: 1,
            ..Rows::default()
        };
        for _ in 0..2 {
            rows.rotations.items.push(0);
            rows.rotations.end_list();
        }
        rows.edges.push(EdgeRow {
            b: 1,
            ..EdgeRow::default()
        });
        rows.paths.end_list();
        rows
    }

    pub fn read(reader: &mut Reader) -> Read<Rows> {
        let mut rows = Rows::default();
        reader.whole_object(
            &[
                "crossings",
                "edges",
                "next_crossing",
                "next_edge",
                "rotations",
            ],
            |reader, place| {
                match place {
                    0 => rows.read_crossings(reader)?,
                    1 => rows.read_edges(reader)?,
                    2 => rows.next_crossing = reader.number()?,
                    3 => rows.next_edge = reader.number()?,
                    _ => {
                        let rotations = &mut rows.rotations;
                        rotations.clear();
                        reader.array(|reader| {
                            reader.numbers(&mut rotations.items)?;
                            rotations.end_list();
                            Ok(())
                        })?;
                    }
                }
                Ok(())
            },
        )?;
        Ok(rows)
    }

    fn read_crossings(&mut self, reader: &mut Reader) -> Read<()> {
        self.crossings.clear();
        reader.array(|reader| {
            let mut row = CrossRow {
                id: 0,
                crossed: 0,
                newcomer: 0,
                sign: Sign::LeftToRight,
            };
            reader.whole_object(&["crossed", "id", "newcomer", "sign"], |reader, place| {
                match place {
                    0 => row.crossed = reader.number()?,
                    1 => row.id = reader.number()?,
                    2 => row.newcomer = reader.number()?,
                    _ => {
                        row.sign = match &*reader.text()? {
                            b"ltr" => Sign::LeftToRight,
                            b"rtl" => Sign::RightToLeft,
                            _ => return Err(Fault::BAD_SHAPE),
                        }
                    }
                }
                Ok(())
            })?;
            self.crossings.push(row);
            Ok(())
        })
    }

    fn read_edges(&mut self, reader: &mut Reader) -> Read<()> {
        self.edges.clear();
        self.paths.clear();
        reader.array(|reader| {
            let mut row = EdgeRow::default();
            reader.whole_object(&["a", "b", "crossings", "id", "kind"], |reader, place| {
                match place {
                    0 => row.a = reader.number()?,
                    1 => row.b = reader.number()?,
                    2 => {
                        self.paths.restart();
                        reader.numbers(&mut self.paths.items)?;
                    }
                    3 => row.id = reader.number()?,
                    _ => row.kind = reader.number()?,
                }
                Ok(())
            })?;
            self.edges.push(row);
            self.paths.end_list();
            Ok(())
        })
    }

    /// All tests but Euler's formula, in the order in which faults are told.
    pub fn judge(&self, limits: &Limits) -> Read<Places> {
        if self.rotations.len() > limits.vertices as usize
            || self.next_edge > limits.edges
            || self.next_crossing > limits.crossings
        {
            return Err(Fault::TOO_MANY);
        }
        let crossing_places = self.judge_paths()?;
        let places = self.judge_crossings(&crossing_places)?;
        self.judge_rotations(&places)?;
        self.judge_connected(&places)?;
        Ok(places)
    }

    /// By the ids below the next one, the rows of crossings.
    fn judge_paths(&self) -> Read<Vec<u32>> {
        let mut places = vec![NONE; self.next_crossing as usize];
        let mut others = Vec::new();
        for (place, row) in self.crossings.iter().enumerate() {
            match places.get_mut(row.id as usize) {
                Some(found) => *found = place as u32,
                None => others.push(row.id),
            }
        }
        others.sort_unstable();
        let is_there = |x: &u32| match places.get(*x as usize) {
            Some(place) => *place != NONE,
            None => others.binary_search(x).is_ok(),
        };
        let vertices = self.rotations.len() as u32;
        let mut least = 0;
        for (place, row) in self.edges.iter().enumerate() {
            let is_good = row.id >= least
                && row.id < self.next_edge
                && row.a < vertices
                && row.b < vertices
                && row.a != row.b
                && row.kind < 64;
            if !is_good || !self.paths.get(place).iter().all(is_there) {
                return Err(Fault::BAD_PATH);
            }
            least = row.id + 1;
        }
        Ok(places)
    }

    fn judge_crossings(&self, crossing_places: &[u32]) -> Read<Places> {
        let mut edges = vec![NONE; self.next_edge as usize];
        for (place, row) in self.edges.iter().enumerate() {
            edges[row.id as usize] = place as u32;
        }
        let is_edge = |id: u32| edges.get(id as usize).is_some_and(|place| *place != NONE);
        let mut least = 0;
        for row in &self.crossings {
            if row.id < least
                || row.id >= self.next_crossing
                || row.crossed == row.newcomer
                || !is_edge(row.crossed)
                || !is_edge(row.newcomer)
            {
                return Err(Fault::BAD_CROSSING);
            }
            least = row.id + 1;
        }
        let mut first_segments = Vec::with_capacity(self.edges.len());
        let mut segments_before = vec![[NONE; 2]; self.crossings.len()];
        let mut segment = 0;
        for (place, edge) in self.edges.iter().enumerate() {
            first_segments.push(segment);
            for x in self.paths.get(place) {
                let crossing_place = crossing_places[*x as usize] as usize;
                let row = &self.crossings[crossing_place];
                let side = if row.crossed == edge.id {
                    0
                } else if row.newcomer == edge.id {
                    1
                } else {
                    return Err(Fault::BAD_CROSSING);
                };
                let before = &mut segments_before[crossing_place][side];
                if *before != NONE {
                    return Err(Fault::BAD_CROSSING);
                }
                *before = segment;
                segment += 1;
            }
            segment += 1;
        }
        if segments_before
            .iter()
            .any(|before| before[0] == NONE || before[1] == NONE)
        {
            return Err(Fault::BAD_CROSSING);
        }
        Ok(Places {
            edges,
            first_segments,
            segments_before,
            segments: segment,
        })
    }

    fn judge_rotations(&self, places: &Places) -> Read<()> {
        let mut seen = vec![[false; 2]; self.edges.len()];
        let mut ends = 0;
        for v in 0..self.rotations.len() {
            let around = self.rotations.get(v);
            for e in around {
                let place = places.edges.get(*e as usize).copied().unwrap_or(NONE);
                if place == NONE || *e < around[0] {
                    return Err(Fault::BAD_ROTATION);
                }
                let row = &self.edges[place as usize];
                let side = if row.a as usize == v {
                    0
                } else if row.b as usize == v {
                    1
                } else {
                    return Err(Fault::BAD_ROTATION);
                };
                if std::mem::replace(&mut seen[place as usize][side], true) {
                    return Err(Fault::BAD_ROTATION);
                }
                ends += 1;
            }
        }
        if ends == 2 * self.edges.len() {
            Ok(())
        } else {
            Err(Fault::BAD_ROTATION)
        }
    }

    /// Edges are joined where they meet at a vertex or cross.
    fn judge_connected(&self, places: &Places) -> Read<()> {
        let mut joined = Joined::new(self.edges.len());
        let mut parts = self.edges.len();
        let place_of = |e: u32| places.edges[e as usize];
        for v in 0..self.rotations.len() {
            let around = self.rotations.get(v);
            if around.is_empty() {
                return Err(Fault::NOT_CONNECTED);
            }
            for pair in around.windows(2) {
                parts -= usize::from(joined.join(place_of(pair[0]), place_of(pair[1])));
            }
        }
        for row in &self.crossings {
            parts -= usize::from(joined.join(place_of(row.crossed), place_of(row.newcomer)));
        }
        if parts <= 1 {
            Ok(())
        } else {
            Err(Fault::NOT_CONNECTED)
        }
    }
}

/// Classes of numbers that are joined step by step: each number leads to another of its class or to
/// itself.
pub struct Joined {
    leads_to: Vec<u32>,
}

impl Joined {
    pub fn new(count: usize) -> Joined {
        Joined {
            leads_to: (0..count as u32).collect(),
        }
    }

    /// Makes room for so many numbers, each a class of its own.
    pub fn make_room(&mut self, count: usize) {
        for number in self.leads_to.len()..count {
            self.leads_to.push(number as u32);
        }
    }

    /// The number that a class is named by.
    pub fn class(&mut self, mut number: u32) -> u32 {
        loop {
            let above = self.leads_to[number as usize];
            if above == number {
                return number;
            }
            let beyond = self.leads_to[above as usize];
            self.leads_to[number as usize] = beyond;
            number = beyond;
        }
    }

    /// Joins the class named by x to the one named by y.
    pub fn lead(&mut self, x: u32, y: u32) {
        self.leads_to[x as usize] = y;
    }

    /// Joins two classes. Says whether they were two.
    pub fn join(&mut self, x: u32, y: u32) -> bool {
        let (x, y) = (self.class(x), self.class(y));
        self.lead(x, y);
        x != y
    }

    /// Makes a number a class of its own again. All others of its class have to be made so too.
    pub fn part(&mut self, number: u32) {
        self.leads_to[number as usize] = number;
    }
}
