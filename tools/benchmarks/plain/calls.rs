//! Calls, the replies that a picture gives to them, and their texts.

use crate::faults::Fault;
use crate::picture::Picture;
use crate::reader::{Read, Reader};
use crate::rows::Limits;
use crate::search::Sheet;
use crate::writer::{push_long, push_number, push_text};

#[derive(Clone, Copy)]
pub enum Call {
    Grow { at: u32, position: u32, kind: u32 },
    Insert { from: u32, to: u32, kind: u32 },
    Delete { edge: u32 },
}

#[derive(Clone, Copy, PartialEq, Eq)]
pub enum Refusal {
    NoVertex,
    SameEnds,
    NoPosition,
    NoEdge,
    BadKind,
    Cut(u32),
    Full,
    NoRoute,
}

/// A crossed half-edge by its edge, its segment there and its way.
#[derive(Clone, Copy, PartialEq, Eq)]
pub struct Dart {
    pub edge: u32,
    pub segment: u32,
    pub is_forward: bool,
}

/// The darts that an inserted edge crosses stand in a list beside; here stands how many there are.
#[derive(Clone, Copy, PartialEq, Eq)]
pub enum Reply {
    Grown {
        edge: u32,
        vertex: u32,
    },
    Inserted {
        edge: u32,
        start: u32,
        end: u32,
        price: u64,
        crossed: usize,
    },
    Deleted {
        edge: u32,
    },
    Refused(Refusal),
}

/// A picture that answers calls.
pub struct Book {
    pub picture: Picture,
    limits: Limits,
    sheet: Sheet,
    /// The darts that the edge inserted last crosses.
    pub crossed: Vec<Dart>,
}

impl Book {
    pub fn new(picture: Picture, limits: Limits) -> Book {
        Book {
            picture,
            limits,
            sheet: Sheet::new(),
            crossed: Vec::new(),
        }
    }

    /// Carries out a call. What is refused changes nothing.
    pub fn answer(&mut self, call: Call) -> Reply {
        self.crossed.clear();
        let reply = match call {
            Call::Grow { at, position, kind } => self.grow(at, position, kind),
            Call::Insert { from, to, kind } => self.insert(from, to, kind),
            Call::Delete { edge } => self.delete(edge),
        };
        reply.unwrap_or_else(Reply::Refused)
    }

    fn has_vertex(&self, v: u32) -> bool {
        v < self.picture.vertex_count()
    }

    fn grow(&mut self, at: u32, position: u32, kind: u32) -> Result<Reply, Refusal> {
        let (vertex, edge) = (self.picture.vertex_count(), self.picture.next_edge());
        if !self.has_vertex(at) {
            return Err(Refusal::NoVertex);
        }
        if position as usize >= self.picture.rotation(at).len() {
            return Err(Refusal::NoPosition);
        }
        if kind > 63 {
            return Err(Refusal::BadKind);
        }
        if vertex >= self.limits.vertices || edge >= self.limits.edges {
            return Err(Refusal::Full);
        }
        self.picture.grow(at, position as usize, kind as u8);
        Ok(Reply::Grown { edge, vertex })
    }

    fn insert(&mut self, from: u32, to: u32, kind: u32) -> Result<Reply, Refusal> {
        let edge = self.picture.next_edge();
        if !self.has_vertex(from) || !self.has_vertex(to) {
            return Err(Refusal::NoVertex);
        }
        if from == to {
            return Err(Refusal::SameEnds);
        }
        if kind > 63 {
            return Err(Refusal::BadKind);
        }
        if edge >= self.limits.edges {
            return Err(Refusal::Full);
        }
        let route = self
            .sheet
            .search(&self.picture, from, to)
            .ok_or(Refusal::NoRoute)?;
        let halves = &self.sheet.crossed;
        if self.picture.next_crossing() as usize + halves.len() > self.limits.crossings as usize {
            return Err(Refusal::Full);
        }
        for half in halves {
            self.crossed.push(Dart {
                edge: self.picture.edge_of(*half),
                segment: self.picture.place_of(*half),
                is_forward: half % 2 == 0,
            });
        }
        self.picture
            .insert(from, to, kind as u8, route.start, halves, route.end);
        Ok(Reply::Inserted {
            edge,
            start: route.start as u32,
            end: route.end as u32,
            price: u64::from(route.price),
            crossed: halves.len(),
        })
    }

    fn delete(&mut self, edge: u32) -> Result<Reply, Refusal> {
        if !self.picture.has_edge(edge) {
            return Err(Refusal::NoEdge);
        }
        self.picture.delete(edge).map_err(Refusal::Cut)?;
        Ok(Reply::Deleted { edge })
    }
}

// ---- Texts

impl Call {
    /// A call, or where it may be, a planned insertion, which is carried out as any other.
    pub fn read(reader: &mut Reader, may_be_planned: bool) -> Read<Call> {
        reader.open()?;
        let name = reader.text()?;
        let mut next = || {
            reader.comma()?;
            reader.number()
        };
        let call = match &*name {
            b"grow" => Call::Grow {
                at: next()?,
                position: next()?,
                kind: next()?,
            },
            b"insert" => Call::Insert {
                from: next()?,
                to: next()?,
                kind: next()?,
            },
            b"planned" if may_be_planned => Call::Insert {
                from: next()?,
                to: next()?,
                kind: next()?,
            },
            b"delete" => Call::Delete { edge: next()? },
            _ => return Err(Fault::BAD_SHAPE),
        };
        reader.close()?;
        Ok(call)
    }

    pub fn write(self, out: &mut Vec<u8>) {
        let mut write_numbers = |name: &str, numbers: &[u32]| {
            push_text(out, name);
            for number in numbers {
                out.push(b',');
                push_number(out, *number);
            }
            out.push(b']');
        };
        match self {
            Call::Grow { at, position, kind } => write_numbers("[\"grow\"", &[at, position, kind]),
            Call::Insert { from, to, kind } => write_numbers("[\"insert\"", &[from, to, kind]),
            Call::Delete { edge } => write_numbers("[\"delete\"", &[edge]),
        }
    }
}

impl Refusal {
    const PLAIN: [(u32, &'static str, Refusal); 7] = [
        (1, "NoVertex", Refusal::NoVertex),
        (2, "SameEnds", Refusal::SameEnds),
        (3, "NoPosition", Refusal::NoPosition),
        (4, "NoEdge", Refusal::NoEdge),
        (5, "BadKind", Refusal::BadKind),
        (7, "Full", Refusal::Full),
        (9, "NoRoute", Refusal::NoRoute),
    ];

    fn read(reader: &mut Reader) -> Read<Refusal> {
        reader.open()?;
        let number = reader.number()?;
        reader.comma()?;
        let name = reader.text()?;
        let refusal = if number == 6 && &*name == b"Cut" {
            reader.comma()?;
            Refusal::Cut(reader.number()?)
        } else {
            let found = Refusal::PLAIN
                .iter()
                .find(|plain| plain.0 == number && *plain.1.as_bytes() == *name);
            found.ok_or(Fault::BAD_SHAPE)?.2
        };
        reader.close()?;
        Ok(refusal)
    }

    fn write(self, out: &mut Vec<u8>) {
        match self {
            Refusal::Cut(segment) => {
                push_text(out, "[6,\"Cut\",");
                push_number(out, segment);
                out.push(b']');
            }
            _ => {
                for (number, name, refusal) in Refusal::PLAIN {
                    if refusal == self {
                        out.push(b'[');
                        push_number(out, number);
                        push_text(out, ",\"");
                        push_text(out, name);
                        push_text(out, "\"]");
                    }
                }
            }
        }
    }
}

impl Dart {
    fn read(reader: &mut Reader) -> Read<Dart> {
        reader.open()?;
        let edge = reader.number()?;
        reader.comma()?;
        let segment = reader.number()?;
        reader.comma()?;
        let is_forward = match &*reader.text()? {
            b"forward" => true,
            b"back" => false,
            _ => return Err(Fault::BAD_SHAPE),
        };
        reader.close()?;
        Ok(Dart {
            edge,
            segment,
            is_forward,
        })
    }

    fn write(self, out: &mut Vec<u8>) {
        out.push(b'[');
        push_number(out, self.edge);
        out.push(b',');
        push_number(out, self.segment);
        push_text(
            out,
            if self.is_forward {
                ",\"forward\"]"
            } else {
                ",\"back\"]"
            },
        );
    }
}

impl Reply {
    /// A reply; the darts that it crosses are put behind a list.
    pub fn read(reader: &mut Reader, darts: &mut Vec<Dart>) -> Read<Reply> {
        const CROSSED: u32 = 1 << 0;
        const DELETED: u32 = 1 << 1;
        const EDGE: u32 = 1 << 2;
        const END: u32 = 1 << 3;
        const PRICE: u32 = 1 << 4;
        const REFUSED: u32 = 1 << 5;
        const START: u32 = 1 << 6;
        const VERTEX: u32 = 1 << 7;
        let first = darts.len();
        let mut numbers = [0; 8];
        let mut price = 0;
        let mut refusal = Refusal::Full;
        let seen = reader.object(
            &[
                "crossed", "deleted", "edge", "end", "price", "refused", "start", "vertex",
            ],
            |reader, place| {
                match 1 << place {
                    CROSSED => {
                        darts.truncate(first);
                        reader.array(|reader| {
                            darts.push(Dart::read(reader)?);
                            Ok(())
                        })?;
                    }
                    PRICE => price = reader.long()?,
                    REFUSED => refusal = Refusal::read(reader)?,
                    _ => numbers[place] = reader.number()?,
                }
                Ok(())
            },
        )?;
        let [_, deleted, edge, end, _, _, start, vertex] = numbers;
        const NEW_EDGE: u32 = CROSSED | EDGE | END | PRICE | START;
        const NEW_VERTEX: u32 = EDGE | VERTEX;
        match seen {
            DELETED => Ok(Reply::Deleted { edge: deleted }),
            REFUSED => Ok(Reply::Refused(refusal)),
            NEW_EDGE => Ok(Reply::Inserted {
                edge,
                start,
                end,
                price,
                crossed: darts.len() - first,
            }),
            NEW_VERTEX => Ok(Reply::Grown { edge, vertex }),
            _ => Err(Fault::BAD_SHAPE),
        }
    }

    pub fn write(self, darts: &[Dart], out: &mut Vec<u8>) {
        match self {
            Reply::Grown { edge, vertex } => {
                push_text(out, "{\"edge\":");
                push_number(out, edge);
                push_text(out, ",\"vertex\":");
                push_number(out, vertex);
            }
            Reply::Inserted {
                edge,
                start,
                end,
                price,
                ..
            } => {
                push_text(out, "{\"crossed\":[");
                for (place, dart) in darts.iter().enumerate() {
                    if place > 0 {
                        out.push(b',');
                    }
                    dart.write(out);
                }
                push_text(out, "],\"edge\":");
                push_number(out, edge);
                push_text(out, ",\"end\":");
                push_number(out, end);
                push_text(out, ",\"price\":");
                push_long(out, price);
                push_text(out, ",\"start\":");
                push_number(out, start);
            }
            Reply::Deleted { edge } => {
                push_text(out, "{\"deleted\":");
                push_number(out, edge);
            }
            Reply::Refused(refusal) => {
                push_text(out, "{\"refused\":");
                refusal.write(out);
            }
        }
        out.push(b'}');
    }
}
