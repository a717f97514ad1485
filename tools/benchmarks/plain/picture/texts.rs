//! A picture is written, and compared with rows that were read.

use super::{Picture, NO_EDGE};
use crate::rows::{Rows, Sign};
use crate::writer::{push_number, push_numbers, push_text};

impl Picture {
    pub fn write(&self, out: &mut Vec<u8>) {
        push_text(out, "{\"crossings\":[");
        let mut comma = "";
        for (id, row) in self
            .crossings
            .iter()
            .enumerate()
            .filter(|(_, row)| row.crossed != NO_EDGE)
        {
            push_text(out, comma);
            comma = ",";
            push_text(out, "{\"crossed\":");
            push_number(out, row.crossed);
            push_text(out, ",\"id\":");
            push_number(out, id as u32);
            push_text(out, ",\"newcomer\":");
            push_number(out, row.newcomer);
            push_text(
                out,
                if row.sign == Sign::LeftToRight {
                    ",\"sign\":\"ltr\"}"
                } else {
                    ",\"sign\":\"rtl\"}"
                },
            );
        }
        push_text(out, "],\"edges\":[");
        comma = "";
        for edge in (0..self.next_edge()).filter(|edge| self.has_edge(*edge)) {
            let ends = &self.ends[edge as usize];
            push_text(out, comma);
            comma = ",";
            push_text(out, "{\"a\":");
            push_number(out, ends.a);
            push_text(out, ",\"b\":");
            push_number(out, ends.b);
            push_text(out, ",\"crossings\":[");
            push_numbers(out, &self.paths[edge as usize].crossings);
            push_text(out, "],\"id\":");
            push_number(out, edge);
            push_text(out, ",\"kind\":");
            push_number(out, u32::from(self.kinds[edge as usize]));
            push_text(out, "}");
        }
        push_text(out, "],\"next_crossing\":");
        push_number(out, self.next_crossing());
        push_text(out, ",\"next_edge\":");
        push_number(out, self.next_edge());
        push_text(out, ",\"rotations\":[");
        comma = "";
        for around in &self.rotations {
            push_text(out, comma);
            comma = ",";
            push_text(out, "[");
            push_numbers(out, around);
            push_text(out, "]");
        }
        push_text(out, "]}");
    }

    /// Whether these are the picture's rows.
    pub fn shows(&self, rows: &Rows) -> bool {
        let edges = || (0..self.next_edge()).filter(|edge| self.has_edge(*edge));
        let crossings = || {
            self.crossings
                .iter()
                .enumerate()
                .filter(|(_, row)| row.crossed != NO_EDGE)
        };
        rows.next_edge == self.next_edge()
            && rows.next_crossing == self.next_crossing()
            && rows.rotations.len() == self.rotations.len()
            && self
                .rotations
                .iter()
                .enumerate()
                .all(|(v, around)| *around == rows.rotations.get(v))
            && rows.edges.len() == edges().count()
            && edges()
                .zip(rows.edges.iter().enumerate())
                .all(|(edge, (place, row))| {
                    let ends = &self.ends[edge as usize];
                    (row.id, row.a, row.b, row.kind)
                        == (edge, ends.a, ends.b, u32::from(self.kinds[edge as usize]))
                        && rows.paths.get(place) == self.paths[edge as usize].crossings
                })
            && rows.crossings.len() == crossings().count()
            && crossings()
                .zip(&rows.crossings)
                .all(|((id, crossing), row)| {
                    (row.id, row.crossed, row.newcomer, row.sign)
                        == (
                            id as u32,
                            crossing.crossed,
                            crossing.newcomer,
                            crossing.sign,
                        )
                })
    }
}
