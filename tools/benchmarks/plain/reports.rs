//! The three commands: a script is carried out, a report is carried out again, a picture is
//! checked.

use crate::calls::{Book, Call, Dart, Reply};
use crate::faults::Fault;
use crate::picture::{count_faces, Picture};
use crate::reader::{Read, Reader};
use crate::rows::{Limits, Rows};
use crate::writer::{push_number, push_text};

/// The prices of the first kinds, as they stand in a text. Nothing crosses edges of a kind whose
/// price is `None`.
type Prices = Vec<Option<u32>>;

fn read_prices(reader: &mut Reader) -> Read<Prices> {
    let mut prices = Vec::new();
    reader.array(|reader| {
        prices.push(if reader.is_null() {
            None
        } else {
            Some(reader.number()?)
        });
        Ok(())
    })?;
    if prices.len() > 64 {
        Err(Fault::BAD_SHAPE)
    } else {
        Ok(prices)
    }
}

/// The version says whether a price may be `null`.
fn judge_version(version: u32, prices: &Prices) -> Read<()> {
    match version {
        1 if prices.contains(&None) => Err(Fault::BAD_SHAPE),
        1 | 2 => Ok(()),
        _ => Err(Fault::BAD_VERSION),
    }
}

/// The price of each kind, 0 for none.
fn judge_prices(prices: &Prices) -> Read<[u16; 64]> {
    let mut table = [1; 64];
    for (kind, price) in prices.iter().enumerate() {
        table[kind] = match price {
            None => 0,
            Some(price @ 1..=1000) => *price as u16,
            Some(_) => return Err(Fault::BAD_PRICE.at(kind)),
        };
    }
    Ok(table)
}

/// Limits, prices and start, judged in this order.
fn begin(limits: &Limits, prices: &Prices, start: &Rows) -> Read<Book> {
    limits.judge()?;
    let prices = judge_prices(prices)?;
    Ok(Book::new(Picture::load(start, limits, prices)?, *limits))
}

/// What `run` reads.
pub struct Script {
    limits: Limits,
    prices: Prices,
    start: Rows,
    pub lists: Vec<Vec<Call>>,
}

impl Script {
    pub fn read(text: &[u8]) -> Read<Script> {
        const VERSION_AND_WORKERS: u32 = 0b11000;
        let mut script = Script {
            limits: Limits::GREATEST,
            prices: Vec::new(),
            start: Rows::seed(),
            lists: Vec::new(),
        };
        let mut version = 0;
        let mut reader = Reader::new(text);
        let seen = reader.object(
            &["limits", "prices", "start", "version", "workers"],
            |reader, place| {
                match place {
                    0 => script.limits = Limits::read(reader)?,
                    1 => script.prices = read_prices(reader)?,
                    2 => script.start = read_start(reader)?,
                    3 => version = reader.number()?,
                    _ => script.lists = read_lists(reader)?,
                }
                Ok(())
            },
        )?;
        reader.end()?;
        if seen & VERSION_AND_WORKERS != VERSION_AND_WORKERS {
            return Err(Fault::BAD_SHAPE);
        }
        judge_version(version, &script.prices)?;
        if (1..=16).contains(&script.lists.len()) {
            Ok(script)
        } else {
            Err(Fault::BAD_SHAPE)
        }
    }

    /// Carries out the first list, and writes the report.
    pub fn run(&self) -> Read<Vec<u8>> {
        let mut book = begin(&self.limits, &self.prices, &self.start)?;
        let mut start = Vec::new();
        book.picture.write(&mut start);
        let calls = &self.lists[0];
        let mut out = Vec::with_capacity(100 * calls.len() + 2 * start.len() + 200);
        push_text(&mut out, "{\"history\":[");
        for (place, call) in calls.iter().enumerate() {
            push_text(
                &mut out,
                if place == 0 {
                    "{\"call\":"
                } else {
                    ",{\"call\":"
                },
            );
            let reply = book.answer(*call);
            call.write(&mut out);
            push_text(&mut out, ",\"caller\":0,\"reply\":");
            reply.write(&book.crossed, &mut out);
            out.push(b'}');
        }
        push_text(&mut out, "],\"limits\":{\"crossings\":");
        push_number(&mut out, self.limits.crossings);
        push_text(&mut out, ",\"edges\":");
        push_number(&mut out, self.limits.edges);
        push_text(&mut out, ",\"vertices\":");
        push_number(&mut out, self.limits.vertices);
        push_text(&mut out, "},\"picture\":");
        book.picture.write(&mut out);
        push_text(&mut out, ",\"prices\":[");
        let count = self
            .prices
            .iter()
            .rposition(|price| *price != Some(1))
            .map_or(0, |last| last + 1);
        for (kind, price) in self.prices[..count].iter().enumerate() {
            push_text(&mut out, if kind == 0 { "" } else { "," });
            match price {
                Some(price) => push_number(&mut out, *price),
                None => push_text(&mut out, "null"),
            }
        }
        push_text(&mut out, "],\"start\":");
        out.extend_from_slice(&start);
        push_text(
            &mut out,
            if self.prices.contains(&None) {
                ",\"version\":2}"
            } else {
                ",\"version\":1}"
            },
        );
        Ok(out)
    }
}

fn read_start(reader: &mut Reader) -> Read<Rows> {
    if reader.peek() != b'"' {
        return Rows::read(reader);
    }
    if &*reader.text()? == b"seed" {
        Ok(Rows::seed())
    } else {
        Err(Fault::BAD_SHAPE)
    }
}

fn read_lists(reader: &mut Reader) -> Read<Vec<Vec<Call>>> {
    let mut lists = Vec::new();
    reader.array(|reader| {
        let mut list = Vec::new();
        reader.array(|reader| {
            list.push(Call::read(reader, true)?);
            Ok(())
        })?;
        lists.push(list);
        Ok(())
    })?;
    Ok(lists)
}

/// What `replay` reads.
pub struct Report {
    history: Vec<(Call, Reply)>,
    /// The darts that the inserted edges cross, one edge after another.
    darts: Vec<Dart>,
    limits: Limits,
    picture: Rows,
    prices: Prices,
    start: Rows,
}

impl Report {
    pub fn read(text: Vec<u8>) -> Read<Report> {
        let mut report = Report {
            history: Vec::new(),
            darts: Vec::new(),
            limits: Limits::GREATEST,
            picture: Rows::default(),
            prices: Vec::new(),
            start: Rows::default(),
        };
        let mut version = 0;
        let mut reader = Reader::new(&text);
        reader.whole_object(
            &["history", "limits", "picture", "prices", "start", "version"],
            |reader, place| {
                match place {
                    0 => report.read_history(reader)?,
                    1 => report.limits = Limits::read(reader)?,
                    2 => report.picture = Rows::read(reader)?,
                    3 => report.prices = read_prices(reader)?,
                    4 => report.start = Rows::read(reader)?,
                    _ => version = reader.number()?,
                }
                Ok(())
            },
        )?;
        reader.end()?;
        judge_version(version, &report.prices)?;
        Ok(report)
    }

    fn read_history(&mut self, reader: &mut Reader) -> Read<()> {
        self.history.clear();
        self.darts.clear();
        reader.array(|reader| {
            let mut call = Call::Delete { edge: 0 };
            let mut reply = None;
            let first = self.darts.len();
            reader.whole_object(&["call", "caller", "reply"], |reader, place| {
                match place {
                    0 => call = Call::read(reader, false)?,
                    1 => drop(reader.number()?),
                    _ => {
                        self.darts.truncate(first);
                        reply = Some(Reply::read(reader, &mut self.darts)?);
                    }
                }
                Ok(())
            })?;
            self.history.extend(reply.map(|reply| (call, reply)));
            Ok(())
        })
    }

    /// Carries out the history again.
    pub fn replay(&self) -> Read<Vec<u8>> {
        let mut book = begin(&self.limits, &self.prices, &self.start)?;
        let mut darts = self.darts.as_slice();
        for (place, (call, told)) in self.history.iter().enumerate() {
            let due = book.answer(*call);
            let crossed;
            (crossed, darts) = darts.split_at(if let Reply::Inserted { crossed, .. } = told {
                *crossed
            } else {
                0
            });
            if due != *told || book.crossed != crossed {
                return Err(Fault::WRONG_REPLY.at(place));
            }
        }
        if !book.picture.shows(&self.picture) {
            return Err(Fault::WRONG_PICTURE);
        }
        Ok(format!("replayed {} calls", self.history.len()).into_bytes())
    }
}

/// Checks a picture.
pub fn check(text: Vec<u8>) -> Read<Vec<u8>> {
    let mut reader = Reader::new(&text);
    let rows = Rows::read(&mut reader)?;
    reader.end()?;
    drop(text);
    let faces = count_faces(&rows, &Limits::GREATEST)?;
    let (vertices, crossings, edges) =
        (rows.rotations.len(), rows.crossings.len(), rows.edges.len());
    let segments = edges + 2 * crossings;
    Ok(format!("lawful vertices={vertices} crossings={crossings} edges={edges} segments={segments} faces={faces}").into_bytes())
}
