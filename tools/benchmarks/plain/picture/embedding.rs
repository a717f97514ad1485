//! The half-edges and the faces of rows, and whether they keep Euler's formula.

use super::{twin, Face, Half};
use crate::faults::Fault;
use crate::reader::Read;
use crate::rows::{Limits, Places, Rows, Sign};

/// The half-edges of lawful rows, the next of each known and no face labelled yet.
fn halves_of(rows: &Rows, places: &Places) -> Vec<Half> {
    let mut halves = vec![
        Half {
            next: 0,
            face: u32::MAX
        };
        2 * places.segments as usize
    ];
    for v in 0..rows.rotations.len() {
        let leaves = |e: &u32| {
            let place = places.edges[*e as usize] as usize;
            let first = places.first_segments[place];
            if rows.edges[place].a as usize == v {
                2 * first
            } else {
                2 * (first + rows.paths.get(place).len() as u32) + 1
            }
        };
        let around = rows.rotations.get(v);
        if let Some(last) = around.last() {
            let mut before = leaves(last);
            for e in around {
                let half = leaves(e);
                halves[twin(before) as usize].next = half;
                before = half;
            }
        }
    }
    for (row, [crossed, newcomer]) in rows.crossings.iter().zip(&places.segments_before) {
        let (crossed_ahead, crossed_behind) = (2 * (crossed + 1), 2 * crossed + 1);
        let (newcomer_ahead, newcomer_behind) = (2 * (newcomer + 1), 2 * newcomer + 1);
        let around = match row.sign {
            Sign::LeftToRight => [
                crossed_ahead,
                newcomer_ahead,
                crossed_behind,
                newcomer_behind,
            ],
            Sign::RightToLeft => [
                crossed_ahead,
                newcomer_behind,
                crossed_behind,
                newcomer_ahead,
            ],
        };
        for i in 0..4 {
            halves[twin(around[i]) as usize].next = around[(i + 1) % 4];
        }
    }
    halves
}

/// Labels the faces of half-edges.
fn label_faces(halves: &mut [Half]) -> Vec<Face> {
    let mut faces = Vec::new();
    for half in 0..halves.len() as u32 {
        if halves[half as usize].face == u32::MAX {
            let label = faces.len() as u32;
            let size = relabel(halves, half, label);
            faces.push(Face { half, size });
        }
    }
    faces
}

/// Labels the face of a half-edge anew. The answer is how many half-edges it has.
pub fn relabel(halves: &mut [Half], half: u32, label: u32) -> u32 {
    let mut size = 0;
    let mut at = half;
    loop {
        let entry = &mut halves[at as usize];
        entry.face = label;
        at = entry.next;
        size += 1;
        if at == half {
            return size;
        }
    }
}

/// How many faces lawful rows have, or the first test that rows fail.
pub fn count_faces(rows: &Rows, limits: &Limits) -> Read<usize> {
    Ok(embed(rows, limits)?.2.len())
}

/// Where the rows stand, their half-edges and their faces, or the first test that they fail.
pub fn embed(rows: &Rows, limits: &Limits) -> Read<(Places, Vec<Half>, Vec<Face>)> {
    let places = rows.judge(limits)?;
    let mut halves = halves_of(rows, &places);
    let faces = label_faces(&mut halves);
    let points = rows.rotations.len() + rows.crossings.len();
    if points + faces.len() == places.segments as usize + 2 {
        Ok((places, halves, faces))
    } else {
        Err(Fault::NOT_PLANAR)
    }
}
