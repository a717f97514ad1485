//! Random scripts of one list, as texts. Most calls can be carried out: vertices and edges are mostly among those that may
//! be there.

use crate::chance::Chance;

/// How many vertices and edges there may be.
#[derive(Clone, Copy)]
pub struct Size {
    pub vertices: usize,
    pub edges: usize,
}

/// Calls from a picture of this size on, which becomes that after them.
fn calls(size: &mut Size, chance: &mut Chance) -> String {
    let most = chance.pick(&[4, 20, 40, 100]);
    let calls: Vec<String> = (0..chance.below(most + 1))
        .map(|_| {
            let kind = chance.pick(&[0, 0, 0, 1, 1, 2, 3, 64]);
            let (u, v) = (chance.below(size.vertices), chance.below(size.vertices));
            match chance.below(20) {
                0..=4 => {
                    size.vertices += 1;
                    size.edges += 1;
                    format!("[\"grow\",{u},{},{kind}]", chance.below(3))
                }
                5..=16 => {
                    size.edges += 1;
                    format!("[\"insert\",{u},{v},{kind}]")
                }
                _ => format!("[\"delete\",{}]", chance.below(size.edges + 1)),
            }
        })
        .collect();
    calls.join(",")
}

/// A script that begins with a picture of this size, which becomes that at its end.
pub fn script(start: &str, size: &mut Size, chance: &mut Chance) -> String {
    let prices: Vec<&str> = (0..chance.below(5))
        .map(|_| chance.pick(&["1", "2", "3", "1000", "null"]))
        .collect();
    let limits = if chance.one_in(4) {
        format!(
            "\"limits\":{{\"crossings\":{},\"edges\":{},\"vertices\":{}}},",
            chance.below(60),
            size.edges + chance.below(30),
            size.vertices + chance.below(8)
        )
    } else {
        String::new()
    };
    let calls = calls(size, chance);
    format!(
        "{{{limits}\"prices\":[{}],\"start\":{start},\"version\":2,\"workers\":[[{calls}]]}}",
        prices.join(",")
    )
}
