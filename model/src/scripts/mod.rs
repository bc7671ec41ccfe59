//! Makers of scripts for the probe, by kind.

pub mod bench;
pub mod calls;
pub mod changed;
pub mod edges;
pub mod erases;
pub mod forecast;
pub mod heights;
pub mod images;
pub mod joins;
pub mod lines;
pub mod parts;
pub mod pays;
pub mod rebuilds;
pub mod sizes;
pub mod spread;
pub mod stock;
pub mod torn;
pub mod wide;
pub mod writer;

use crate::model::geometry::Geometry;
use crate::random::Random;

/// A kind of script: its name, and its maker for chips of a part.
pub struct Kind {
    pub name: &'static str,
    pub make: fn(&mut Random, Geometry) -> Vec<Vec<u8>>,
}

/// All kinds of scripts for the probe.
pub const KINDS: [Kind; 18] = [
    Kind { name: "calls", make: calls::make },
    Kind { name: "valid", make: images::valid },
    Kind { name: "steep", make: images::steep },
    Kind { name: "damaged", make: images::damaged },
    Kind { name: "noise", make: images::noise },
    Kind { name: "sizes", make: sizes::make },
    Kind { name: "lines", make: lines::make },
    Kind { name: "last", make: images::last },
    Kind { name: "full", make: edges::full },
    Kind { name: "pending", make: edges::pending },
    Kind { name: "changed", make: changed::make },
    Kind { name: "erases", make: erases::make },
    Kind { name: "pays", make: pays::make },
    Kind { name: "forecast", make: forecast::make },
    Kind { name: "parts", make: parts::make },
    Kind { name: "joins", make: joins::make },
    Kind { name: "rebuilds", make: rebuilds::make },
    Kind { name: "heights", make: heights::make },
];

impl Kind {
    /// A fresh script, on chips of a part that it chooses.
    pub fn fresh(&self, random: &mut Random) -> Vec<Vec<u8>> {
        let geometry = part(random);
        (self.make)(random, geometry)
    }
}

/// The kind with this name.
pub fn kind(name: &str) -> Option<&'static Kind> {
    KINDS.iter().find(|kind| kind.name == name)
}

/// The part of a fresh script, the large one once in three times.
pub fn part(random: &mut Random) -> Geometry {
    if random.once_in(3) {
        Geometry::LARGE
    } else {
        Geometry::SMALL
    }
}

/// One of several numbers of blocks; on the large part mostly 3 to 8, since longer images take long.
fn blocks(random: &mut Random, geometry: Geometry, sizes: &[u32]) -> u32 {
    let size = sizes[random.index(sizes.len())];
    match geometry == Geometry::LARGE && size > 8 && random.below(4) > 0 {
        true => 3 + random.below(6) as u32,
        false => size,
    }
}
