//! Lengths of buffers around the bounds that document 01 names.

use second_engine::{RECORD_BYTES, RECORD_CEILING};
use tables::Rng;

/// A buffer's length and what is special about it.
pub struct Length {
    pub value: usize,
    pub name: String,
}

/// A length at or around the least that serves, where there is such a length.
struct Bound {
    name: &'static str,
    length: fn(usize, &mut Rng) -> Option<usize>,
}

const AROUND: [Bound; 6] = [
    bound("exact", |least, _| Some(least)),
    bound("one less", |least, _| least.checked_sub(1)),
    bound("far less", |least, rng| Some(rng.below(least.max(1)))),
    bound("empty", |_, _| Some(0)),
    bound("one more", |least, _| Some(least + 1)),
    bound("more", |least, rng| Some(least + rng.between(2, 200))),
];

/// For logs beside those around. A log above the ceiling costs much, so it is rare.
const RECORDS: [Bound; 2] = [
    bound("a record less", |least, _| least.checked_sub(RECORD_BYTES)),
    bound("above the ceiling", |_, rng| {
        let ceiling = RECORD_BYTES * RECORD_CEILING;
        rng.chance(1, 40).then(|| ceiling + rng.between(0, 100))
    }),
];

/// The buffers with their bounds.
const BUFFERS: [(&str, &[&[Bound]]); 6] = [
    ("log", &[&AROUND, &RECORDS]),
    ("scratch", &[&AROUND]),
    ("page", &[&AROUND]),
    ("start pile", &[&AROUND]),
    ("longest pile", &[&AROUND]),
    ("walk scratch", &[&AROUND]),
];

const fn bound(name: &'static str, length: fn(usize, &mut Rng) -> Option<usize>) -> Bound {
    Bound { name, length }
}

/// A length for the buffer, in half of the cases the least that serves.
pub fn around(rng: &mut Rng, buffer: &str, least: usize) -> Length {
    let bounds = bounds_of(buffer);
    let chosen = match rng.below(2) {
        0 => bounds[0],
        _ => *rng.pick(&bounds),
    };
    match (chosen.length)(least, rng) {
        Some(value) => Length {
            value,
            name: format!("{buffer} {}", chosen.name),
        },
        None => around(rng, buffer, least),
    }
}

/// The names of all lengths.
pub fn names() -> Vec<String> {
    let names = BUFFERS.iter().flat_map(|(buffer, _)| {
        let bounds = bounds_of(buffer).into_iter();
        bounds.map(move |bound| format!("{buffer} {}", bound.name))
    });
    names.collect()
}

fn bounds_of(buffer: &str) -> Vec<&'static Bound> {
    let of_buffer = BUFFERS.iter().filter(|(name, _)| *name == buffer);
    of_buffer
        .flat_map(|(_, bounds)| bounds.iter().copied().flatten())
        .collect()
}
