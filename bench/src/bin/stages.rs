//! What a plan of the plain program costs: `stages SHARDS SLOTS STAGE`, over the same groups and by
//! the same stages as `plans/main.rt.txt`.

use beside::class::Class;
use beside::plan::{largest, short, Graph};
use beside::slots::Slots;

/// Marsaglia's xorshift of 64 bits.
fn next(state: &mut u64) -> u64 {
    *state ^= *state << 13;
    *state ^= *state >> 7;
    *state ^= *state << 17;
    *state
}

/// The groups of a side.
fn side(shards: usize, slots: usize, mut state: u64) -> Vec<(Class, Slots)> {
    let mut group = || {
        let mut occupied = Slots::default();
        for _ in 0..slots {
            occupied.insert(((next(&mut state) >> 20) % 256) as u8);
        }
        (Class::C16, occupied)
    };
    (0..1024 * shards).map(|_| group()).collect()
}

fn main() {
    let numbers: Vec<usize> = std::env::args()
        .skip(1)
        .map(|word| word.parse().unwrap_or(0))
        .collect();
    let [shards, slots, stage] = numbers[..] else {
        println!("stages SHARDS SLOTS STAGE");
        return;
    };
    let abandoned = side(shards, slots, 88172645463325252);
    let owned = side(shards, slots, 362436069362436069);
    println!("groups {} {}", abandoned.len(), owned.len());
    if stage == 0 {
        return;
    }
    let graph = Graph::new(&abandoned, &owned);
    println!("first {}", graph.has(0, 0));
    if stage == 1 {
        return;
    }
    let matching = largest(&graph);
    println!("pairs {}", matching.of_abandoned.iter().flatten().count());
    if stage == 2 {
        return;
    }
    if let Some((short, partners)) = short(&graph, &matching) {
        println!("short {} partners {}", short.len(), partners.len());
    }
}
