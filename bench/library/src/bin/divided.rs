//! `divided SLOTS`: reads pages as `bench/plans/divisions` prints them, fills a core with them,
//! compacts it, and prints how many pages are left. Every key is then looked up.

use beside::pages::{self, Occupied, SHARDS, TURN};
use std::process::ExitCode;
use teurlaks::{Core, Key, Limits, Refused};

/// Fills all slots of each page, and frees those that are not occupied.
fn fill(core: &mut Core, pages: &[Occupied], slots: usize) -> Result<Vec<(Key, u128)>, Refused> {
    let mut keys = Vec::new();
    for place in 0..pages.len() * slots {
        let shard = place / slots / TURN % SHARDS;
        let words = vec![place as u128; 256 / slots];
        keys.push((core.insert_words(shard as u32, &words)?, place as u128));
    }
    let occupied = |place: usize| {
        let (page, slot) = (place / slots, place % slots);
        pages[page][slot / 64] >> (slot % 64) & 1 == 1
    };
    keys.retain(|(key, place)| occupied(*place as usize) || !core.free(*key));
    Ok(keys)
}

fn left(pages: &[Occupied], slots: usize) -> Result<usize, Refused> {
    let mut core = Core::new(Limits {
        shards: SHARDS as u32,
        slots: 256,
        ..Limits::default()
    })?;
    let keys = fill(&mut core, pages, slots)?;
    core.compact()?;
    for (key, place) in keys {
        let words = core.get_words(key).expect("the key is live");
        assert_eq!(words[0], place);
    }
    Ok(core.pages())
}

fn main() -> ExitCode {
    let slots = std::env::args().nth(1).and_then(|word| word.parse().ok());
    let Some(slots @ 16..=256) = slots else {
        eprintln!("divided SLOTS, of 16 to 256");
        return ExitCode::from(2);
    };
    match pages::read().map(|pages| left(&pages, slots)) {
        Ok(Ok(left)) => println!("{left}"),
        Ok(Err(refused)) => eprintln!("divided: {refused}"),
        Err(fault) => eprintln!("divided: {fault}"),
    }
    ExitCode::SUCCESS
}
