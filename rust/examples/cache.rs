//! `cache [STORE WHEN [SECONDS]]`: a cache of values of 100 to 250 bytes whose working set grows,
//! shrinks and shifts, by four threads, and what the system counts as resident (`VmRSS`).
//!
//! STORE is `store`, a `teurlaks::SharedStore` that all threads share, or `boxes`, a `Box<[u8]>`
//! for each value, of whichever allocator the program was started with. WHEN is `compact`, for a
//! store that compacts itself in the background, or `never`. The keys are drawn by Zipf's law, the
//! least recently used value goes when there is no room, and every value that is found is compared
//! with what was put. With no words it is `store compact 20`. The requests are the same in each
//! run, so many a second. On a slower machine a second lasts longer.

use std::collections::HashMap;
use std::process::ExitCode;
use std::sync::atomic::{AtomicUsize, Ordering};
use std::sync::{Arc, Barrier};
use std::thread;
use std::time::{Duration, Instant};
use teurlaks::{Background, Key, Policy, Refused, SharedStore};

const THREADS: usize = 4;
/// How many values of a thread's there are at most.
const MOST_VALUES: usize = 40_000;
/// How many keys are asked for, of which those of low rank come often.
const KEYS: f64 = 1_000_000.0;
const REQUESTS_A_SECOND: usize = 100_000;
const LEAST_BYTES: u64 = 100;
const MOST_BYTES: u64 = 250;

/// Numbers from a seed: SplitMix64.
struct Random(u64);

/// Spreads the bits of a number over all bits of another one.
fn mix(number: u64) -> u64 {
    let a = (number ^ (number >> 30)).wrapping_mul(0xbf58_476d_1ce4_e5b9);
    let b = (a ^ (a >> 27)).wrapping_mul(0x94d0_49bb_1331_11eb);
    b ^ (b >> 31)
}

impl Random {
    fn draw(&mut self) -> u64 {
        self.0 = self.0.wrapping_add(0x9e37_79b9_7f4a_7c15);
        mix(self.0)
    }

    /// A rank from 0 on: rank r comes in proportion to 1 / (r + 1), by Zipf's law.
    fn rank(&mut self) -> u64 {
        let uniform = (self.draw() >> 11) as f64 / (1_u64 << 53) as f64;
        KEYS.powf(uniform) as u64 - 1
    }
}

/// What a second of the run is like. It takes twenty of them until all comes again, under other
/// keys.
struct Weather {
    /// How many values a thread may keep.
    room: usize,
    /// The key of rank 0.
    first_key: u64,
}

impl Weather {
    fn of(second: usize) -> Weather {
        const PERIOD: usize = 20;
        let percent = match second % PERIOD {
            grows @ 0..=7 => 30 + 10 * grows,
            shrinks @ 12..=16 => 100 - 16 * (shrinks - 11),
            17.. => 20,
            _ => 100,
        };
        // The keys shift while there is much room, and faster while there is little.
        let shifts = (second / PERIOD) * 80_000 + (second % PERIOD) * 4_000;
        Weather {
            room: MOST_VALUES * percent / 100,
            first_key: shifts as u64,
        }
    }
}

/// What keeps the values of one thread.
trait Values {
    /// By which a value is found.
    type Name;
    fn put(&mut self, value: &[u8]) -> Result<Self::Name, Refused>;
    /// Whether the name has this value.
    fn has(&self, name: &Self::Name, value: &[u8]) -> bool;
    fn remove(&mut self, name: Self::Name);
}

/// A value as the store keeps it.
#[derive(Clone, Copy)]
struct Stored {
    len: u8,
    bytes: [u8; MOST_BYTES as usize],
}

/// The store that all threads share.
#[derive(Clone)]
struct InStore(Arc<SharedStore<Stored>>);

impl Values for InStore {
    type Name = Key;

    fn put(&mut self, value: &[u8]) -> Result<Key, Refused> {
        let mut bytes = [0; MOST_BYTES as usize];
        bytes[..value.len()].copy_from_slice(value);
        let len = value.len() as u8;
        self.0.insert(Stored { len, bytes })
    }

    fn has(&self, name: &Key, value: &[u8]) -> bool {
        let found = self.0.get(*name);
        found.is_some_and(|stored| stored.bytes[..usize::from(stored.len)] == *value)
    }

    fn remove(&mut self, name: Key) {
        self.0.free(name);
    }
}

/// A box each.
#[derive(Clone)]
struct InBoxes;

impl Values for InBoxes {
    type Name = Box<[u8]>;

    fn put(&mut self, value: &[u8]) -> Result<Box<[u8]>, Refused> {
        Ok(value.into())
    }

    fn has(&self, name: &Box<[u8]>, value: &[u8]) -> bool {
        **name == *value
    }

    fn remove(&mut self, name: Box<[u8]>) {
        drop(name);
    }
}

/// The value of a key, which is the same whenever it is fetched.
struct Fetched {
    bytes: [u8; MOST_BYTES as usize],
    len: usize,
}

impl Fetched {
    fn of(key: u64) -> Fetched {
        let mut bytes = [key as u8; MOST_BYTES as usize];
        bytes[..8].copy_from_slice(&key.to_le_bytes());
        let len = LEAST_BYTES + mix(!key) % (MOST_BYTES - LEAST_BYTES + 1);
        Fetched {
            bytes,
            len: len as usize,
        }
    }

    fn value(&self) -> &[u8] {
        &self.bytes[..self.len]
    }
}

/// A place in the order of use. The one that was used last is next to the place `ENDS`, in which no
/// value stands.
struct Place<N> {
    key: u64,
    name: Option<N>,
    earlier: usize,
    later: usize,
}

const ENDS: usize = 0;

/// Which keys there are, and in which order they were used.
struct Index<N> {
    place_of: HashMap<u64, usize>,
    places: Vec<Place<N>>,
    free: Vec<usize>,
}

impl<N> Index<N> {
    /// It has its memory from the beginning, touched, so that what is measured later is that of the
    /// values.
    fn new() -> Index<N> {
        let mut place_of: HashMap<u64, usize> =
            (0..=MOST_VALUES as u64).map(|key| (key, 0)).collect();
        place_of.clear();
        let places = (0..=MOST_VALUES).map(|_| Place {
            key: 0,
            name: None,
            earlier: ENDS,
            later: ENDS,
        });
        Index {
            place_of,
            places: places.collect(),
            free: (1..=MOST_VALUES).rev().collect(),
        }
    }

    fn unlink(&mut self, place: usize) {
        let (earlier, later) = (self.places[place].earlier, self.places[place].later);
        self.places[earlier].later = later;
        self.places[later].earlier = earlier;
    }

    fn link_last(&mut self, place: usize) {
        let earlier = self.places[ENDS].earlier;
        (self.places[place].earlier, self.places[place].later) = (earlier, ENDS);
        self.places[earlier].later = place;
        self.places[ENDS].earlier = place;
    }

    /// The name of the key, which is the one that was used last from now on.
    fn find(&mut self, key: u64) -> Option<&N> {
        let place = *self.place_of.get(&key)?;
        self.unlink(place);
        self.link_last(place);
        self.places[place].name.as_ref()
    }

    fn insert(&mut self, key: u64, name: N) {
        let place = self.free.pop().expect("there are as many places as values");
        (self.places[place].key, self.places[place].name) = (key, Some(name));
        self.place_of.insert(key, place);
        self.link_last(place);
    }

    /// Takes out the key that was used least recently.
    fn take_first(&mut self) -> Option<(u64, N)> {
        let place = self.places[ENDS].later;
        let name = self.places[place].name.take()?;
        let key = self.places[place].key;
        self.unlink(place);
        self.place_of.remove(&key);
        self.free.push(place);
        Some((key, name))
    }
}

/// The cache of one thread.
struct Cache<V: Values> {
    values: V,
    index: Index<V::Name>,
    live_bytes: usize,
    wrong: usize,
}

impl<V: Values> Cache<V> {
    /// Lets values go until there are at most so many.
    fn make_room(&mut self, most: usize) {
        while self.index.place_of.len() > most {
            if let Some((key, name)) = self.index.take_first() {
                self.values.remove(name);
                self.live_bytes -= Fetched::of(key).len;
            }
        }
    }

    fn request(&mut self, key: u64, room: usize) -> Result<(), Refused> {
        let fetched = Fetched::of(key);
        if let Some(name) = self.index.find(key) {
            self.wrong += usize::from(!self.values.has(name, fetched.value()));
            return Ok(());
        }
        self.make_room(room - 1);
        let name = self.values.put(fetched.value())?;
        self.index.insert(key, name);
        self.live_bytes += fetched.len;
        Ok(())
    }

    /// The requests of a second, for the keys that a hash gives this thread.
    fn serve(&mut self, second: usize, thread: usize, random: &mut Random) -> Result<(), Refused> {
        let Weather { room, first_key } = Weather::of(second);
        self.make_room(room);
        for _ in 0..REQUESTS_A_SECOND {
            let key = loop {
                let key = first_key + random.rank();
                if mix(key) as usize % THREADS == thread {
                    break key;
                }
            };
            self.request(key, room)?;
        }
        Ok(())
    }
}

/// What the threads tell of a second, as sums.
#[derive(Default)]
struct Told {
    values: AtomicUsize,
    bytes: AtomicUsize,
    wrong: AtomicUsize,
    serving_micros: AtomicUsize,
}

/// The threads and the one that measures wait here for each other: when there is work to do, and
/// when what is resident has been read.
struct Meeting {
    barrier: Barrier,
    told: Told,
}

/// Processor time would be better, but the standard library does not tell it.
fn timed<R>(micros: &AtomicUsize, work: impl FnOnce() -> R) -> R {
    let start = Instant::now();
    let done = work();
    micros.fetch_add(start.elapsed().as_micros() as usize, Ordering::Relaxed);
    done
}

/// What was answered, or the end of the program: the other threads would wait for one that has
/// stopped.
fn or_end<T>(answered: Result<T, Refused>) -> T {
    answered.unwrap_or_else(|refused| {
        eprintln!("refused: {refused}");
        std::process::exit(1)
    })
}

fn work<V: Values>(values: V, thread: usize, run: &Run, meeting: &Meeting) {
    let Meeting { barrier, told } = meeting;
    let index = Index::new();
    barrier.wait();
    barrier.wait();
    let mut cache = Cache {
        values,
        index,
        live_bytes: 0,
        wrong: 0,
    };
    let mut random = Random(thread as u64);
    for second in 0..run.seconds {
        or_end(timed(&told.serving_micros, || {
            cache.serve(second, thread, &mut random)
        }));
        told.values
            .fetch_add(cache.index.place_of.len(), Ordering::Relaxed);
        told.bytes.fetch_add(cache.live_bytes, Ordering::Relaxed);
        told.wrong
            .fetch_add(std::mem::take(&mut cache.wrong), Ordering::Relaxed);
        barrier.wait();
        barrier.wait();
    }
}

/// What the system counts as resident, in kilobytes.
fn resident() -> i64 {
    let status = std::fs::read_to_string("/proc/self/status").unwrap_or_default();
    let line = status.lines().find_map(|line| line.strip_prefix("VmRSS:"));
    line.and_then(|line| line.split_whitespace().next()?.parse().ok())
        .unwrap_or(0)
}

/// How many milliseconds of a processor the thread took that compacts in the background.
fn compacting_millis() -> usize {
    let Ok(tasks) = std::fs::read_dir("/proc/self/task") else {
        return 0;
    };
    let read = |task: &std::fs::DirEntry| std::fs::read_to_string(task.path().join("stat")).ok();
    let stats = tasks.flatten().filter_map(|task| read(&task));
    let of_thread = stats.filter(|stat| stat.contains("(teurlaks)"));
    // The eleventh and twelfth field behind the name are hundredths of a second.
    let ticks = of_thread.flat_map(|stat| {
        let fields = stat.rsplit(") ").next().unwrap_or_default().split(' ');
        fields
            .skip(11)
            .take(2)
            .filter_map(|field| field.parse().ok())
            .collect::<Vec<usize>>()
    });
    ticks.sum::<usize>() * 10
}

fn take(sum: &AtomicUsize) -> usize {
    sum.swap(0, Ordering::Relaxed)
}

/// A line for each second: the values and their bytes, in kilobytes what is resident beyond what
/// the program took at first, when the requests of the second are done and at its end, the pages
/// then, and the milliseconds that requests took of all threads together, and the background.
fn measure(store: Option<&SharedStore<Stored>>, run: &Run, meeting: &Meeting) -> usize {
    let Meeting { barrier, told } = meeting;
    let (mut wrong, mut compacting) = (0, 0);
    barrier.wait();
    let base = resident();
    barrier.wait();
    println!("second values kilobytes resident compacted pages serving-ms compacting-ms");
    for second in 0..run.seconds {
        let start = Instant::now();
        barrier.wait();
        let before = resident() - base;
        thread::sleep(Duration::from_secs(1).saturating_sub(start.elapsed()));
        let after = resident() - base;
        wrong += take(&told.wrong);
        let compacted = std::mem::replace(&mut compacting, compacting_millis());
        println!(
            "{second} {} {} {before} {after} {} {} {}",
            take(&told.values),
            take(&told.bytes) / 1024,
            store.map_or(0, SharedStore::pages),
            take(&told.serving_micros) / 1000,
            compacting - compacted
        );
        barrier.wait();
    }
    wrong
}

struct Run {
    compacts: bool,
    seconds: usize,
}

/// How many values were wrong.
fn run<V: Values + Clone + Sync>(
    run: &Run,
    values: &V,
    store: Option<&SharedStore<Stored>>,
) -> usize {
    let meeting = Meeting {
        barrier: Barrier::new(THREADS + 1),
        told: Told::default(),
    };
    thread::scope(|scope| {
        for thread in 0..THREADS {
            let meeting = &meeting;
            scope.spawn(move || work(values.clone(), thread, run, meeting));
        }
        measure(store, run, &meeting)
    })
}

/// The same over a store, which compacts itself if that is asked.
fn run_over_store(asked: &Run) -> usize {
    let store = Arc::new(or_end(SharedStore::new()));
    let background: Option<Background> = asked.compacts.then(|| {
        let begun = store.compact_in_background(Policy::default());
        begun.expect("the system has a thread")
    });
    let wrong = run(asked, &InStore(Arc::clone(&store)), Some(&store));
    drop(background);
    wrong
}

fn main() -> ExitCode {
    let words: Vec<String> = std::env::args().skip(1).collect();
    let words: Vec<&str> = words.iter().map(String::as_str).collect();
    let (store, when, seconds) = match words[..] {
        [] => ("store", "compact", Some(20)),
        [store @ ("store" | "boxes"), when @ ("compact" | "never")] => (store, when, Some(20)),
        [store @ ("store" | "boxes"), when @ ("compact" | "never"), seconds] => {
            (store, when, seconds.parse().ok())
        }
        _ => ("", "", None),
    };
    let Some(seconds) = seconds else {
        eprintln!("cache [store|boxes compact|never [SECONDS]]");
        return ExitCode::from(2);
    };
    let asked = Run {
        compacts: when == "compact",
        seconds,
    };
    let wrong = match store {
        "store" => run_over_store(&asked),
        _ => run(&asked, &InBoxes, None),
    };
    println!("{wrong} values were wrong");
    if wrong == 0 {
        ExitCode::SUCCESS
    } else {
        ExitCode::FAILURE
    }
}
