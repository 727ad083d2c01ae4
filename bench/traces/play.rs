//! Plays what a program asked of its descriptor pools, by an allocator of sets.
//!
//! A trace has a call in each line; rust/c/layer/README.md has their form. A request of several layouts is
//! played as one for each stretch of one layout. What the program was refused, and layouts that the
//! library doesn't serve, are left out.

use crate::gpu::Gpu;
use std::collections::BTreeMap;
use std::mem::take;
use std::time::{Duration, Instant};

/// How many kinds of descriptors there are.
pub const KINDS: usize = 14;

/// The first passes, in which pools grow: no time of them counts if there are more.
const FIRST_PASSES: u32 = 2;

/// The descriptors of a layout or of a pool, and its flags of Vulkan.
#[derive(Clone, Copy, Default)]
pub struct Descriptors {
    pub counts: [u32; KINDS],
    pub flags: u32,
}

/// The sets of a program, by its own names: numbers of its layouts and pools.
pub trait Player<G: Gpu> {
    type Set;

    fn new(gpu: G) -> Self;

    fn add_layout(&mut self, layout: usize, handle: G::Layout, of: &Descriptors);

    fn remove_layout(&mut self, layout: usize);

    /// The program creates a pool of its own, for so many sets.
    fn add_pool(&mut self, _pool: usize, _max_sets: u32, _of: &Descriptors) {}

    /// Appends so many sets of a layout, or none if they are refused.
    fn take(&mut self, pool: usize, layout: usize, count: u32, sets: &mut Vec<Self::Set>) -> bool;

    /// Takes sets of a pool back.
    fn free(&mut self, pool: usize, sets: &mut Vec<Self::Set>);

    /// Takes all sets of a pool back, which is reset or destroyed.
    fn empty(&mut self, pool: usize, sets: &mut Vec<Self::Set>, _is_destroyed: bool) {
        self.free(pool, sets);
    }

    /// Frees what it can.
    #[cfg(feature = "memory")]
    fn trim(&mut self) {}

    /// How many sets are live, if it counts them.
    fn outstanding(&self) -> Option<u64> {
        None
    }
}

/// A call of a trace, by its numbers of pools and layouts. A request is for so many sets of one layout.
enum Call {
    Layout(usize, Descriptors),
    Unlayout(usize),
    Pool(usize, u32, Descriptors),
    Request(usize, usize, u32),
    /// The places of sets within what their pool has.
    Free(usize, Vec<usize>),
    /// A pool is reset, or destroyed if this is true.
    Empty(usize, bool),
}

/// A program's calls, with the frames that it presented before each, and how many pools it makes.
pub struct Trace {
    calls: Vec<Call>,
    frames: Vec<u32>,
    pools: usize,
}

/// The words of the program that plays: a file, how often it is played, and what else is asked.
pub struct Asked {
    pub file: String,
    pub times: u32,
    pub words: Vec<String>,
}

impl Asked {
    /// Reads the words after the column.
    pub fn read(words: &[String]) -> Self {
        let [file, times, words @ ..] = words else {
            panic!("the arguments are a column, a trace, how often it is played, and words");
        };
        Asked { file: file.clone(), times: times.parse().expect("a number"), words: words.to_vec() }
    }

    pub fn has(&self, word: &str) -> bool {
        self.words.iter().any(|it| it == word)
    }
}

fn number(word: &str) -> usize {
    word.parse().expect("a number in a trace")
}

/// The sets of each pool, by number, while a trace is read.
type Held = Vec<Vec<usize>>;

/// The numbers of the layouts that are played, by their numbers in the trace.
type Played = BTreeMap<usize, usize>;

/// What stands after the word `flags`.
fn descriptors(words: &[&str]) -> Descriptors {
    let mut counts = [0; KINDS];
    for (kind, count) in words[1..].iter().filter_map(|word| word.split_once(':')) {
        counts[number(kind)] += number(count) as u32;
    }
    let flags = number(words[0]) as u32;
    Descriptors { counts, flags }
}

fn layout(words: &[&str], played: &mut Played) -> Option<Call> {
    if words.contains(&"refused") {
        return None;
    }
    let next = played.len();
    played.insert(number(words[1]), next);
    Some(Call::Layout(next, descriptors(&words[3..])))
}

fn pool(words: &[&str]) -> Call {
    let max_sets = number(words[3]) as u32;
    Call::Pool(number(words[1]), max_sets, descriptors(&words[5..]))
}

/// The stretches of one layout. No layout is refused in a request that is played.
fn requests(words: &[&str], played: &Played, held: &mut Held, calls: &mut Vec<Call>) {
    let [_, pool, count, rest @ .., sign, first] = words else {
        return;
    };
    if *sign != "=" {
        return;
    }
    let pool = number(pool);
    held[pool].extend((number(first)..).take(number(count)));
    for stretch in rest.chunk_by(|one, next| one == next) {
        calls.push(Call::Request(pool, played[&number(stretch[0])], stretch.len() as u32));
    }
}

/// A set that is freed leaves its place to the last one.
fn free(words: &[&str], held: &mut Held) -> Call {
    let pool = number(words[1]);
    let places = words[3..].iter().map(|word| {
        let place = held[pool].iter().position(|set| *set == number(word));
        let place = place.expect("a set that is freed is of its pool");
        held[pool].swap_remove(place);
        place
    });
    Call::Free(pool, places.collect())
}

impl Trace {
    pub fn read(text: &str) -> Self {
        let (mut calls, mut held, mut played): (_, Held, _) = (Vec::new(), Vec::new(), Played::new());
        let (mut frames, mut frame) = (Vec::new(), 0);
        for line in text.lines() {
            let words: Vec<&str> = line.split_whitespace().collect();
            match words[0] {
                "layout" => calls.extend(layout(&words, &mut played)),
                "unlayout" => calls.extend(played.get(&number(words[1])).map(|it| Call::Unlayout(*it))),
                "pool" => {
                    held.push(Vec::new());
                    calls.push(pool(&words));
                }
                "alloc" => requests(&words, &played, &mut held, &mut calls),
                "free" => calls.push(free(&words, &mut held)),
                "reset" | "destroy" => {
                    held[number(words[1])].clear();
                    calls.push(Call::Empty(number(words[1]), words[0] == "destroy"));
                }
                "present" => frame += 1,
                _ => {}
            }
            frames.resize(calls.len(), frame);
        }
        let pools = held.len();
        Trace { calls, frames, pools }
    }

    fn layouts(&self) -> impl Iterator<Item = (usize, &Descriptors)> {
        self.calls.iter().filter_map(|call| match call {
            Call::Layout(layout, of) => Some((*layout, of)),
            _ => None,
        })
    }

    /// All layouts are there before the first pass, and none goes.
    fn keep_layouts<G: Gpu>(&mut self, player: &mut impl Player<G>, handles: &[G::Layout]) {
        for (layout, of) in self.layouts() {
            player.add_layout(layout, handles[layout], of);
        }
        let goes = |call: &Call| matches!(call, Call::Layout(..) | Call::Unlayout(_));
        let calls = take(&mut self.calls).into_iter();
        let stay = calls.zip(take(&mut self.frames)).filter(|it| !goes(&it.0));
        (self.calls, self.frames) = stay.unzip();
    }

    /// Plays all calls once: how many sets were allocated, freed, and left.
    fn play<G: Gpu, P: Player<G>>(&self, player: &mut P, handles: &[G::Layout], pools: &mut [Vec<P::Set>]) -> [u64; 3] {
        let (mut allocated, mut freed, mut some) = (0, 0, Vec::new());
        for (place, call) in self.calls.iter().enumerate() {
            match call {
                Call::Layout(layout, of) => player.add_layout(*layout, handles[*layout], of),
                Call::Unlayout(layout) => player.remove_layout(*layout),
                Call::Pool(pool, max_sets, of) => player.add_pool(*pool, *max_sets, of),
                Call::Request(pool, layout, count) => {
                    allocated += u64::from(*count);
                    assert!(player.take(*pool, *layout, *count, &mut pools[*pool]));
                }
                Call::Free(pool, places) => {
                    some.extend(places.iter().map(|place| pools[*pool].swap_remove(*place)));
                    freed += some.len() as u64;
                    player.free(*pool, &mut some);
                }
                Call::Empty(pool, is_destroyed) => {
                    freed += pools[*pool].len() as u64;
                    player.empty(*pool, &mut pools[*pool], *is_destroyed);
                }
            }
            if let Some(frame) = self.frames.get(place) {
                G::at(*frame);
            }
        }
        [allocated, freed, pools.iter().map(|sets| sets.len() as u64).sum()]
    }
}

/// Plays a trace some times, and reports what was done. What a pass leaves goes after it. With the word `stay`
/// no layout goes.
pub fn run<G: Gpu, P: Player<G>>(gpu: G, asked: &Asked) {
    let text = std::fs::read_to_string(&asked.file).expect("a trace");
    let mut trace = Trace::read(&text);
    let handles: Vec<G::Layout> = trace.layouts().map(|it| gpu.create_layout(it.1)).collect();
    let mut player = P::new(gpu);
    if asked.has("stay") {
        trace.keep_layouts(&mut player, &handles);
    }
    let mut pools: Vec<Vec<P::Set>> = (0..trace.pools).map(|_| Vec::new()).collect();
    let (mut time, mut done) = (Duration::ZERO, [0; 3]);
    for number in 0..asked.times {
        if number == FIRST_PASSES {
            time = Duration::ZERO;
            G::forget();
        }
        let start = Instant::now();
        let pass = trace.play(&mut player, &handles, &mut pools);
        time += start.elapsed();
        assert_eq!(player.outstanding().unwrap_or(pass[2]), pass[2]);
        for (pool, sets) in pools.iter_mut().enumerate() {
            player.free(pool, sets);
        }
        done = [done[0] + pass[0], done[1] + pass[1], done[2] + pass[2]];
    }
    let [allocated, freed, left] = done;
    let times = asked.times;
    println!("played {times} {allocated} operations, {freed} freed, {left} left");
    eprintln!("{} ns{}", time.as_nanos(), G::account());
}
