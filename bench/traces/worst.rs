//! The worst cases for memory, by name.
//!
//! Of each it prints the pools, their sets and descriptors, and the bytes of the allocator. The program's own
//! list of sets isn't counted.

use crate::by_allocator::Allocator;
use crate::by_c::Library;
use crate::by_lists::Lists;
use crate::by_manager::Keeping;
use crate::measured::{Account, Measured};
use crate::play::{Descriptors, KINDS, Player};

/// The numbers of two kinds.
const SAMPLED_IMAGE: usize = 2;
const UNIFORM_BUFFER: usize = 6;

/// A layout's flag for update-after-bind.
const MARKED: u32 = 2;

/// How many sets are live at once, images one set has, and layouts come and go.
const SPIKE: u32 = 100_000;
const IMAGES: u32 = 100_000;
const LAYOUTS: u32 = 10_000;

/// Vulkan's least `maxUpdateAfterBindDescriptorsInAllPools`.
const LIMIT: u32 = 500_000;

/// How many images a set has of which the limit leaves five hundred.
const PART: u32 = 1_000;

/// A player, and the sets of its program.
struct Case<P: Player<Measured>> {
    player: P,
    sets: Vec<P::Set>,
    bytes_before: u64,
    max_bytes: u64,
}

/// A layout, which is for update-after-bind if it has images alone.
fn layout(buffers: u32, images: u32) -> Descriptors {
    let mut counts = [0; KINDS];
    counts[UNIFORM_BUFFER] = buffers;
    counts[SAMPLED_IMAGE] = images;
    Descriptors { counts, flags: if buffers == 0 { MARKED } else { 0 } }
}

impl<P: Player<Measured>> Case<P> {
    fn new(limit: u32) -> Self {
        // The first line takes memory for all.
        println!("case");
        let bytes_before = Measured::bytes();
        Case { player: P::new(Measured::new(limit)), sets: Vec::new(), bytes_before, max_bytes: 0 }
    }

    fn bytes(&self) -> u64 {
        let own = self.sets.capacity() * size_of::<P::Set>();
        (Measured::bytes() - self.bytes_before).saturating_sub(own as u64)
    }

    fn look(&mut self) {
        self.max_bytes = self.max_bytes.max(self.bytes());
    }

    /// Takes so many sets, one by one, until one is refused: how many it got.
    fn take(&mut self, layout: usize, count: u32) -> u32 {
        let got = (0..count).take_while(|_| self.player.take(0, layout, 1, &mut self.sets)).count() as u32;
        self.look();
        got
    }

    fn free(&mut self) {
        self.player.free(0, &mut self.sets);
        self.look();
    }

    /// So many sets, beside one that stays and comes after some of them.
    fn spike(&mut self, before: u32) {
        self.player.add_layout(0, (), &layout(1, 2));
        self.take(0, before + 1);
        let stays = self.sets.pop();
        self.take(0, SPIKE - before);
        self.free();
        self.sets.extend(stays);
    }

    /// One set of very many images. Without a bound its pool is for 64 of them.
    fn bindless(&mut self) {
        self.player.add_layout(0, (), &layout(0, IMAGES));
        self.take(0, 1);
    }

    /// Layouts with two sets each, one after the other. Each has counts of its own, or all have the same.
    fn layouts(&mut self, are_different: bool) {
        for number in 0..LAYOUTS {
            let number = if are_different { number } else { 0 };
            self.player.add_layout(0, (), &layout(1 + number / 100, number % 100));
            self.take(0, 2);
            self.free();
            self.player.remove_layout(0);
        }
    }

    /// Sets of a layout until one is refused. Once they are freed, sets of another one, and these once more when
    /// it gave back what it can.
    fn limit(&mut self) {
        self.player.add_layout(0, (), &layout(0, PART));
        self.player.add_layout(1, (), &layout(0, PART - 1));
        for layout in [0, 1, 1] {
            println!("got {}", self.take(layout, LIMIT / PART));
            self.free();
            if layout == 1 {
                self.player.trim();
            }
        }
    }

    /// What there is at most, once it has freed what it can, and once no set is live.
    fn end(mut self) {
        self.player.trim();
        say("most", Measured::most(), self.max_bytes);
        say("end", Measured::now(), self.bytes());
        self.free();
        self.player.trim();
        say("gone", Measured::now(), self.bytes());
    }
}

fn say(word: &str, of: Account, bytes: u64) {
    let [pools, sets, descriptors] = of;
    println!("{word} {pools} {sets} {descriptors} {bytes}");
}

fn run<P: Player<Measured>>(name: &str) {
    let mut case: Case<P> = Case::new(if name == "limit" { LIMIT } else { u32::MAX });
    match name {
        "first" => case.spike(0),
        "middle" => case.spike(SPIKE / 2),
        "bindless" => case.bindless(),
        "same" => case.layouts(false),
        "different" => case.layouts(true),
        "limit" => case.limit(),
        _ => panic!("no case has this name"),
    }
    case.end();
}

/// A case by a column.
pub fn play(column: &str, name: &str) {
    match column {
        "crate" => run::<Allocator<Measured>>(name),
        "manager" => run::<Keeping<Measured>>(name),
        "C" => run::<Library<Measured>>(name),
        "lists" => run::<Lists<Measured>>(name),
        _ => panic!("no column has this name"),
    }
}
