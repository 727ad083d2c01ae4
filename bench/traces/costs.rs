//! What single calls of the crate's set manager cost (`bench/compare --costs`), by name, so many operations: while many
//! layouts with a live set stay, or one. A cost that grows with what stays is a walk over all of it.

#[allow(dead_code)]
mod device;

use device::CountingDevice;
use gpu_descriptor::manager::{LayoutHandle, SetHandle, SetManager};
use gpu_descriptor::{DescriptorSetLayoutCreateFlags, DescriptorTotalCount, SetLayout};

const MANY: u32 = 2000;

struct Scene<'a> {
    manager: SetManager<(), u64, u64, &'a CountingDevice>,
    layouts: Vec<LayoutHandle>,
    first: Vec<LayoutHandle>,
    live: Vec<SetHandle>,
}

impl<'a> Scene<'a> {
    /// So many layouts, each with a live set.
    fn new(device: &'a CountingDevice, size: u32) -> Self {
        let mut manager = SetManager::new(device, u32::MAX);
        let layouts: Vec<_> = (0..size).map(|at| add_layout(&mut manager, at)).collect();
        let live = layouts.iter().map(|it| manager.allocate(*it).unwrap()).collect();
        Scene { manager, first: layouts[..size.min(4) as usize].to_vec(), layouts, live }
    }

    fn free(&mut self, sets: &[SetHandle]) {
        // SAFETY: the device only counts.
        unsafe { self.manager.free(sets) }.unwrap();
    }

    /// A set of the last layout is allocated, and freed.
    fn kept(&mut self) {
        let set = self.manager.allocate(self.layouts[self.layouts.len() - 1]);
        self.free(&[set.unwrap()]);
    }

    /// A frame of so many sets, of the first layouts in turn, while so many frames before it are in flight.
    #[inline(always)]
    fn frame(&mut self, sets: usize, in_flight: u64) {
        let frame = self.manager.begin_frame().unwrap();
        for at in 0..sets {
            let _set = self.manager.allocate_for_frame(self.first[at % self.first.len()]).unwrap();
        }
        self.manager.end_frame();
        // SAFETY: the device only counts.
        unsafe { self.manager.frame_done(frame.saturating_sub(in_flight)) };
    }

    /// A layout is added and removed, with a set that is freed in between.
    fn removed(&mut self) {
        let layout = add_layout(&mut self.manager, 0);
        let set = self.manager.allocate(layout).unwrap();
        self.free(&[set]);
        self.manager.remove_layout(layout).unwrap();
    }

    /// A set is destroyed after a new frame, then one after the frame before it. Neither is done.
    fn waits(&mut self) {
        let frame = self.manager.begin_frame().unwrap();
        for frame in [frame, frame - 1] {
            let set = self.manager.allocate(self.layouts[0]).unwrap();
            self.manager.free_after(&[set], frame).unwrap();
        }
        self.manager.end_frame();
    }

    /// A set that stays.
    fn grown(&mut self) {
        self.live.push(self.manager.allocate(self.layouts[0]).unwrap());
    }

    /// A layout that stays.
    fn layout(&mut self) {
        self.layouts.push(add_layout(&mut self.manager, 1));
    }
}

fn add_layout(manager: &mut SetManager<(), u64, u64, &CountingDevice>, sampler: u32) -> LayoutHandle {
    let counts = DescriptorTotalCount { sampler, uniform_buffer: 1, ..Default::default() };
    let layout = SetLayout { layout: (), counts, flags: DescriptorSetLayoutCreateFlags::empty() };
    // SAFETY: the device only counts.
    unsafe { manager.add_layout(layout) }.unwrap()
}

fn main() {
    let [_, name, operations] = &std::env::args().collect::<Vec<_>>()[..] else {
        panic!("the arguments are a name and a number");
    };
    let (size, operation): (_, fn(&mut _)) = match name.as_str() {
        "kept" => (MANY, Scene::kept),
        "frame" => (MANY, |it: &mut Scene| it.frame(1, 0)),
        "drawn" => (MANY, |it: &mut Scene| it.frame(10_000, 2)),
        "unkept" => (4, |it: &mut Scene| {
            it.manager.set_max_kept(0);
            it.frame(10_000, 2)
        }),
        "removed" => (MANY, Scene::removed),
        "waits" => (1, Scene::waits),
        "grown" => (1, Scene::grown),
        "layout" => (1, Scene::layout),
        _ => panic!("no cost has this name"),
    };
    let device = CountingDevice::new(u64::MAX);
    let mut scene = Scene::new(&device, size);
    (0..operations.parse::<u32>().expect("a number")).for_each(|_| operation(&mut scene));
    // SAFETY: the device only counts.
    unsafe { scene.manager.free_all() };
    // SAFETY: the device only counts.
    unsafe { scene.manager.shutdown() };
}
