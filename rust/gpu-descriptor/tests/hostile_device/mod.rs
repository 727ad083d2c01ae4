//! A device that does what it may not, as it is told, and checks that each set is freed once, to its
//! pool.

use gpu_descriptor::*;
use std::cell::{Cell, RefCell};
use std::collections::BTreeSet;
use std::panic::{AssertUnwindSafe, catch_unwind};
use std::rc::Rc;

/// What it does that it may not: gives sets too many or too few, some with a refusal, panics, leaves sets of
/// a release, or reads on after its end. Or it refuses a third pool, and panics at the release that follows.
#[derive(Clone, Copy, Debug, PartialEq)]
pub enum Fault {
    None,
    OneMore,
    OneMoreInSilence,
    OneFewer,
    Nothing,
    PutsAndRefuses(DeviceAllocationError),
    PanicsAtCreate,
    PanicsAtAlloc,
    PanicsAmongSets,
    PanicsAtFree,
    PanicsAtDestroy,
    LeavesOne,
    LeavesAll,
    ReadsPastTheEnd,
    PanicsAfterTwoPools,
}

/// The faults at which it panics.
pub const PANICS: [Fault; 5] = [
    Fault::PanicsAtCreate,
    Fault::PanicsAtAlloc,
    Fault::PanicsAmongSets,
    Fault::PanicsAtFree,
    Fault::PanicsAtDestroy,
];

/// A raw set: its pool, its number, and a share by which the device sees how many sets are alive.
#[derive(Debug)]
pub struct Set(pub u64, pub u64, #[allow(dead_code)] Rc<()>);

pub struct Device {
    pub fault: Cell<Fault>,

    /// How many calls came, and the one that panics.
    pub calls: Cell<u64>,
    pub panicking: Cell<u64>,
    next: Cell<u64>,
    alive: Rc<()>,
    pub pools: RefCell<BTreeSet<u64>>,

    /// The numbers of all sets that it gave, and of those that it has back.
    pub granted: RefCell<BTreeSet<u64>>,
    released: RefCell<BTreeSet<u64>>,
}

impl Device {
    pub fn new() -> Self {
        Device {
            fault: Cell::new(Fault::None),
            calls: Cell::new(0),
            panicking: Cell::new(u64::MAX),
            next: Cell::new(0),
            alive: Rc::new(()),
            pools: RefCell::default(),
            granted: RefCell::default(),
            released: RefCell::default(),
        }
    }

    fn panic_if(&self, fault: Fault) {
        assert!(self.fault.get() != fault, "{PANICKED}");
    }

    /// Begins a call.
    fn call(&self, fault: Fault) {
        self.panic_if(fault);
        let number = self.calls.replace(self.calls.get() + 1);
        assert!(number != self.panicking.get(), "{PANICKED}");
    }

    fn number(&self) -> u64 {
        self.next.replace(self.next.get() + 1)
    }

    fn set(&self, pool: u64) -> Set {
        let number = self.number();
        self.granted.borrow_mut().insert(number);
        Set(pool, number, self.alive.clone())
    }

    /// How many raw sets were not dropped.
    pub fn alive(&self) -> usize {
        Rc::strong_count(&self.alive) - 1
    }

    fn release(&self, pool: u64, set: Set) {
        assert_eq!(set.0, pool, "it goes to its pool");
        assert!(self.granted.borrow().contains(&set.1));
        assert!(
            self.released.borrow_mut().insert(set.1),
            "it goes back once"
        );
    }

    pub fn released(&self) -> usize {
        self.released.borrow().len()
    }
}

const MAX_POOLS: usize = 10;

/// What it panics with.
pub const PANICKED: &str = "as the test wants it";

impl DescriptorDevice<String, u64, Set> for Device {
    unsafe fn create_descriptor_pool(
        &self,
        _: &DescriptorTotalCount,
        _: u32,
        _: DescriptorPoolCreateFlags,
    ) -> Result<u64, CreatePoolError> {
        self.call(Fault::PanicsAtCreate);
        if self.fault.get() == Fault::PanicsAfterTwoPools && self.pools.borrow().len() == 2 {
            self.fault.set(Fault::PanicsAtFree);
            return Err(CreatePoolError::OutOfDeviceMemory);
        }
        let pool = self.number();
        self.pools.borrow_mut().insert(pool);
        assert!(self.pools.borrow().len() < MAX_POOLS, "no test needs more");
        Ok(pool)
    }

    unsafe fn destroy_descriptor_pool(&self, pool: u64) {
        self.call(Fault::PanicsAtDestroy);
        assert!(self.pools.borrow_mut().remove(&pool));
    }

    unsafe fn alloc_descriptor_sets<'a>(
        &self,
        pool: &mut u64,
        layouts: impl ExactSizeIterator<Item = &'a String>,
        sets: &mut impl Extend<Set>,
    ) -> Result<(), DeviceAllocationError> {
        self.call(Fault::PanicsAtAlloc);
        let fault = self.fault.get();
        let asked = layouts.len();
        let count = match fault {
            Fault::OneMore => asked + 1,
            Fault::OneFewer => asked - 1,
            Fault::Nothing => 0,
            _ => asked,
        };
        // By single sets, and by none.
        for place in 0..count {
            if place == 2 {
                self.panic_if(Fault::PanicsAmongSets);
            }
            sets.extend(Some(self.set(*pool)));
            sets.extend(None);
        }
        match fault {
            Fault::PutsAndRefuses(error) => return Err(error),
            Fault::OneMoreInSilence => {
                let extend = AssertUnwindSafe(|| sets.extend(Some(self.set(*pool))));
                assert!(catch_unwind(extend).is_err(), "there is no place for it");
            }
            _ => {}
        }
        Ok(())
    }

    unsafe fn dealloc_descriptor_sets(&self, pool: &mut u64, mut sets: impl Iterator<Item = Set>) {
        self.call(Fault::PanicsAtFree);
        match self.fault.get() {
            Fault::LeavesAll => {}
            Fault::LeavesOne => drop(sets.next()),
            Fault::ReadsPastTheEnd => {
                for set in sets.by_ref() {
                    self.release(*pool, set);
                }
                assert!(sets.next().is_none());
                assert!(sets.next().is_none());
            }
            _ => sets.for_each(|set| self.release(*pool, set)),
        }
    }
}
