//! A Vulkan backend's use of gpu-descriptor, in the style of wgpu-hal. The same file is compiled over
//! gpu-descriptor 0.3.2 too (tools/both), and is a stand-in for wgpu-hal (tools/patch). `vk` stands in for the
//! crate ash.

use std::sync::atomic::Ordering::Relaxed;
use std::sync::{Arc, Mutex};

/// What the backend takes of ash, over a device that counts its pools and sets.
mod vk {
    use std::sync::atomic::{AtomicU64, Ordering};

    macro_rules! handles {
        ($($name:ident),*) => {$(
            #[derive(Clone, Copy, Debug, Default, PartialEq, Eq, Hash, PartialOrd, Ord)]
            #[repr(transparent)]
            pub struct $name(pub u64);
        )*};
    }
    handles!(DescriptorSetLayout, DescriptorPool, DescriptorSet);

    #[derive(Clone, Copy, Debug, PartialEq, Eq)]
    #[allow(non_camel_case_types, dead_code)]
    pub enum Result {
        ERROR_OUT_OF_HOST_MEMORY,
        ERROR_OUT_OF_DEVICE_MEMORY,
        ERROR_OUT_OF_POOL_MEMORY,
        ERROR_FRAGMENTED_POOL,
        ERROR_FRAGMENTATION,
        ERROR_DEVICE_LOST,
    }

    #[derive(Clone, Copy, PartialEq, Eq)]
    pub struct DescriptorPoolCreateFlags(pub u32);
    impl DescriptorPoolCreateFlags {
        pub const FREE_DESCRIPTOR_SET: Self = Self(1);
        pub const UPDATE_AFTER_BIND: Self = Self(2);
        pub const fn empty() -> Self {
            Self(0)
        }
    }
    impl std::ops::BitOrAssign for DescriptorPoolCreateFlags {
        fn bitor_assign(&mut self, other: Self) {
            self.0 |= other.0;
        }
    }

    #[derive(Clone, Copy, Debug, PartialEq, Eq)]
    pub struct DescriptorType(pub i32);
    impl DescriptorType {
        pub const SAMPLER: Self = Self(0);
        pub const SAMPLED_IMAGE: Self = Self(2);
        pub const STORAGE_IMAGE: Self = Self(3);
        pub const UNIFORM_BUFFER: Self = Self(6);
        pub const STORAGE_BUFFER: Self = Self(7);
        pub const UNIFORM_BUFFER_DYNAMIC: Self = Self(8);
        pub const STORAGE_BUFFER_DYNAMIC: Self = Self(9);
        pub const ACCELERATION_STRUCTURE_KHR: Self = Self(1000150000);
    }

    #[derive(Clone, Copy, Debug)]
    #[allow(dead_code)]
    pub struct DescriptorPoolSize {
        pub ty: DescriptorType,
        pub descriptor_count: u32,
    }

    /// `ash::Device`.
    #[derive(Default)]
    pub struct Device {
        next: AtomicU64,
        pub pools: AtomicU64,
        pub sets: AtomicU64,
    }
    impl Device {
        fn name(&self) -> u64 {
            self.next.fetch_add(1, Ordering::Relaxed) + 1
        }
        pub unsafe fn create_descriptor_pool(
            &self,
            _max_sets: u32,
            _flags: DescriptorPoolCreateFlags,
            _sizes: &[DescriptorPoolSize],
        ) -> std::result::Result<DescriptorPool, Result> {
            self.pools.fetch_add(1, Ordering::Relaxed);
            Ok(DescriptorPool(self.name()))
        }
        pub unsafe fn destroy_descriptor_pool(&self, _pool: DescriptorPool) {
            self.pools.fetch_sub(1, Ordering::Relaxed);
        }
        pub unsafe fn allocate_descriptor_sets(
            &self,
            _pool: DescriptorPool,
            layouts: &[DescriptorSetLayout],
        ) -> std::result::Result<Vec<DescriptorSet>, Result> {
            self.sets.fetch_add(layouts.len() as u64, Ordering::Relaxed);
            Ok(layouts.iter().map(|_| DescriptorSet(self.name())).collect())
        }
        pub unsafe fn free_descriptor_sets(
            &self,
            _pool: DescriptorPool,
            sets: &[DescriptorSet],
        ) -> std::result::Result<(), Result> {
            self.sets.fetch_sub(sets.len() as u64, Ordering::Relaxed);
            Ok(())
        }
    }
}

#[derive(Clone, Debug, PartialEq, Eq)]
#[allow(dead_code)]
enum DeviceError {
    OutOfMemory,
    Lost,
}

impl From<gpu_descriptor::AllocationError> for DeviceError {
    fn from(error: gpu_descriptor::AllocationError) -> Self {
        use gpu_descriptor::AllocationError as Ae;
        match error {
            Ae::OutOfDeviceMemory | Ae::OutOfHostMemory | Ae::Fragmentation => Self::OutOfMemory,
        }
    }
}

#[cold]
fn handle_unexpected(err: vk::Result) -> ! {
    panic!("Unexpected Vulkan error: `{err:?}`")
}

/// What wgpu-hal's device shares with its resources. It is the device that the allocator gets.
struct DeviceShared {
    raw: vk::Device,
}

impl
    gpu_descriptor::DescriptorDevice<vk::DescriptorSetLayout, vk::DescriptorPool, vk::DescriptorSet>
    for DeviceShared
{
    unsafe fn create_descriptor_pool(
        &self,
        descriptor_count: &gpu_descriptor::DescriptorTotalCount,
        max_sets: u32,
        flags: gpu_descriptor::DescriptorPoolCreateFlags,
    ) -> Result<vk::DescriptorPool, gpu_descriptor::CreatePoolError> {
        // Note: ignoring other types, since they can't appear here.
        let unfiltered_counts = [
            (vk::DescriptorType::SAMPLER, descriptor_count.sampler),
            (
                vk::DescriptorType::SAMPLED_IMAGE,
                descriptor_count.sampled_image,
            ),
            (
                vk::DescriptorType::STORAGE_IMAGE,
                descriptor_count.storage_image,
            ),
            (
                vk::DescriptorType::UNIFORM_BUFFER,
                descriptor_count.uniform_buffer,
            ),
            (
                vk::DescriptorType::UNIFORM_BUFFER_DYNAMIC,
                descriptor_count.uniform_buffer_dynamic,
            ),
            (
                vk::DescriptorType::STORAGE_BUFFER,
                descriptor_count.storage_buffer,
            ),
            (
                vk::DescriptorType::STORAGE_BUFFER_DYNAMIC,
                descriptor_count.storage_buffer_dynamic,
            ),
            (
                vk::DescriptorType::ACCELERATION_STRUCTURE_KHR,
                descriptor_count.acceleration_structure,
            ),
        ];
        let filtered_counts = unfiltered_counts
            .iter()
            .cloned()
            .filter(|&(_, count)| count != 0)
            .map(|(ty, count)| vk::DescriptorPoolSize {
                ty,
                descriptor_count: count,
            })
            .collect::<Vec<_>>();

        let mut vk_flags =
            if flags.contains(gpu_descriptor::DescriptorPoolCreateFlags::UPDATE_AFTER_BIND) {
                vk::DescriptorPoolCreateFlags::UPDATE_AFTER_BIND
            } else {
                vk::DescriptorPoolCreateFlags::empty()
            };
        if flags.contains(gpu_descriptor::DescriptorPoolCreateFlags::FREE_DESCRIPTOR_SET) {
            vk_flags |= vk::DescriptorPoolCreateFlags::FREE_DESCRIPTOR_SET;
        }

        match unsafe {
            self.raw
                .create_descriptor_pool(max_sets, vk_flags, &filtered_counts)
        } {
            Ok(pool) => Ok(pool),
            Err(vk::Result::ERROR_OUT_OF_HOST_MEMORY) => {
                Err(gpu_descriptor::CreatePoolError::OutOfHostMemory)
            }
            Err(vk::Result::ERROR_OUT_OF_DEVICE_MEMORY) => {
                Err(gpu_descriptor::CreatePoolError::OutOfDeviceMemory)
            }
            Err(vk::Result::ERROR_FRAGMENTATION) => {
                Err(gpu_descriptor::CreatePoolError::Fragmentation)
            }
            Err(err) => handle_unexpected(err),
        }
    }

    unsafe fn destroy_descriptor_pool(&self, pool: vk::DescriptorPool) {
        unsafe { self.raw.destroy_descriptor_pool(pool) }
    }

    unsafe fn alloc_descriptor_sets<'a>(
        &self,
        pool: &mut vk::DescriptorPool,
        layouts: impl ExactSizeIterator<Item = &'a vk::DescriptorSetLayout>,
        sets: &mut impl Extend<vk::DescriptorSet>,
    ) -> Result<(), gpu_descriptor::DeviceAllocationError> {
        let result = unsafe {
            self.raw
                .allocate_descriptor_sets(*pool, &Vec::from_iter(layouts.cloned()))
        };
        match result {
            Ok(vk_sets) => {
                sets.extend(vk_sets);
                Ok(())
            }
            Err(vk::Result::ERROR_OUT_OF_HOST_MEMORY)
            | Err(vk::Result::ERROR_OUT_OF_POOL_MEMORY) => {
                Err(gpu_descriptor::DeviceAllocationError::OutOfHostMemory)
            }
            Err(vk::Result::ERROR_OUT_OF_DEVICE_MEMORY) => {
                Err(gpu_descriptor::DeviceAllocationError::OutOfDeviceMemory)
            }
            Err(vk::Result::ERROR_FRAGMENTED_POOL) => {
                Err(gpu_descriptor::DeviceAllocationError::FragmentedPool)
            }
            Err(err) => handle_unexpected(err),
        }
    }

    unsafe fn dealloc_descriptor_sets<'a>(
        &self,
        pool: &mut vk::DescriptorPool,
        sets: impl Iterator<Item = vk::DescriptorSet>,
    ) {
        let result = unsafe { self.raw.free_descriptor_sets(*pool, &Vec::from_iter(sets)) };
        match result {
            Ok(()) => {}
            Err(err) => handle_unexpected(err),
        }
    }
}

/// A layout with what `allocate` has to know of it.
struct BindGroupLayout {
    raw: vk::DescriptorSetLayout,
    desc_count: gpu_descriptor::DescriptorTotalCount,
    is_bindless: bool,
}

#[derive(Debug)]
struct BindGroup {
    set: gpu_descriptor::DescriptorSet<vk::DescriptorSet>,
}

/// The backend's device. As in wgpu-hal a lock is around the allocator.
struct Device {
    shared: Arc<DeviceShared>,
    desc_allocator:
        Mutex<gpu_descriptor::DescriptorAllocator<vk::DescriptorPool, vk::DescriptorSet>>,
}

impl Device {
    fn new(max_update_after_bind_descriptors_in_all_pools: u32) -> Self {
        let desc_allocator = gpu_descriptor::DescriptorAllocator::new(
            max_update_after_bind_descriptors_in_all_pools,
        );
        Device {
            shared: Arc::new(DeviceShared {
                raw: vk::Device::default(),
            }),
            desc_allocator: Mutex::new(desc_allocator),
        }
    }

    /// Two samplers, a uniform buffer and four images.
    fn create_bind_group_layout(&self, raw: u64, is_bindless: bool) -> BindGroupLayout {
        let mut desc_count = gpu_descriptor::DescriptorTotalCount::default();
        for (place, count) in [2, 1, 4].into_iter().enumerate() {
            match place {
                0 => desc_count.sampler += count,
                1 => desc_count.uniform_buffer += count,
                _ => desc_count.sampled_image += count,
            }
        }
        BindGroupLayout {
            raw: vk::DescriptorSetLayout(raw),
            desc_count,
            is_bindless,
        }
    }

    unsafe fn create_bind_group(&self, layout: &BindGroupLayout) -> Result<BindGroup, DeviceError> {
        let desc_set_layout_flags = if layout.is_bindless {
            gpu_descriptor::DescriptorSetLayoutCreateFlags::UPDATE_AFTER_BIND
        } else {
            gpu_descriptor::DescriptorSetLayoutCreateFlags::empty()
        };
        let mut vk_sets = unsafe {
            self.desc_allocator.lock().unwrap().allocate(
                &*self.shared,
                &layout.raw,
                desc_set_layout_flags,
                &layout.desc_count,
                1,
            )?
        };
        let set = vk_sets.pop().unwrap();
        Ok(BindGroup { set })
    }

    unsafe fn destroy_bind_group(&self, group: BindGroup) {
        unsafe {
            self.desc_allocator
                .lock()
                .unwrap()
                .free(&*self.shared, Some(group.set));
        }
    }

    unsafe fn exit(self) -> Arc<DeviceShared> {
        unsafe {
            self.desc_allocator
                .into_inner()
                .unwrap()
                .cleanup(&*self.shared);
        }
        self.shared
    }
}

fn is_sent<T: Send + Sync>() {}

/// For each layout a thread creates 200 bind groups. At the end all are destroyed, and nothing is left.
#[test]
fn two_threads() {
    is_sent::<Device>();
    is_sent::<gpu_descriptor::DescriptorSet<vk::DescriptorSet>>();
    let device = Device::new(100_000);
    let layouts = [
        device.create_bind_group_layout(1, false),
        device.create_bind_group_layout(2, true),
    ];
    let mut groups = Vec::new();
    std::thread::scope(|scope| {
        for layout in &layouts {
            let (device, groups) = (&device, &mut groups);
            let made = scope.spawn(move || {
                (0..200)
                    .map(|_| unsafe { device.create_bind_group(layout) }.unwrap())
                    .collect::<Vec<_>>()
            });
            groups.extend(made.join().unwrap());
        }
    });
    let mut names: Vec<_> = groups.iter().map(|group| *group.set.raw()).collect();
    names.sort();
    names.dedup();
    assert_eq!(names.len(), 400);
    let raw: &mut vk::DescriptorSet = unsafe { groups[0].set.raw_mut() };
    *raw = vk::DescriptorSet(raw.0);
    assert!(device.shared.raw.pools.load(Relaxed) > 0);
    assert_eq!(device.shared.raw.sets.load(Relaxed), 400);
    for group in groups {
        unsafe { device.destroy_bind_group(group) };
    }
    let shared = unsafe { device.exit() };
    assert_eq!(shared.raw.pools.load(Relaxed), 0, "no pool is left");
    assert_eq!(shared.raw.sets.load(Relaxed), 0, "no set is left");
}
