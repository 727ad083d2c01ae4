//! What must not compile. Each text has a twin that differs in a word or two and compiles, so the first
//! fails for no other reason.
//!
//! A set that is dropped unnoticed, of an allocator:
//!
//! ```compile_fail
//! #![deny(unused_must_use)]
//! use gpu_descriptor::{AllocationError, DescriptorAllocator, SetLayout};
//! # include!(concat!(env!("CARGO_MANIFEST_DIR"), "/tests/numbers/device.rs"));
//! # fn main() {}
//! # fn f(device: &Device, layout: &SetLayout<u64>) -> Result<(), AllocationError> {
//! let mut allocator = DescriptorAllocator::new(0);
//! unsafe { allocator.allocate_one(device, layout)? };
//! # Ok(())
//! # }
//! ```
//!
//! ```
//! #![deny(unused_must_use)]
//! use gpu_descriptor::{AllocationError, DescriptorAllocator, SetLayout};
//! # include!(concat!(env!("CARGO_MANIFEST_DIR"), "/tests/numbers/device.rs"));
//! # fn main() {}
//! # fn f(device: &Device, layout: &SetLayout<u64>) -> Result<(), AllocationError> {
//! let mut allocator = DescriptorAllocator::new(0);
//! let _set = unsafe { allocator.allocate_one(device, layout)? };
//! # Ok(())
//! # }
//! ```
//!
//! The handle of a set manager's set that is dropped unnoticed:
//!
//! ```compile_fail
//! #![deny(unused_must_use)]
//! use gpu_descriptor::manager::{LayoutHandle, RequestError, SetManager};
//! # include!(concat!(env!("CARGO_MANIFEST_DIR"), "/tests/numbers/device.rs"));
//! # fn main() {}
//! # type Sets = SetManager<u64, u64, u64, Device>;
//! # fn f(manager: &mut Sets, layout: LayoutHandle) -> Result<(), RequestError> {
//! manager.allocate(layout)?;
//! # Ok(())
//! # }
//! ```
//!
//! ```compile_fail
//! #![deny(unused_must_use)]
//! use gpu_descriptor::manager::{LayoutHandle, RequestError, SetManager};
//! # include!(concat!(env!("CARGO_MANIFEST_DIR"), "/tests/numbers/device.rs"));
//! # fn main() {}
//! # type Sets = SetManager<u64, u64, u64, Device>;
//! # fn f(manager: &mut Sets, layout: LayoutHandle) -> Result<(), RequestError> {
//! manager.allocate_for_frame(layout)?;
//! # Ok(())
//! # }
//! ```
//!
//! A number that nobody reads:
//!
//! ```compile_fail
//! #![deny(unused_must_use)]
//! use gpu_descriptor::manager::{LayoutHandle, RequestError, SetManager};
//! # include!(concat!(env!("CARGO_MANIFEST_DIR"), "/tests/numbers/device.rs"));
//! # fn main() {}
//! # type Sets = SetManager<u64, u64, u64, Device>;
//! # fn f(manager: &mut Sets, layout: LayoutHandle) -> Result<(), RequestError> {
//! manager.outstanding();
//! # Ok(())
//! # }
//! ```
//!
//! ```
//! #![deny(unused_must_use)]
//! use gpu_descriptor::manager::{LayoutHandle, RequestError, SetManager};
//! # include!(concat!(env!("CARGO_MANIFEST_DIR"), "/tests/numbers/device.rs"));
//! # fn main() {}
//! # type Sets = SetManager<u64, u64, u64, Device>;
//! # fn f(manager: &mut Sets, layout: LayoutHandle) -> Result<(), RequestError> {
//! let _set = manager.allocate(layout)?;
//! let _frame_set = manager.allocate_for_frame(layout)?;
//! let _count = manager.outstanding();
//! # Ok(())
//! # }
//! ```
//!
//! An allocator or a frame manager in another thread, if its pools or sets can't be sent there:
//!
//! ```compile_fail
//! # use gpu_descriptor::{DescriptorAllocator, frames::FrameManager};
//! # use std::{rc::Rc, sync::Arc};
//! fn is_sent<T: Send>() {}
//! is_sent::<DescriptorAllocator<Rc<u8>, u64>>();
//! ```
//!
//! ```compile_fail
//! # use gpu_descriptor::{DescriptorAllocator, frames::FrameManager};
//! # use std::{rc::Rc, sync::Arc};
//! fn is_sent<T: Send>() {}
//! is_sent::<FrameManager<u64, Rc<u8>>>();
//! ```
//!
//! ```
//! # use gpu_descriptor::{DescriptorAllocator, frames::FrameManager};
//! # use std::{rc::Rc, sync::Arc};
//! fn is_sent<T: Send>() {}
//! is_sent::<DescriptorAllocator<Arc<u8>, u64>>();
//! is_sent::<FrameManager<u64, Arc<u8>>>();
//! ```
//!
//! A match without a last arm, of an error to which causes may be added (E0004):
//!
//! ```compile_fail
//! # use gpu_descriptor::frames::RetireError;
//! fn is_early(error: RetireError<u64>) -> bool {
//!     match error {
//!         RetireError::FrameBack(_) => true,
//!         RetireError::Memory(_) | RetireError::Foreign(_) => false,
//!     }
//! }
//! ```
//!
//! ```
//! # use gpu_descriptor::frames::RetireError;
//! fn is_early(error: RetireError<u64>) -> bool {
//!     match error {
//!         RetireError::FrameBack(_) => true,
//!         _ => false,
//!     }
//! }
//! ```
//!
//! ```compile_fail
//! # use gpu_descriptor::manager::RemoveLayoutError;
//! fn is_unknown(error: RemoveLayoutError) -> bool {
//!     match error {
//!         RemoveLayoutError::NoLayout => true,
//!     }
//! }
//! ```
//!
//! ```
//! # use gpu_descriptor::manager::RemoveLayoutError;
//! fn is_unknown(error: RemoveLayoutError) -> bool {
//!     match error {
//!         RemoveLayoutError::NoLayout => true,
//!         _ => false,
//!     }
//! }
//! ```
//!
//! All fields of numbers to which more may be added (E0638):
//!
//! ```compile_fail
//! # use gpu_descriptor::LayoutStatistics;
//! fn kept(of: LayoutStatistics) -> u64 {
//!     let LayoutStatistics { kept, pools: _, pool_sets_used: _, pool_sets_free: _ } = of;
//!     kept
//! }
//! ```
//!
//! ```
//! # use gpu_descriptor::LayoutStatistics;
//! fn kept(of: LayoutStatistics) -> u64 {
//!     let LayoutStatistics { kept, pools: _, pool_sets_used: _, pool_sets_free: _, .. } = of;
//!     kept
//! }
//! ```
//!
//! A device for a reference to a type that is a device already (E0119):
//!
//! ```compile_fail
//! # use gpu_descriptor::*;
//! struct Gpu;
//! # macro_rules! device_for { ($type:ty) => { impl DescriptorDevice<u64, u64, u64> for $type {
//! #     unsafe fn create_descriptor_pool(
//! #         &self, _: &DescriptorTotalCount, _: u32, _: DescriptorPoolCreateFlags,
//! #     ) -> Result<u64, CreatePoolError> { Ok(1) }
//! #     unsafe fn destroy_descriptor_pool(&self, _: u64) {}
//! #     unsafe fn alloc_descriptor_sets<'a>(
//! #         &self, _: &mut u64, _: impl ExactSizeIterator<Item = &'a u64>, _: &mut impl Extend<u64>,
//! #     ) -> Result<(), DeviceAllocationError> { Ok(()) }
//! #     unsafe fn dealloc_descriptor_sets(&self, _: &mut u64, _: impl Iterator<Item = u64>) {}
//! # } } }
//! device_for!(Gpu);
//! device_for!(&Gpu);
//! ```
//!
//! ```
//! # use gpu_descriptor::*;
//! struct Gpu;
//! struct Borrowed;
//! # macro_rules! device_for { ($type:ty) => { impl DescriptorDevice<u64, u64, u64> for $type {
//! #     unsafe fn create_descriptor_pool(
//! #         &self, _: &DescriptorTotalCount, _: u32, _: DescriptorPoolCreateFlags,
//! #     ) -> Result<u64, CreatePoolError> { Ok(1) }
//! #     unsafe fn destroy_descriptor_pool(&self, _: u64) {}
//! #     unsafe fn alloc_descriptor_sets<'a>(
//! #         &self, _: &mut u64, _: impl ExactSizeIterator<Item = &'a u64>, _: &mut impl Extend<u64>,
//! #     ) -> Result<(), DeviceAllocationError> { Ok(()) }
//! #     unsafe fn dealloc_descriptor_sets(&self, _: &mut u64, _: impl Iterator<Item = u64>) {}
//! # } } }
//! device_for!(Gpu);
//! // Without an impl for the type itself.
//! device_for!(&Borrowed);
//! ```
