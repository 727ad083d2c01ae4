//! The first device, of an instance of a given version under the validation layer.

use crate::ffi::*;
use crate::functions::{DeviceFunctions, InstanceFunctions, LoaderFunctions, NewerFunctions};
use gpu_descriptor::vulkan::DeviceHandle;
use std::ffi::{CStr, c_char, c_void};
use std::mem::zeroed;
use std::ptr::{self, null, null_mut};
use std::sync::atomic::{AtomicU64, Ordering};

/// How many messages the layer reported.
static MESSAGES: AtomicU64 = AtomicU64::new(0);

/// A device with its functions and its limit, and what `close` destroys with it.
pub struct Gpu {
    pub device: DeviceHandle,
    pub functions: DeviceFunctions,
    pub of_instance: InstanceFunctions,
    pub name: String,

    /// `maxUpdateAfterBindDescriptorsInAllPools`; 0 on Vulkan 1.0, which has no such layouts.
    pub limit: u32,
    pub has_inline_uniform_blocks: bool,
    instance: Instance,
    messenger: Messenger,
}

/// What is missing.
pub type Missing = &'static str;

/// What the layer calls for each message. The first four are shown.
unsafe extern "system" fn note_message(
    _: u32,
    _: u32,
    data: *const MessageData,
    _: *mut c_void,
) -> u32 {
    if MESSAGES.fetch_add(1, Ordering::Relaxed) < 4 {
        // SAFETY: the layer's message is valid in this call.
        let message = unsafe { CStr::from_ptr((*data).message) };
        eprintln!("the layer: {}", message.to_string_lossy());
    }
    0
}

fn messenger_info() -> MessengerCreateInfo {
    MessengerCreateInfo {
        s_type: DEBUG_UTILS_MESSENGER_CREATE_INFO,
        p_next: null(),
        flags: 0,
        severities: MESSAGE_SEVERITIES,
        types: MESSAGE_TYPES,
        callback: note_message,
        user_data: null_mut(),
    }
}

fn create_instance(loader: &LoaderFunctions, api_version: u32) -> Result<Instance, Missing> {
    let messenger = messenger_info();
    let layer: *const c_char = c"VK_LAYER_KHRONOS_validation".as_ptr();
    let extension: *const c_char = c"VK_EXT_debug_utils".as_ptr();
    let application = ApplicationInfo {
        s_type: APPLICATION_INFO,
        p_next: null(),
        application_name: null(),
        application_version: 0,
        engine_name: null(),
        engine_version: 0,
        api_version,
    };
    let info = InstanceCreateInfo {
        s_type: INSTANCE_CREATE_INFO,
        p_next: (&raw const messenger).cast(),
        flags: 0,
        application_info: &application,
        layer_count: 1,
        layers: &layer,
        extension_count: 1,
        extensions: &extension,
    };
    let mut instance = Instance(null_mut());
    // SAFETY: the structures are complete, and live through the call.
    match unsafe { (loader.create_instance)(&info, null(), &mut instance) } {
        SUCCESS => Ok(instance),
        _ => Err("validation layer, or no driver"),
    }
}

/// What a device of Vulkan 1.3 has: its limit, and inline uniform blocks.
fn ask(functions: &NewerFunctions, physical: PhysicalDevice) -> (u32, bool) {
    // SAFETY: here and below, zeros are valid in all fields.
    let mut indexing: IndexingProperties = unsafe { zeroed() };
    indexing.s_type = PHYSICAL_DEVICE_DESCRIPTOR_INDEXING_PROPERTIES;
    let mut properties: Properties2 = unsafe { zeroed() };
    properties.s_type = PHYSICAL_DEVICE_PROPERTIES_2;
    properties.p_next = (&raw mut indexing).cast();
    let mut blocks: InlineUniformBlockFeatures = unsafe { zeroed() };
    blocks.s_type = PHYSICAL_DEVICE_INLINE_UNIFORM_BLOCK_FEATURES;
    let mut features: Features2 = unsafe { zeroed() };
    features.s_type = PHYSICAL_DEVICE_FEATURES_2;
    features.p_next = (&raw mut blocks).cast();
    // SAFETY: both chains are of structures that live.
    unsafe {
        (functions.get_properties_2)(physical, &mut properties);
        (functions.get_features_2)(physical, &mut features);
    }
    let limit = indexing.max_update_after_bind_descriptors_in_all_pools;
    (limit, blocks.inline_uniform_block != 0)
}

fn create_device(
    functions: &InstanceFunctions,
    physical: PhysicalDevice,
    has_blocks: bool,
) -> Result<DeviceHandle, Missing> {
    let priority = 1.0;
    let queue = QueueCreateInfo {
        s_type: DEVICE_QUEUE_CREATE_INFO,
        p_next: null(),
        flags: 0,
        family: 0,
        count: 1,
        priorities: &priority,
    };
    let blocks = InlineUniformBlockFeatures {
        s_type: PHYSICAL_DEVICE_INLINE_UNIFORM_BLOCK_FEATURES,
        p_next: null_mut(),
        inline_uniform_block: 1,
        update_after_bind: 0,
    };
    let info = DeviceCreateInfo {
        s_type: DEVICE_CREATE_INFO,
        p_next: if has_blocks {
            (&raw const blocks).cast()
        } else {
            null()
        },
        flags: 0,
        queue_info_count: 1,
        queue_infos: &queue,
        layer_count: 0,
        layers: null(),
        extension_count: 0,
        extensions: null(),
        features: null(),
    };
    let mut device = DeviceHandle(null_mut());
    // SAFETY: the structures are complete, and live through the call.
    match unsafe { (functions.create_device)(physical, &info, null(), &mut device) } {
        SUCCESS => Ok(device),
        _ => Err("device that the driver creates"),
    }
}

fn first_device(
    functions: &InstanceFunctions,
    instance: Instance,
) -> Result<PhysicalDevice, Missing> {
    let (mut count, mut physical) = (1, PhysicalDevice(null_mut()));
    // SAFETY: there is a place for one.
    let result =
        unsafe { (functions.enumerate_physical_devices)(instance, &mut count, &mut physical) };
    match (result, count) {
        (SUCCESS | INCOMPLETE, 1) => Ok(physical),
        _ => Err("device"),
    }
}

/// The device's name and the version that it supports.
fn name_and_version(functions: &InstanceFunctions, physical: PhysicalDevice) -> (String, u32) {
    // SAFETY: zeros are valid in all fields.
    let mut properties: Properties = unsafe { zeroed() };
    // SAFETY: the structure lives.
    unsafe { (functions.get_properties)(physical, &mut properties) };
    let name = CStr::from_bytes_until_nul(&properties.device_name).unwrap_or_default();
    (name.to_string_lossy().into_owned(), properties.api_version)
}

impl Gpu {
    /// Opens the first device under the validation layer. On an error nothing is destroyed: the process
    /// ends.
    pub fn open(api_version: u32) -> Result<Self, Missing> {
        let loader = LoaderFunctions::open().ok_or("loader, libvulkan.so.1")?;
        let instance = create_instance(&loader, api_version)?;
        let of_instance = loader.of_instance(instance).ok_or("functions")?;
        let mut messenger = Messenger::default();
        let info = messenger_info();
        // SAFETY: the structure is complete.
        let result = unsafe {
            (of_instance.create_messenger)(instance, &info, null(), ptr::from_mut(&mut messenger))
        };
        assert_eq!(result, SUCCESS, "the messenger");
        let physical = first_device(&of_instance, instance)?;
        let (name, version) = name_and_version(&of_instance, physical);
        if version < api_version {
            return Err("device of this version");
        }
        let (limit, has_inline_uniform_blocks) = match api_version {
            API_VERSION_1_0 => (0, false),
            _ => ask(
                &loader.of_newer_instance(instance).ok_or("functions")?,
                physical,
            ),
        };
        let device = create_device(&of_instance, physical, has_inline_uniform_blocks)?;
        Ok(Gpu {
            device,
            functions: of_instance.of_device(device).ok_or("functions")?,
            of_instance,
            name,
            limit,
            has_inline_uniform_blocks,
            instance,
            messenger,
        })
    }

    /// Destroys all, and returns how many messages the layer reported.
    pub fn close(self) -> u64 {
        // SAFETY: nobody else has the handles.
        unsafe {
            (self.functions.destroy_device)(self.device, null());
            (self.of_instance.destroy_messenger)(self.instance, self.messenger, null());
            (self.of_instance.destroy_instance)(self.instance, null());
        }
        MESSAGES.load(Ordering::Relaxed)
    }
}
