// An engine over the owners of gpu_descriptor.hpp, on the first Vulkan device: three frames in flight, four
// threads that record, sets of materials, of draws and of all textures, levels that are streamed, layouts
// that are replaced. Only begin_frame and frame_done determine when a set is freed; no owner is told.
//
// Draws are dispatches, whose results are compared with what they must be. If the Khronos validation layer is
// installed, it writes its messages to the standard output. The exit code is 3 if there is no driver or no
// device.
#include "engine_shader.h"
#include "gpu_descriptor.hpp"
#include "gpu_descriptor_vulkan.h"

#include <array>
#include <cstdio>
#include <cstdlib>
#include <cstring>
#include <memory>
#include <random>
#include <thread>
#include <vector>

namespace {

constexpr uint32_t FRAMES = 300, IN_FLIGHT = 3, THREADS = 4, DRAWS = 64 * THREADS, MATERIALS = 512, TEXTURES = 16;

// The buffer, in words. A uniform buffer begins at a multiple of 256 bytes.
constexpr uint32_t UNIFORM = 64, FRAME = 0, MATERIAL = FRAME + UNIFORM * IN_FLIGHT,
                   DRAW = MATERIAL + UNIFORM * MATERIALS, RESULT = DRAW + UNIFORM * DRAWS,
                   WORDS = RESULT + DRAWS * IN_FLIGHT;

[[noreturn]] void miss(const char *what) {
    std::printf("skipped: the loader finds no %s\n", what);
    std::exit(3);
}

void require(bool fact, const char *what) {
    if (fact)
        return;
    std::printf("failed: %s\n", what);
    std::exit(1);
}

void require(VkResult result, const char *what) {
    require(result == VK_SUCCESS, what);
}

void require(gd_status status, const char *what) {
    if (status != GD_OK)
        std::printf("%s\n", gd_status_name(status));
    require(status == GD_OK, what);
}

template <class Info> Info info_of(VkStructureType type) {
    Info info{};
    info.sType = type;
    return info;
}

// ---- a device, and memory that the host writes ----

struct gpu {
    VkInstance instance{};
    VkPhysicalDevice physical{};
    VkDevice device{};
    VkQueue queue{};
    VkBuffer buffer{};
    VkDeviceMemory memory{};
    uint32_t *words{};
    uint32_t limit = 0; // maxUpdateAfterBindDescriptorsInAllPools
    bool has_layer = false;

    gpu();
    gpu(const gpu &) = delete;
    gpu &operator=(const gpu &) = delete;
    ~gpu();

  private:
    void make_instance();
    void make_device();
    void make_buffer();
};

void gpu::make_instance() {
    const char *layer = "VK_LAYER_KHRONOS_validation";
    std::array<VkLayerProperties, 64> layers;
    uint32_t count = 64;
    (void)vkEnumerateInstanceLayerProperties(&count, layers.data());
    for (uint32_t place = 0; place < count; place++)
        has_layer = has_layer || std::strcmp(layers[place].layerName, layer) == 0;
    auto about = info_of<VkApplicationInfo>(VK_STRUCTURE_TYPE_APPLICATION_INFO);
    about.apiVersion = VK_API_VERSION_1_2;
    auto info = info_of<VkInstanceCreateInfo>(VK_STRUCTURE_TYPE_INSTANCE_CREATE_INFO);
    info.pApplicationInfo = &about;
    info.enabledLayerCount = has_layer ? 1 : 0;
    info.ppEnabledLayerNames = &layer;
    if (vkCreateInstance(&info, nullptr, &instance) != VK_SUCCESS)
        miss("driver");
    count = 1;
    if (vkEnumeratePhysicalDevices(instance, &count, &physical) < 0 || count == 0)
        miss("device");
}

void gpu::make_device() {
    auto indexing = info_of<VkPhysicalDeviceDescriptorIndexingProperties>(
        VK_STRUCTURE_TYPE_PHYSICAL_DEVICE_DESCRIPTOR_INDEXING_PROPERTIES);
    auto properties = info_of<VkPhysicalDeviceProperties2>(VK_STRUCTURE_TYPE_PHYSICAL_DEVICE_PROPERTIES_2);
    properties.pNext = &indexing;
    vkGetPhysicalDeviceProperties2(physical, &properties);
    limit = indexing.maxUpdateAfterBindDescriptorsInAllPools;
    const float priority = 1;
    auto queues = info_of<VkDeviceQueueCreateInfo>(VK_STRUCTURE_TYPE_DEVICE_QUEUE_CREATE_INFO);
    queues.queueCount = 1;
    queues.pQueuePriorities = &priority;
    VkPhysicalDeviceFeatures features{};
    features.shaderStorageBufferArrayDynamicIndexing = VK_TRUE;
    auto info = info_of<VkDeviceCreateInfo>(VK_STRUCTURE_TYPE_DEVICE_CREATE_INFO);
    info.queueCreateInfoCount = 1;
    info.pQueueCreateInfos = &queues;
    info.pEnabledFeatures = &features;
    if (vkCreateDevice(physical, &info, nullptr, &device) != VK_SUCCESS)
        miss("device that the driver makes");
    vkGetDeviceQueue(device, 0, 0, &queue);
}

void gpu::make_buffer() {
    auto info = info_of<VkBufferCreateInfo>(VK_STRUCTURE_TYPE_BUFFER_CREATE_INFO);
    info.size = WORDS * sizeof *words;
    info.usage = VK_BUFFER_USAGE_UNIFORM_BUFFER_BIT | VK_BUFFER_USAGE_STORAGE_BUFFER_BIT;
    require(vkCreateBuffer(device, &info, nullptr, &buffer), "vkCreateBuffer");
    VkMemoryRequirements wanted;
    vkGetBufferMemoryRequirements(device, buffer, &wanted);
    VkPhysicalDeviceMemoryProperties types;
    vkGetPhysicalDeviceMemoryProperties(physical, &types);
    constexpr uint32_t host = VK_MEMORY_PROPERTY_HOST_VISIBLE_BIT | VK_MEMORY_PROPERTY_HOST_COHERENT_BIT;
    uint32_t type = 0;
    while ((wanted.memoryTypeBits >> type & 1) == 0 || (types.memoryTypes[type].propertyFlags & host) != host)
        require(++type < types.memoryTypeCount, "memory that the host writes");
    auto block = info_of<VkMemoryAllocateInfo>(VK_STRUCTURE_TYPE_MEMORY_ALLOCATE_INFO);
    block.allocationSize = wanted.size;
    block.memoryTypeIndex = type;
    require(vkAllocateMemory(device, &block, nullptr, &memory), "vkAllocateMemory");
    require(vkBindBufferMemory(device, buffer, memory, 0), "vkBindBufferMemory");
    void *start = nullptr;
    require(vkMapMemory(device, memory, 0, VK_WHOLE_SIZE, 0, &start), "vkMapMemory");
    words = static_cast<uint32_t *>(start);
}

gpu::gpu() {
    make_instance();
    make_device();
    make_buffer();
    for (uint32_t material = 0; material < MATERIALS; material++)
        words[MATERIAL + UNIFORM * material] = material;
    for (uint32_t draw = 0; draw < DRAWS; draw++)
        words[DRAW + UNIFORM * draw] = draw;
}

gpu::~gpu() {
    vkDestroyBuffer(device, buffer, nullptr);
    vkFreeMemory(device, memory, nullptr);
    vkDestroyDevice(device, nullptr);
    vkDestroyInstance(instance, nullptr);
}

// ---- layouts, and a pipeline of them ----

// A layout of Vulkan's and its owner, which ends first.
struct layout {
    VkDevice device{};
    VkDescriptorSetLayout vk{};
    gd::layout known;

    layout(const gpu &on, const gd::allocator &allocator, const std::vector<VkDescriptorSetLayoutBinding> &bindings)
        : device(on.device) {
        auto info = info_of<VkDescriptorSetLayoutCreateInfo>(VK_STRUCTURE_TYPE_DESCRIPTOR_SET_LAYOUT_CREATE_INFO);
        info.bindingCount = uint32_t(bindings.size());
        info.pBindings = bindings.data();
        require(vkCreateDescriptorSetLayout(device, &info, nullptr, &vk), "vkCreateDescriptorSetLayout");
        require(gdv_add_layout(allocator.raw(), vk, &info, known.put(allocator)), "gdv_add_layout");
    }
    layout(const layout &) = delete;
    layout &operator=(const layout &) = delete;
    ~layout() {
        require(known.remove(), "remove");
        vkDestroyDescriptorSetLayout(device, vk, nullptr);
    }
};

VkDescriptorSetLayoutBinding binding_of(uint32_t number, VkDescriptorType type, uint32_t count = 1) {
    return {number, type, count, VK_SHADER_STAGE_COMPUTE_BIT, nullptr};
}

struct pipeline {
    VkDevice device;
    layout frame, material, draw, textures;
    VkPipelineLayout all{};
    VkPipeline vk{};

    pipeline(const gpu &on, const gd::allocator &allocator)
        : device(on.device), frame(on, allocator, {binding_of(0, VK_DESCRIPTOR_TYPE_UNIFORM_BUFFER)}),
          material(on, allocator, {binding_of(0, VK_DESCRIPTOR_TYPE_UNIFORM_BUFFER)}),
          draw(on, allocator, {binding_of(0, VK_DESCRIPTOR_TYPE_UNIFORM_BUFFER),
                               binding_of(1, VK_DESCRIPTOR_TYPE_STORAGE_BUFFER)}),
          textures(on, allocator, {binding_of(0, VK_DESCRIPTOR_TYPE_STORAGE_BUFFER, TEXTURES)}) {
        const VkDescriptorSetLayout layouts[] = {frame.vk, material.vk, draw.vk, textures.vk};
        auto of_sets = info_of<VkPipelineLayoutCreateInfo>(VK_STRUCTURE_TYPE_PIPELINE_LAYOUT_CREATE_INFO);
        of_sets.setLayoutCount = 4;
        of_sets.pSetLayouts = layouts;
        require(vkCreatePipelineLayout(device, &of_sets, nullptr, &all), "vkCreatePipelineLayout");
        auto code = info_of<VkShaderModuleCreateInfo>(VK_STRUCTURE_TYPE_SHADER_MODULE_CREATE_INFO);
        code.codeSize = sizeof engine_shader;
        code.pCode = engine_shader;
        auto info = info_of<VkComputePipelineCreateInfo>(VK_STRUCTURE_TYPE_COMPUTE_PIPELINE_CREATE_INFO);
        info.stage.sType = VK_STRUCTURE_TYPE_PIPELINE_SHADER_STAGE_CREATE_INFO;
        info.stage.stage = VK_SHADER_STAGE_COMPUTE_BIT;
        info.stage.pName = "main";
        info.layout = all;
        require(vkCreateShaderModule(device, &code, nullptr, &info.stage.module), "vkCreateShaderModule");
        require(vkCreateComputePipelines(device, {}, 1, &info, nullptr, &vk), "vkCreateComputePipelines");
        vkDestroyShaderModule(device, info.stage.module, nullptr);
    }
    pipeline(const pipeline &) = delete;
    pipeline &operator=(const pipeline &) = delete;
    ~pipeline() {
        vkDestroyPipeline(device, vk, nullptr);
        vkDestroyPipelineLayout(device, all, nullptr);
    }
};

// ---- the engine ----

struct material {
    uint32_t id;
    gd::set set;
};

// What a frame in flight has: a fence, and for each thread commands and the sets of its draws.
struct slot {
    VkFence fence{};
    std::array<VkCommandPool, THREADS> pools{};
    std::array<VkCommandBuffer, THREADS> commands{};
    std::array<gd::frame, THREADS> drawn;
    gd::set uniforms;
    uint64_t number = 0; // 0: none is in flight
    std::array<uint32_t, DRAWS> expected{};
};

class engine {
  public:
    engine();
    engine(const engine &) = delete;
    engine &operator=(const engine &) = delete;
    ~engine();

    void draw_frame(uint64_t number);
    void finish();
    void print() const;

  private:
    gd::set allocate(const layout &of) {
        gd::set made;
        require(allocator_.allocate(of.known, made), "allocate");
        return made;
    }
    void write(VkDescriptorSet set, uint32_t binding, VkDescriptorType type,
               const std::vector<VkDescriptorBufferInfo> &buffers) const;
    material make_material(uint32_t id);
    std::vector<material> make_level(const std::vector<uint32_t> &ids);
    std::vector<uint32_t> random_ids();
    void make_uniforms();
    void replace_textures();
    void replace_layouts();
    void record(slot &it, uint32_t place, uint32_t thread) const;
    void wait(slot &it, uint32_t place);

    VkDescriptorBufferInfo part(uint32_t first_word, uint32_t words = 1) const {
        return {gpu_.buffer, first_word * sizeof(uint32_t), words * sizeof(uint32_t)};
    }

    gpu gpu_;
    gd::allocator allocator_;
    std::unique_ptr<pipeline> pipeline_;
    std::array<slot, IN_FLIGHT> slots_;
    std::vector<material> level_;
    gd::set textures_;
    uint32_t version_ = 0; // of the textures
    std::mt19937 random_{3};
};

engine::engine() {
    gdv_device vulkan;
    require(gdv_load(&vulkan, gpu_.device, nullptr, vkGetDeviceProcAddr), "gdv_load");
    require(gdv_create(&vulkan, gpu_.limit, allocator_.put()), "gdv_create");
    if (gpu_.has_layer) // it sees each set again
        require(allocator_.set_max_kept(0), "keep");
    for (slot &it : slots_) {
        auto fence = info_of<VkFenceCreateInfo>(VK_STRUCTURE_TYPE_FENCE_CREATE_INFO);
        require(vkCreateFence(gpu_.device, &fence, nullptr, &it.fence), "vkCreateFence");
        for (uint32_t thread = 0; thread < THREADS; thread++) {
            auto pool = info_of<VkCommandPoolCreateInfo>(VK_STRUCTURE_TYPE_COMMAND_POOL_CREATE_INFO);
            require(vkCreateCommandPool(gpu_.device, &pool, nullptr, &it.pools[thread]), "vkCreateCommandPool");
            auto buffer = info_of<VkCommandBufferAllocateInfo>(VK_STRUCTURE_TYPE_COMMAND_BUFFER_ALLOCATE_INFO);
            buffer.commandPool = it.pools[thread];
            buffer.commandBufferCount = 1;
            require(vkAllocateCommandBuffers(gpu_.device, &buffer, &it.commands[thread]), "vkAllocateCommandBuffers");
            it.drawn[thread] = gd::frame(allocator_, 0);
        }
    }
    pipeline_ = std::make_unique<pipeline>(gpu_, allocator_);
    make_uniforms();
    replace_textures();
    level_ = make_level(random_ids());
}

engine::~engine() {
    for (slot &it : slots_) {
        vkDestroyFence(gpu_.device, it.fence, nullptr);
        for (VkCommandPool pool : it.pools)
            vkDestroyCommandPool(gpu_.device, pool, nullptr);
    }
}

void engine::write(VkDescriptorSet set, uint32_t binding, VkDescriptorType type,
                   const std::vector<VkDescriptorBufferInfo> &buffers) const {
    auto info = info_of<VkWriteDescriptorSet>(VK_STRUCTURE_TYPE_WRITE_DESCRIPTOR_SET);
    info.dstSet = set;
    info.dstBinding = binding;
    info.descriptorType = type;
    info.descriptorCount = uint32_t(buffers.size());
    info.pBufferInfo = buffers.data();
    vkUpdateDescriptorSets(gpu_.device, 1, &info, 0, nullptr);
}

material engine::make_material(uint32_t id) {
    material made{id, allocate(pipeline_->material)};
    write(made.set.vk(), 0, VK_DESCRIPTOR_TYPE_UNIFORM_BUFFER, {part(MATERIAL + UNIFORM * id)});
    return made;
}

std::vector<material> engine::make_level(const std::vector<uint32_t> &ids) {
    std::vector<material> made;
    for (uint32_t id : ids)
        made.push_back(make_material(id));
    return made;
}

std::vector<uint32_t> engine::random_ids() {
    std::vector<uint32_t> ids(20 + random_() % 400);
    for (uint32_t &id : ids)
        id = uint32_t(random_() % MATERIALS);
    return ids;
}

void engine::make_uniforms() {
    for (uint32_t place = 0; place < IN_FLIGHT; place++) {
        slots_[place].uniforms = allocate(pipeline_->frame);
        write(slots_[place].uniforms.vk(), 0, VK_DESCRIPTOR_TYPE_UNIFORM_BUFFER, {part(FRAME + UNIFORM * place)});
    }
}

// The old set of all textures is in use by frames in flight: its owner lets it wait for the current frame.
void engine::replace_textures() {
    version_++;
    gd::set made = allocate(pipeline_->textures);
    std::vector<VkDescriptorBufferInfo> buffers;
    for (uint32_t texture = 0; texture < TEXTURES; texture++)
        buffers.push_back(part(MATERIAL + UNIFORM * ((texture + version_) % MATERIALS)));
    write(made.vk(), 0, VK_DESCRIPTOR_TYPE_STORAGE_BUFFER, buffers);
    textures_ = std::move(made);
}

// As at a resize. The sets of the old layouts are freed like others.
void engine::replace_layouts() {
    std::vector<uint32_t> ids;
    for (const material &it : level_)
        ids.push_back(it.id);
    require(vkDeviceWaitIdle(gpu_.device), "vkDeviceWaitIdle"); // for the pipeline
    pipeline_ = std::make_unique<pipeline>(gpu_, allocator_);
    make_uniforms();
    replace_textures();
    level_ = make_level(ids);
}

void engine::record(slot &it, uint32_t place, uint32_t thread) const {
    require(vkResetCommandPool(gpu_.device, it.pools[thread], 0), "vkResetCommandPool");
    const VkCommandBuffer commands = it.commands[thread];
    auto begin = info_of<VkCommandBufferBeginInfo>(VK_STRUCTURE_TYPE_COMMAND_BUFFER_BEGIN_INFO);
    begin.flags = VK_COMMAND_BUFFER_USAGE_ONE_TIME_SUBMIT_BIT;
    require(vkBeginCommandBuffer(commands, &begin), "vkBeginCommandBuffer");
    vkCmdBindPipeline(commands, VK_PIPELINE_BIND_POINT_COMPUTE, pipeline_->vk);
    for (uint32_t draw = thread; draw < DRAWS; draw += THREADS) {
        const material &with = level_[draw % level_.size()];
        gd_set set;
        require(it.drawn[thread].allocate(pipeline_->draw.known, set), "allocate");
        write(gd::vk_handle(set), 0, VK_DESCRIPTOR_TYPE_UNIFORM_BUFFER, {part(DRAW + UNIFORM * draw)});
        write(gd::vk_handle(set), 1, VK_DESCRIPTOR_TYPE_STORAGE_BUFFER, {part(RESULT + DRAWS * place, DRAWS)});
        const VkDescriptorSet sets[] = {it.uniforms.vk(), with.set.vk(), gd::vk_handle(set), textures_.vk()};
        vkCmdBindDescriptorSets(commands, VK_PIPELINE_BIND_POINT_COMPUTE, pipeline_->all, 0, 4, sets, 0, nullptr);
        vkCmdDispatch(commands, 1, 1, 1);
        const uint32_t texel = (with.id % TEXTURES + version_) % MATERIALS;
        it.expected[draw] = uint32_t(it.number) * 1000000 + texel * 1000 + draw;
    }
    require(vkEndCommandBuffer(commands), "vkEndCommandBuffer");
}

// Waits for the frame in flight, if there is one, and compares its results.
void engine::wait(slot &it, uint32_t place) {
    if (it.number == 0)
        return;
    require(vkWaitForFences(gpu_.device, 1, &it.fence, VK_TRUE, UINT64_MAX), "vkWaitForFences");
    require(vkResetFences(gpu_.device, 1, &it.fence), "vkResetFences");
    const uint32_t *results = gpu_.words + RESULT + DRAWS * place;
    require(std::memcmp(results, it.expected.data(), sizeof it.expected) == 0, "the results of a frame");
    require(allocator_.frame_done(it.number), "frame_done");
    it.number = 0;
}

void engine::draw_frame(uint64_t number) {
    const uint32_t place = uint32_t(number % IN_FLIGHT);
    slot &it = slots_[place];
    wait(it, place);
    require(allocator_.begin_frame(number), "begin_frame");
    if (number % 70 == 0)
        replace_layouts();
    if (number % 50 == 0) // the old level goes while frames with it are in flight
        level_ = make_level(random_ids());
    if (number % 11 == 0)
        replace_textures();
    level_[number % level_.size()] = make_material(uint32_t(random_() % MATERIALS));
    it.number = number;
    gpu_.words[FRAME + UNIFORM * place] = uint32_t(number);
    std::vector<std::thread> threads;
    for (uint32_t thread = 0; thread < THREADS; thread++) {
        require(it.drawn[thread].begin(number), "begin");
        threads.emplace_back([this, &it, place, thread] { record(it, place, thread); });
    }
    for (std::thread &each : threads)
        each.join();
    for (gd::frame &each : it.drawn)
        require(each.end(), "end");
    auto submit = info_of<VkSubmitInfo>(VK_STRUCTURE_TYPE_SUBMIT_INFO);
    submit.commandBufferCount = THREADS;
    submit.pCommandBuffers = it.commands.data();
    require(vkQueueSubmit(gpu_.queue, 1, &submit, it.fence), "vkQueueSubmit");
    if (number % 50 == 25)
        require(allocator_.cleanup(), "cleanup");
}

void engine::finish() {
    for (uint32_t place = 0; place < IN_FLIGHT; place++)
        wait(slots_[place], place);
    gd_statistics numbers;
    require(allocator_.statistics(numbers), "statistics");
    require(numbers.waiting == 0 && numbers.layouts == 4, "no set waits");
    require(numbers.outstanding == level_.size() + IN_FLIGHT + 1, "no set is lost");
}

void engine::print() const {
    gd_statistics numbers;
    require(allocator_.statistics(numbers), "statistics");
    std::printf("%u frames: %u sets are outstanding, %u wait, in %u pools\n", unsigned(FRAMES),
                unsigned(numbers.outstanding), unsigned(numbers.waiting), unsigned(numbers.pools));
}

} // namespace

int main() {
    engine it;
    for (uint64_t number = 1; number <= FRAMES; number++)
        it.draw_frame(number);
    it.print();
    it.finish();
    return 0;
}
