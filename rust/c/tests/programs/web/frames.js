// A renderer as applications write it: bind groups that stay (globals, materials, objects with dynamic offsets),
// those of a frame (of each transient draw, each effect, each level of a mip chain), compute, bundles, and scenes
// that end with their materials.
"use strict";

const FRAMES = option("frames", 300);
const TRANSIENT = option("transient", 200);
const MATERIALS = option("materials", 100);
const SCENES = option("scenes", 3);
const GARBAGE = option("garbage", 0);
const [OBJECTS, SIZE, LEVELS, EFFECTS, MOVED, BUNDLED, SUMMED] = [64, 64, 6, 6, 16, 50, 50];
const FORMAT = "rgba8unorm";

const SHADE = `
  struct Four { it: vec4f }
  @group(0) @binding(0) var<uniform> camera: Four;
  @group(0) @binding(1) var<uniform> light: Four;
  @group(0) @binding(2) var sky_sampler: sampler;
  @group(0) @binding(3) var sky: texture_2d<f32>;
  @group(1) @binding(0) var<uniform> tint: Four;
  @group(1) @binding(1) var material_sampler: sampler;
  @group(1) @binding(2) var first: texture_2d<f32>;
  @group(1) @binding(3) var second: texture_2d<f32>;
  @group(1) @binding(4) var third: texture_2d<f32>;
  @group(2) @binding(0) var<uniform> place: Four;
  @group(3) @binding(0) var<uniform> moved: Four;
  @group(3) @binding(1) var<storage, read> points: array<vec4f>;
  @vertex fn corner(@builtin(vertex_index) index: u32) -> @builtin(position) vec4f {
    let at = vec2f(f32(index & 1u), f32(index >> 1u)) * 0.1;
    let shift = place.it.xy + moved.it.xy + camera.it.xy + points[index % 4u].xy * 0.001;
    return vec4f(at + shift, 0.0, 1.0);
  }
  @fragment fn color() -> @location(0) vec4f {
    let at = vec2f(0.5);
    let images = textureSample(first, material_sampler, at) + textureSample(second, material_sampler, at)
      + textureSample(third, material_sampler, at) + textureSample(sky, sky_sampler, at);
    return (tint.it + light.it * 0.1 + images) * 0.2;
  }`;

const BLUR = `
  @group(0) @binding(0) var source: texture_2d<f32>;
  @group(0) @binding(1) var source_sampler: sampler;
  @group(0) @binding(2) var<uniform> by: vec4f;
  @vertex fn corner(@builtin(vertex_index) index: u32) -> @builtin(position) vec4f {
    return vec4f(f32(index & 1u) * 4.0 - 1.0, f32(index >> 1u) * 4.0 - 1.0, 0.0, 1.0);
  }
  @fragment fn color(@builtin(position) at: vec4f) -> @location(0) vec4f {
    return textureSample(source, source_sampler, at.xy / 64.0 + by.xy * 0.01) * 0.9 + by * 0.01;
  }`;

const MOVE = `
  @group(0) @binding(0) var<uniform> advance: vec4f;
  @group(0) @binding(1) var<storage, read> before: array<vec4f>;
  @group(0) @binding(2) var<storage, read_write> after: array<vec4f>;
  @compute @workgroup_size(64) fn main(@builtin(global_invocation_id) id: vec3u) {
    after[id.x] = before[id.x] * 0.5 + advance;
  }`;

const SHRINK = `
  @group(0) @binding(0) var larger: texture_2d<f32>;
  @group(0) @binding(1) var smaller: texture_storage_2d<rgba8unorm, write>;
  @compute @workgroup_size(1) fn main(@builtin(global_invocation_id) id: vec3u) {
    textureStore(smaller, id.xy, textureLoad(larger, id.xy * 2u, 0));
  }`;

class Frames {
  constructor(device) {
    this.device = device;
    this.groups = 0;
    this.sampler = device.createSampler({ magFilter: "linear", minFilter: "linear" });
    this.make_layouts();
    this.make_pipelines();
    this.make_resources();
    this.make_groups_that_stay();
  }

  make_layouts() {
    const layout = (...kinds) => {
      const entries = kinds.map(([visibility, of], binding) => ({ binding, visibility, ...of }));
      return this.device.createBindGroupLayout({ entries });
    };
    const { VERTEX, FRAGMENT, COMPUTE } = GPUShaderStage;
    const both = VERTEX | FRAGMENT;
    const [uniform, image, samples] = [{ buffer: {} }, { texture: {} }, { sampler: {} }];
    const [read, write] = ["read-only-storage", "storage"].map((type) => ({ buffer: { type } }));
    this.layouts = {
      globals: layout([both, uniform], [FRAGMENT, uniform], [FRAGMENT, samples], [FRAGMENT, image]),
      material: layout([FRAGMENT, uniform], [FRAGMENT, samples], ...Array(3).fill([FRAGMENT, image])),
      object: layout([both, { buffer: { hasDynamicOffset: true } }]),
      draw: layout([both, uniform], [VERTEX, read]),
      effect: layout([FRAGMENT, image], [FRAGMENT, samples], [FRAGMENT, uniform]),
      particles: layout([COMPUTE, uniform], [COMPUTE, read], [COMPUTE, write]),
      level: layout([COMPUTE, image], [COMPUTE, { storageTexture: { format: FORMAT } }]),
    };
  }

  make_pipelines() {
    const layout = (...names) =>
      this.device.createPipelineLayout({ bindGroupLayouts: names.map((name) => this.layouts[name]) });
    const render = (code, topology, ...names) => {
      const module = this.device.createShaderModule({ code });
      return this.device.createRenderPipeline({
        layout: layout(...names),
        vertex: { module, entryPoint: "corner" },
        primitive: { topology },
        fragment: { module, entryPoint: "color", targets: [{ format: FORMAT }] },
      });
    };
    const compute = (code, name) => {
      const module = this.device.createShaderModule({ code });
      return this.device.createComputePipeline({ layout: layout(name), compute: { module, entryPoint: "main" } });
    };
    this.shading = render(SHADE, "triangle-strip", "globals", "material", "object", "draw");
    this.blurring = render(BLUR, "triangle-list", "effect");
    this.moving = compute(MOVE, "particles");
    this.shrinking = compute(SHRINK, "level");
  }

  // A buffer with room for vectors, of which each begins at a multiple of a stride.
  buffer_of(usage, stride, vectors) {
    const buffer = make_buffer(this.device, stride * vectors.length, usage);
    vectors.forEach((it, place) => this.device.queue.writeBuffer(buffer, stride * place, new Float32Array(it)));
    return buffer;
  }

  uniform(...vector) {
    return this.buffer_of(GPUBufferUsage.UNIFORM, 16, [vector]);
  }

  texture(size, mipLevelCount = 1) {
    const { TEXTURE_BINDING, STORAGE_BINDING, RENDER_ATTACHMENT, COPY_SRC, COPY_DST } = GPUTextureUsage;
    const usage = TEXTURE_BINDING | STORAGE_BINDING | RENDER_ATTACHMENT | COPY_SRC | COPY_DST;
    return this.device.createTexture({ size: [size, size], format: FORMAT, mipLevelCount, usage });
  }

  image() {
    const texture = this.texture(4);
    const bytes = new Uint8Array(64).map(() => random(256));
    this.device.queue.writeTexture({ texture }, bytes, { bytesPerRow: 16 }, [4, 4]);
    return texture.createView();
  }

  make_resources() {
    const { UNIFORM, STORAGE } = GPUBufferUsage;
    const many = (length, make) => Array.from({ length }, (_, place) => make(place));
    const somewhere = () => random(200) / 100 - 1;
    this.places = this.buffer_of(UNIFORM, 256, many(OBJECTS, () => [somewhere(), somewhere(), 0, 0]));
    this.points = many(2, () => make_buffer(this.device, 1024, STORAGE));
    this.images = many(12, () => this.image());
    this.camera = this.uniform(0, 0, 0, 0);
    this.light = this.uniform(0.3, 0.2, 0.1, 1);
    this.step = this.uniform(0.1, 0.2, 0.3, 0.4);
    this.moved = this.buffer_of(UNIFORM, 256, many(MOVED, (it) => [it / 100, -it / 100, 0, 0]));
    const sky = this.texture(SIZE, LEVELS);
    this.levels = many(LEVELS, (baseMipLevel) => sky.createView({ baseMipLevel, mipLevelCount: 1 }));
    this.targets = many(2, () => this.texture(SIZE));
    this.views = this.targets.map((it) => it.createView());
    this.pixels = make_buffer(this.device, SIZE * SIZE * 4, 0);
  }

  group(name, ...resources) {
    this.groups++;
    const wrapped = resources.map((it) => (it instanceof GPUBuffer ? { buffer: it } : it));
    return make_group(this.device, this.layouts[name], wrapped);
  }

  make_groups_that_stay() {
    const { points } = this;
    this.globals = this.group("globals", this.camera, this.light, this.sampler, this.images[0]);
    this.object = this.group("object", { buffer: this.places, size: 16 });
    this.particles = [0, 1].map((it) => this.group("particles", this.step, points[it], points[1 - it]));
  }

  material() {
    const part = () => random(256) / 256;
    const image = () => this.images[random(this.images.length)];
    const tint = this.uniform(part(), part(), part(), 1);
    return this.group("material", tint, this.sampler, image(), image(), image());
  }

  draw_of(place) {
    return this.group("draw", { buffer: this.moved, offset: 256 * place, size: 16 }, this.points[0]);
  }

  // A draw with groups, in a pass or a bundle.
  draw(encoder, material, object, moved) {
    encoder.setBindGroup(1, this.materials[material]);
    encoder.setBindGroup(2, this.object, [256 * object]);
    encoder.setBindGroup(3, this.draw_of(moved));
    encoder.draw(4);
  }

  begin_scene() {
    this.materials = Array.from({ length: MATERIALS }, () => this.material());
    const encoder = this.device.createRenderBundleEncoder({ colorFormats: [FORMAT] });
    encoder.setPipeline(this.shading);
    encoder.setBindGroup(0, this.globals);
    for (let it = 0; it < BUNDLED; it++) this.draw(encoder, it % MATERIALS, it % OBJECTS, it % MOVED);
    this.bundle = encoder.finish();
  }

  compute(encoder, frame) {
    const pass = encoder.beginComputePass();
    pass.setPipeline(this.moving);
    pass.setBindGroup(0, this.particles[frame % 2]);
    pass.dispatchWorkgroups(1);
    pass.setPipeline(this.shrinking);
    for (let level = 1; level < LEVELS; level++) {
      pass.setBindGroup(0, this.group("level", this.levels[level - 1], this.levels[level]));
      pass.dispatchWorkgroups(SIZE >> level, SIZE >> level);
    }
    pass.end();
  }

  shade(encoder) {
    const attachment = { view: this.views[0], loadOp: "clear", storeOp: "store", clearValue: [0, 0, 0, 1] };
    const pass = encoder.beginRenderPass({ colorAttachments: [attachment] });
    pass.executeBundles([this.bundle]);
    pass.setPipeline(this.shading);
    pass.setBindGroup(0, this.globals);
    for (let it = 0; it < TRANSIENT; it++) this.draw(pass, random(MATERIALS), random(OBJECTS), random(MOVED));
    pass.end();
  }

  add_effects(encoder) {
    for (let effect = 0; effect < EFFECTS; effect++) {
      const attachment = { view: this.views[(effect + 1) % 2], loadOp: "load", storeOp: "store" };
      const pass = encoder.beginRenderPass({ colorAttachments: [attachment] });
      pass.setPipeline(this.blurring);
      pass.setBindGroup(0, this.group("effect", this.views[effect % 2], this.sampler, this.light));
      pass.draw(3);
      pass.end();
    }
  }

  async show(frame) {
    if (frame % Math.ceil(FRAMES / SCENES) === 0) this.begin_scene();
    for (let it = 0; it < 2; it++) this.materials[random(MATERIALS)] = this.material(); // Some are streamed in.
    const encoder = this.device.createCommandEncoder();
    this.compute(encoder, frame);
    this.shade(encoder);
    this.add_effects(encoder);
    const to = { buffer: this.pixels, bytesPerRow: SIZE * 4 };
    encoder.copyTextureToBuffer({ texture: this.targets[EFFECTS % 2] }, to, [SIZE, SIZE]);
    this.device.queue.submit([encoder.finish()]);
    make_garbage(frame, GARBAGE);
    await this.device.queue.onSubmittedWorkDone();
  }
}

run(async () => {
  const device = await open_device();
  const it = new Frames(device);
  const sums = [];
  for (let frame = 0; frame < FRAMES; frame++) {
    await it.show(frame);
    if (frame % SUMMED === SUMMED - 1) sums.push(await checksum(device, it.pixels, SIZE * SIZE * 4));
  }
  sums.push(await checksum(device, it.pixels, SIZE * SIZE * 4));
  sums.push(await checksum(device, it.points[0], 1024));
  device.destroy();
  return { page: "frames", groups: it.groups, sums: sums.join(" ") };
});
