// Compute as a runtime of neural networks does it: pipelines with layouts of their own ('auto'), and for each kernel of
// each run a new bind group over one to five buffers, which is dropped.
"use strict";

const RUNS = option("runs", 60);
const KERNELS = option("kernels", 150);
const GARBAGE = option("garbage", 0);
const [PIPELINES, BUFFERS, UNIFORMS, SIZE, BATCH] = [12, 40, 8, 4096, 16];

function code_of(number, inputs, has_uniform) {
  const names = Array.from({ length: inputs }, (_, it) => `input${it}`);
  const places = names.map((name) => `${name}[(id.x * ${number + 1}u) % 1024u]`);
  return `
    ${names.map((name, it) => `@group(0) @binding(${it}) var<storage, read> ${name}: array<f32>;`).join("\n")}
    @group(0) @binding(${inputs}) var<storage, read_write> output: array<f32>;
    ${has_uniform ? `@group(0) @binding(${inputs + 1}) var<uniform> by: vec4f;` : ""}
    @compute @workgroup_size(64) fn main(@builtin(global_invocation_id) id: vec3u) {
      output[id.x] = fract((${places.join(" + ")}) * 0.37 ${has_uniform ? "+ by.x" : ""});
    }`;
}

function make_kernel(device, number) {
  const [inputs, has_uniform] = [1 + (number % 4), number % 3 !== 0];
  const module = device.createShaderModule({ code: code_of(number, inputs, has_uniform) });
  const pipeline = device.createComputePipeline({ layout: "auto", compute: { module, entryPoint: "main" } });
  return { pipeline, inputs, has_uniform, layout: pipeline.getBindGroupLayout(0) };
}

function make_filled(device, size, usage, values) {
  const buffer = make_buffer(device, size, usage);
  device.queue.writeBuffer(buffer, 0, new Float32Array(values));
  return buffer;
}

function make_all(device) {
  const many = (length, make) => Array.from({ length }, (_, place) => make(place));
  const { STORAGE, UNIFORM } = GPUBufferUsage;
  const values = () => many(SIZE / 4, () => random(100) / 100);
  return {
    buffers: many(BUFFERS, () => make_filled(device, SIZE, STORAGE, values())),
    uniforms: many(UNIFORMS, () => make_filled(device, 16, UNIFORM, [random(9) / 10, 0.5, 0.25, 1])),
    kernels: many(PIPELINES, (it) => make_kernel(device, it)),
  };
}

function dispatch(device, pass, { buffers, uniforms, kernels }) {
  const kernel = kernels[random(PIPELINES)];
  const first = random(BUFFERS);
  const resources = Array.from({ length: kernel.inputs + 1 }, (_, it) => buffers[(first + it * 3) % BUFFERS]);
  if (kernel.has_uniform) resources.push(uniforms[random(UNIFORMS)]);
  pass.setPipeline(kernel.pipeline);
  pass.setBindGroup(0, make_group(device, kernel.layout, resources.map((buffer) => ({ buffer }))));
  pass.dispatchWorkgroups(16);
}

function submit_batch(device, all, count) {
  const encoder = device.createCommandEncoder();
  const pass = encoder.beginComputePass();
  for (let it = 0; it < count; it++) dispatch(device, pass, all);
  pass.end();
  device.queue.submit([encoder.finish()]);
}

run(async () => {
  const device = await open_device();
  const all = make_all(device);
  for (let round = 0; round < RUNS; round++) {
    for (let left = KERNELS; left > 0; left -= BATCH) submit_batch(device, all, Math.min(left, BATCH));
    make_garbage(round, GARBAGE);
    await device.queue.onSubmittedWorkDone();
  }
  const sums = [];
  for (const it of all.buffers) sums.push(await checksum(device, it, SIZE));
  device.destroy();
  return { page: "infer", groups: RUNS * KERNELS, sums: sums.join(" ") };
});
