// What the pages have in common: their options, random numbers, a device, and what they post.
"use strict";

const query = new URLSearchParams(location.search);
const option = (name, value) => Number(query.get(name) ?? value);
const errors = [];

// The numbers are the same in each run.
let state = 12345;
function random(below) {
  state = (Math.imul(state, 1103515245) + 12345) >>> 0;
  return Math.floor((state / 2 ** 32) * below);
}

// What else an application allocates, so that the collector runs now and then and groups are freed.
const recent = [];
function make_garbage(round, count) {
  if (count) recent[round % 8] = Array.from({ length: count }, (_, place) => ({ place, of: { round } }));
}

async function open_device() {
  const adapter = await navigator.gpu.requestAdapter();
  const device = await adapter.requestDevice();
  device.onuncapturederror = (event) => errors.push(event.error.message.slice(0, 300));
  return device;
}

function make_buffer(device, size, usage) {
  return device.createBuffer({ size, usage: usage | GPUBufferUsage.COPY_DST | GPUBufferUsage.COPY_SRC });
}

function make_group(device, layout, resources) {
  const entries = resources.map((resource, binding) => ({ binding, resource }));
  return device.createBindGroup({ layout, entries });
}

// FNV-1a.
function sum_of(bytes) {
  let sum = 2166136261;
  for (const byte of bytes) sum = Math.imul(sum ^ byte, 16777619) >>> 0;
  return sum.toString(16);
}

async function checksum(device, buffer, size) {
  const copy = device.createBuffer({ size, usage: GPUBufferUsage.COPY_DST | GPUBufferUsage.MAP_READ });
  const encoder = device.createCommandEncoder();
  encoder.copyBufferToBuffer(buffer, 0, copy, 0, size);
  device.queue.submit([encoder.finish()]);
  await copy.mapAsync(GPUMapMode.READ);
  const sum = sum_of(new Uint8Array(copy.getMappedRange()));
  copy.unmap();
  return sum;
}

// Posts what `main` returns, and closes the window.
async function run(main) {
  let result;
  try {
    result = await main();
  } catch (error) {
    result = { error: `${error} ${error.stack}` };
  }
  await fetch("/result", { method: "POST", body: JSON.stringify({ ...result, errors }) });
  setTimeout(() => window.close(), 200);
}
