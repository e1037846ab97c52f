#version 450
layout(local_size_x = 64) in;
layout(set = 0, binding = 0) buffer Data { uint total; uint items[64]; } data;
shared uint sums[64];
shared int least;

void main() {
    uint i = gl_LocalInvocationIndex;
    if (i == 0u) { least = 2147483647; }
    sums[i] = data.items[i];
    barrier();
    for (uint stride = 32u; stride > 0u; stride >>= 1) {
        if (i < stride) { sums[i] += sums[i + stride]; }
        memoryBarrierShared();
        barrier();
    }
    atomicMin(least, int(sums[0]) - int(i));
    uint old = atomicAdd(data.total, sums[i]);
    atomicCompSwap(data.total, old, old ^ 1u);
    atomicExchange(data.items[i], uint(least));
    atomicOr(data.total, 1u); atomicXor(data.total, 2u); atomicAnd(data.total, 255u); atomicMax(data.total, 9u);
}
