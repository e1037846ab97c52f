#version 450
layout(local_size_x = 16) in;
layout(set = 0, binding = 0) buffer In { uint v[64]; } given;
layout(set = 0, binding = 1) buffer Out { uint bins[8]; int least; int most; uint any; uint all; uint odd; uint last; uint taken; } made;
shared uint bins[8];

void main() {
    uint i = gl_LocalInvocationIndex;
    if (i < 8u) {
        bins[i] = 0u;
    }
    memoryBarrierShared();
    barrier();
    for (uint k = 0u; k < 4u; k++) {
        uint value = given.v[i + 16u * k];
        atomicAdd(bins[value & 7u], 1u);
        atomicMin(made.least, int(value));
        atomicMax(made.most, int(value));
        atomicOr(made.any, value);
        atomicAnd(made.all, value);
        atomicXor(made.odd, value);
        atomicExchange(made.last, value);
        atomicCompSwap(made.taken, 0u, value);
    }
    barrier();
    if (i < 8u) {
        made.bins[i] = bins[i];
    }
}
