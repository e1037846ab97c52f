#version 450
layout(local_size_x = 64) in;
layout(set = 0, binding = 0) buffer In { uint v[64]; } given;
layout(set = 0, binding = 1) buffer Out { uint sum; uint seen[64]; } made;
shared uint part[64];

void main() {
    uint i = gl_LocalInvocationIndex;
    part[i] = given.v[i];
    barrier();
    for (uint stride = 32u; stride > 0u; stride >>= 1) {
        if (i < stride) {
            part[i] += part[i + stride];
        }
        barrier();
    }
    if (i == 0u) {
        made.sum = part[0];
    }
    barrier();
    made.seen[i] = made.sum + i;
}
