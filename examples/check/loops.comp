#version 450
layout(local_size_x = 8, local_size_y = 4) in;
layout(set = 0, binding = 0) buffer Numbers { uint count; int values[]; } numbers;
layout(set = 0, binding = 1) uniform Settings { uint rounds; ivec4 step; } settings;

int collatz(uint start) {
    uint n = start;
    int length = 0;
    while (n > 1u && length < 100) {
        if ((n & 1u) == 0u) { n >>= 1; } else { n = 3u * n + 1u; }
        length++;
    }
    return length;
}

void main() {
    uint i = gl_GlobalInvocationID.x + gl_GlobalInvocationID.y * 8u;
    int sum = 0;
    for (uint k = 0u; k < settings.rounds; k++) {
        switch (k % 4u) {
        case 0u: sum += collatz(k + i); break;
        case 1u: sum -= settings.step.y; break;
        case 2u: continue;
        default: sum ^= int(k);
        }
    }
    if (i < numbers.count) { numbers.values[i] = sum / (1 + int(i)) % 7; }
}
