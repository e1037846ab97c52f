#version 450
layout(local_size_x = 32) in;
layout(set = 0, binding = 0) buffer In { int v[32]; } given;
layout(set = 0, binding = 1) buffer Out { int v[32]; } made;
shared int line[2][32];

void main() {
    uint i = gl_LocalInvocationIndex;
    uint from = 0u;
    line[0][i] = given.v[i];
    barrier();
    for (uint far = 1u; far < 32u; far <<= 1) {
        int sum = line[from][i];
        if (i >= far) {
            sum += line[from][i - far];
        }
        line[1u - from][i] = sum;
        from = 1u - from;
        barrier();
    }
    made.v[i] = line[from][i];
}
