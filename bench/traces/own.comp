#version 450
layout(local_size_x = 4) in;
layout(set = 0, binding = 0) buffer B { uint v[16]; } b;
uint sum = 0u;
uint turns[2];

void add(uint x) {
  sum += x;
  ++turns[x & 1u];
}

void main() {
  uint i = gl_LocalInvocationIndex;
  turns = uint[2](0u, 0u);
  for (uint k = i; k < 12u; k += 4u) {
    add(b.v[k]);
    if (sum > 9u)
      sum = 1u;
  }
  b.v[12u + i] = sum * 16u + turns[1];
}
