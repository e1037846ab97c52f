#version 450
layout(local_size_x = 4) in;
layout(set = 0, binding = 0, std430) buffer B { uint sums[4]; uint numbers[]; } b;

uint number(uint place) {
  return b.numbers[place];
}

uint sum(uint first, uint count) {
  uint so_far = 0u;
  for (uint k = 0u; k < count; ++k)
    so_far += number(first + k);
  return so_far;
}

void main() {
  uint i = gl_LocalInvocationIndex;
  uint share = (uint(b.numbers.length()) + 3u) / 4u;
  b.sums[i] = sum(i * share, share);
}
