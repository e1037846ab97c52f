#version 450
layout(local_size_x = 4) in;
layout(set = 0, binding = 0, std430) buffer B { uint sums[4]; uint numbers[]; } b;

// Each invocation adds up its share of the numbers. The share is rounded up, and the last invocation's isn't cut off at the end.
void main() {
  uint i = gl_LocalInvocationIndex;
  uint share = (uint(b.numbers.length()) + 3u) / 4u;
  uint sum = 0u;
  for (uint k = i * share; k < (i + 1u) * share; ++k) {
    sum += b.numbers[k];
  }
  b.sums[i] = sum;
}
