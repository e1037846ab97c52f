#version 450
layout(local_size_x = 4) in;
layout(set = 0, binding = 0, std430) buffer B { uint numbers[4]; } b;

// Each invocation adds its left neighbour's number to its own. No barrier parts the loads from the stores.
void main() {
  uint i = gl_LocalInvocationIndex;
  uint left = b.numbers[(i + 3u) % 4u];
  uint sum = b.numbers[i] + left;
  b.numbers[i] = sum;
}
