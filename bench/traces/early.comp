#version 450
layout(local_size_x = 4) in;
layout(set = 0, binding = 0) buffer B { uint v[16]; } b;

uint found(uint x) {
  for (uint k = 0u; k < 4u; ++k) {
    if (b.v[k] == x)
      return k;
    if (k > x)
      return 9u;
  }
  return 4u;
}

uint known(uint x) {
  if (x == 0u)
    return 0u;
  uint k = found(x);
  if (k < 4u) {
    if (k == 1u)
      return found(x + 1u);
    return k;
  }
  return found(x - 1u) + 10u;
}

void main() {
  uint i = gl_LocalInvocationIndex;
  if (i == 3u)
    return;
  uint k = known(i * 2u);
  b.v[4u + i] = k;
}
