#version 450
layout(local_size_x = 2) in;
layout(set = 0, binding = 0) buffer B { uint v[16]; } b;

bool goes_on(uint k, uint n) {
  return k * k < n;
}

uint row(uint n) {
  uint sum = 0u;
  for (uint k = 0u; goes_on(k, n); ++k) {
    if ((k & 1u) == 1u)
      continue;
    uint j = k;
    do {
      sum += j;
      j /= 2u;
    } while (j > 0u);
  }
  return sum;
}

void main() {
  uint i = gl_LocalInvocationIndex;
  uint n = b.v[i], total = 0u;
  while (true) {
    total += row(n);
    if (n < 5u)
      break;
    n -= 4u;
  }
  b.v[i] = total;
}
