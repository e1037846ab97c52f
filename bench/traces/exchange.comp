#version 450
layout(local_size_x = 4) in;
layout(set = 0, binding = 0) buffer B { uint v[16]; } b;
shared uint s[4];

void meet(uint i, uint x) {
  s[i] = x;
  barrier();
}

uint taken(uint i, uint x) {
  meet(i, x);
  return s[i ^ 1u];
}

uint apart(uint i, uint x) {
  uint y = taken(i, x + 1u);
  barrier();
  return y;
}

uint turn(uint i, uint x) {
  uint y = x;
  for (uint k = 0u; k < 2u; ++k) {
    y = apart(i, y) + k;
    y += taken(i, y);
    barrier();
  }
  return y;
}

void main() {
  uint i = gl_LocalInvocationIndex;
  b.v[i] = turn(i, b.v[i]);
}
