#version 450
layout(local_size_x = 4) in;
layout(set = 0, binding = 0) buffer B { uint v[16]; } b;

uint inner(uint x) {
  uint y = x * 3u;
  return y ^ 5u;
}

uint middle(uint x) {
  uint t = inner(x + 1u);
  return t + inner(t);
}

uint apart(uint x, uint k) {
  uint m = middle(x) & 255u;
  if (k > 2u)
    m += inner(k);
  return m;
}

uint outer(uint x) {
  uint u = middle(x);
  u += apart(u, x);
  return u - 1u;
}

void main() {
  uint i = gl_LocalInvocationIndex;
  uint a = outer(b.v[i]);
  b.v[i] = a + apart(a, i) + outer(i);
}
