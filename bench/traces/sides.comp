#version 450
layout(local_size_x = 2) in;
layout(set = 0, binding = 0) buffer B { uint v[16]; } b;

uint calls = 0u;

bool counted(bool value) {
  calls++;
  return value;
}

uint larger(uint a, uint c) {
  return a > c ? a : c;
}

bool both(uint a, uint c) {
  return counted(a > 2u) && counted(c > 2u) || counted(a == c);
}

void main() {
  uint i = gl_LocalInvocationIndex;
  uint a = b.v[i], c = b.v[i + 2u];
  if (both(a, c)) {
    a = larger(a, larger(c, 3u));
  } else if (counted(a < c)) {
    a = c - a;
  } else {
    a = 1u;
    if (both(c, a))
      a = 2u;
  }
  b.v[i] = a * 100u + calls;
}
