#version 450
layout(local_size_x = 2) in;
layout(set = 0, binding = 0) buffer B { uint v[2]; } b;
shared uint s[2];

// The shader of examples/exchange, and behind it a load whose register shows what the buffer holds.
void main() {
  uint i = gl_LocalInvocationIndex;
  s[i] = b.v[i];
  barrier();
  b.v[i] = s[1u - i];
  uint shown = b.v[i];
}
