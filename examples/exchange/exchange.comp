#version 450
layout(local_size_x = 2) in;
layout(set = 0, binding = 0) buffer B { uint v[2]; } b;
shared uint s[2];
void main() {
  uint i = gl_LocalInvocationIndex;
  s[i] = b.v[i];
  barrier();
  b.v[i] = s[1u - i];
}
