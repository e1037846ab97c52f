#version 450
layout(local_size_x = 4) in;
layout(set = 0, binding = 0) buffer B { uint v[4]; } b;
shared uint s[4];
void main() {
  uint i = gl_LocalInvocationIndex;
  s[i] = b.v[i];
  barrier();
  if (i < 2u) s[i] += s[i + 2u];
  barrier();
  if (i == 0u) b.v[0] = s[0] + s[1];
}
