#version 450
layout(local_size_x = 64) in;
layout(set = 0, binding = 0, std430) buffer B { uint results[64]; } b;
shared uint s[64];

void put(uint place, uint number) {
  s[place] = number;
}

// Each invocation puts a number at its own place. The last 16 then put another one, at places that they work out wrongly.
void main() {
  uint i = gl_LocalInvocationIndex;
  put(i, i + 1u);
  barrier();
  if (i >= 48u)
    put(7u * i & 63u, i * i);
  barrier();
  b.results[i] = s[i];
}
