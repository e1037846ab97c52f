#version 450
layout(local_size_x = 4) in;
layout(set = 0, binding = 0) buffer B { uint v[16]; } b;
shared uint tally[2];
shared uint most;

uint bucket(uint x) {
  return x & 1u;
}

void note(uint x) {
  atomicAdd(tally[bucket(x)], 1u);
  atomicMax(most, x);
}

void cleared(uint i) {
  if (i < 2u)
    tally[i] = 0u;
  if (i == 2u)
    most = 0u;
  memoryBarrierShared();
  barrier();
}

void main() {
  uint i = gl_LocalInvocationIndex;
  cleared(i);
  for (uint k = i; k < 8u; k += 4u)
    note(b.v[k]);
  barrier();
  if (i < 2u)
    b.v[8u + i] = tally[i];
  else
    b.v[8u + i] = atomicExchange(most, i);
}
