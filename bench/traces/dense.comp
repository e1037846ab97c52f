#version 450
#define TWICE(x) ((x) + (x))
layout(local_size_x = 2) in;
layout(set = 0, binding = 0) buffer B { uint v[16]; } b;
uint one(uint x) { return x + 1u; } uint two(uint x) { return one(x) * one(x + 2u); }
uint
split(
  uint x,
  uint y
) {
  return
    two(x) +
    TWICE(
      one(y)
    );
}
void main() { uint i = gl_LocalInvocationIndex; uint a = b.v[i]; a = two(a); a += TWICE(one(a));

  { uint a = split(i, 4u); b.v[i + 2u] = a; } b.v[i] = a;
}
