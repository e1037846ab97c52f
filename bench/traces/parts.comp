#version 450
layout(local_size_x = 2) in;
layout(set = 0, binding = 0) buffer B { uint v[16]; } b;

struct Pair { uint a; uint c; };
struct Row { Pair pairs[2]; uint count; };

Pair swapped(Pair p) {
  return Pair(p.c, p.a);
}

void push(inout Row r, Pair p) {
  r.pairs[r.count] = swapped(p);
  r.count++;
}

uint sum(const Row r) {
  uint s = 0u;
  for (uint k = 0u; k < r.count; ++k)
    s += r.pairs[k].a * 10u + r.pairs[k].c;
  return s;
}

void filled(out Row r, uint i) {
  r.count = 0u;
  r.pairs[0] = Pair(0u, 0u);
  r.pairs[1] = r.pairs[0];
  push(r, Pair(b.v[i], i));
  push(r, Pair(i + 1u, b.v[i]));
}

void main() {
  uint i = gl_LocalInvocationIndex;
  Row r;
  filled(r, i);
  uvec2 both = uvec2(sum(r), r.count);
  b.v[i] = both.x + both.y;
}
