#version 450
layout(local_size_x_id = 0, local_size_y = 1, local_size_z = 1) in;
layout(constant_id = 0) const uint WIDTH = 16;
layout(constant_id = 1) const int BIAS = -3;
layout(constant_id = 2) const bool FLIP = false;
const uint HALF = WIDTH / 2u + 1u;
struct Pair { ivec2 where; uint what[3]; };
struct Box { Pair pairs[2]; bool full; };
layout(set = 1, binding = 2) buffer Pairs { Pair pairs[4]; uvec3 rest; } store;
layout(push_constant) uniform Push { uint first; ivec2 shift; } push;
shared Box boxes[4];

Pair moved(Pair p, in ivec2 by) { p.where += by; p.what[1] = uint(p.where.x); return p; }
void swap(inout uint a, inout uint b) { uint c = a; a = b; b = c; }

void main() {
    uint i = gl_LocalInvocationID.x % 4u;
    Box box;
    box.pairs[0] = moved(store.pairs[i], push.shift);
    box.pairs[1] = Pair(ivec2(BIAS, int(HALF)), uint[3](1u, 2u, 3u));
    box.full = FLIP || any(lessThan(box.pairs[0].where, ivec2(0)));
    swap(box.pairs[0].what[0], box.pairs[1].what[2]);
    boxes[i] = box;
    barrier();
    ivec2 w = boxes[(i + 1u) % 4u].pairs[0].where.yx;
    store.rest[i % 3u] = bitfieldExtract(uint(w.x), 3, 5) + uint(bitCount(w.y)) + uint(findMSB(w.x));
    store.pairs[i].where = clamp(w, ivec2(-5), abs(ivec2(push.first)));
    store.pairs[i].what = boxes[i].full ? box.pairs[0].what : boxes[i].pairs[1].what;
    uint carry; uint low = uaddCarry(push.first, WIDTH, carry); uint msb, lsb; umulExtended(low, carry, msb, lsb);
    store.rest.z = bitfieldInsert(msb, lsb, 2, 4) ^ bitfieldReverse(low);
    uvec4 v = uvec4(low, store.rest); v.yw = v.wx; v[i] = 7u; store.rest.x = v.x + v[i];
}
