// Loads and stores in blocks of each layout, and in blocks of numbers of 8, 16 and 64 bits.
#version 450
#extension GL_EXT_scalar_block_layout : require
#extension GL_EXT_shader_explicit_arithmetic_types : require
#extension GL_EXT_shader_16bit_storage : require
#extension GL_EXT_shader_8bit_storage : require
layout(local_size_x = 1) in;
layout(constant_id = 0) const uint PLACE = 1;
layout(constant_id = 1) const uint BYTE = 3;
struct S { uint a; uvec3 b; uvec2 c[3]; };
layout(set = 0, binding = 0, std140) uniform U { uint x; S s[2]; uvec2 t; } u;
layout(set = 0, binding = 1, std430) buffer B { uint x; S s[2]; uvec2 t; uint rest[]; } b;
layout(set = 0, binding = 2, scalar) buffer C { uint x; S s[2]; uvec2 t; } c;
layout(set = 0, binding = 3, std430) buffer W { int64_t wide; uint16_t half_word; uint8_t bytes[]; } w;
layout(set = 0, binding = 4, std430) readonly buffer V { u64vec2 pair; u16vec4 four; } v;

void main() {
    // Each part of one layout is stored in another.
    b.x = u.x + u.s[PLACE].a + u.s[PLACE].b.z + u.s[PLACE].c[2].y + u.t.y;
    b.s[PLACE].b = u.s[0].b;
    b.s[0].c[PLACE] = u.s[1].c[PLACE];
    b.t = u.t;
    b.rest[b.rest.length() - 1] = u.s[1].c[2].x;
    c.s[PLACE].a = b.s[PLACE].a + b.rest[0];
    c.s[PLACE].b = b.s[PLACE].b;
    c.s[PLACE].c[0] = b.s[0].c[PLACE];
    c.s[0].c[2].x = b.t.y;
    c.t = c.s[1].c[2] + c.s[0].b.xy;
    c.x = c.t.x;
    // Numbers of other widths are moved.
    w.bytes[BYTE] = w.bytes[0];
    w.half_word = v.four.z;
    w.wide = int64_t(v.pair.y);
    uint16_t narrow = w.half_word;
    uint8_t last = w.bytes[w.bytes.length() - 1];
}
