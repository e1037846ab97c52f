#version 450
#extension GL_EXT_shader_explicit_arithmetic_types : require
#extension GL_EXT_shader_16bit_storage : require
#extension GL_EXT_shader_8bit_storage : require
layout(local_size_x = 4) in;
layout(set = 0, binding = 0) buffer W { int64_t wide; uint16_t half_word; uint8_t bytes[]; } w;
layout(set = 0, binding = 1) readonly buffer V { u64vec2 pair; i16vec4 four; } v;
void main() {
    uint i = gl_LocalInvocationID.x;
    int64_t a = int64_t(v.pair.x) - int64_t(w.bytes[i]);
    w.wide = a / int64_t(3) + int64_t(v.four.y) << 2;
    w.half_word = uint16_t(v.four[i] * int16_t(3));
    w.bytes[i] = uint8_t(a >> 7);
    u32vec2 parts = unpack32(v.pair.y);
    w.wide ^= int64_t(pack64(parts.yx));
}
