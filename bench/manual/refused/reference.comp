#version 450
#extension GL_EXT_buffer_reference : require
layout(local_size_x = 4) in;
layout(buffer_reference) buffer R { uint v; };
layout(push_constant) uniform P { R r; } p;
void main(){ p.r.v = 1; }
