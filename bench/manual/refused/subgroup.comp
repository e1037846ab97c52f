#version 450
#extension GL_KHR_shader_subgroup_arithmetic : require
layout(local_size_x = 4) in;
layout(set=0,binding=0) buffer B { uint v[]; } b;
void main(){ b.v[gl_LocalInvocationIndex] = subgroupAdd(b.v[0]); }
