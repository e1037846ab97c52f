#version 450
#pragma use_vulkan_memory_model
#extension GL_KHR_memory_scope_semantics : require
layout(local_size_x = 4) in;
layout(set=0,binding=0) buffer B { uint v[]; } b;
void main(){ b.v[gl_LocalInvocationIndex] = 1; }
