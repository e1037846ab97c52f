#version 450
layout(local_size_x = 4) in;
layout(set=0,binding=0) buffer B { uint v[]; } b[2];
void main(){ b[1].v[gl_LocalInvocationIndex] = 1; }
