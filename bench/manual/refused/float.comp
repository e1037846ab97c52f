#version 450
layout(local_size_x = 4) in;
layout(set=0,binding=0) buffer B { float v[]; } b;
void main(){ b.v[gl_LocalInvocationIndex] *= 2.0; }
