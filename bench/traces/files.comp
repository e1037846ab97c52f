#version 450
#extension GL_GOOGLE_include_directive : enable
#extension GL_GOOGLE_cpp_style_line_directive : enable
layout(local_size_x = 2) in;
layout(set = 0, binding = 0) buffer B { uint v[16]; } b;

#include "files.glsl"

uint both(uint x) {
  return mixed(x) + halved(x);
}

#ifdef FAR
#line 100 "far/away.comp"
#endif
uint far(uint x) {
  uint y = both(x);
  return y + mixed(y);
}
#ifdef FAR
#line 24 "files.comp"
#endif
void main() {
  uint i = gl_LocalInvocationIndex;
  b.v[i] = far(b.v[i]) + both(i);
}
