#version 450
layout(local_size_x = 2) in;
void main() {
  if (gl_LocalInvocationIndex == 0u) return;
  barrier();
}
