#version 450
layout(local_size_x = 1) in;
layout(set = 0, binding = 0, std430) buffer B { uint greatest; uint numbers[4]; } b;

// The greatest number above 9. Where there is none, nothing was ever stored in the variable.
void main() {
  uint greatest;
  uint bar = 9u;
  for (uint k = 0u; k < 4u; ++k) {
    if (b.numbers[k] > bar) {
      greatest = b.numbers[k];
      bar = greatest;
    }
  }
  b.greatest = greatest;
}
