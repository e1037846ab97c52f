#version 450
layout(local_size_x = 1) in;
layout(set = 0, binding = 0, std430) buffer B { uint set; uint numbers[4]; } b;

// The place is used only where it was set, but here `set ? place : 0` is an OpSelect, and one of its objects isn't defined.
void main() {
  uint place;
  bool set = b.set != 0u;
  if (set) {
    place = 3u;
  }
  uint index = set ? place : 0u;
  b.numbers[index] = 7u;
}
