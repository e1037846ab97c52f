#version 450
layout(local_size_x = 1) in;
layout(set = 0, binding = 0, std430) buffer B { uint runs; uint numbers[4]; } b;

// The same with the variable initialized.
void main() {
  bool first = true;
  uint last = 0u;
  for (uint k = 0u; k < 4u; ++k) {
    uint number = b.numbers[k];
    if (first || number != last) b.runs++;
    last = number;
    first = false;
  }
}
