#version 450
layout(local_size_x = 1) in;
layout(set = 0, binding = 0, std430) buffer B { uint none; uint width; uint two; } b;
shared uint shared_number;

// What isn't defined, and how it spreads.
void main() {
  uint variable;
  uint from_variable = variable;
  uint from_shared = shared_number;
  uint quotient = 7u / b.none;
  uint rest = 7u % b.none;
  uint shifted = 1u << b.width;
  uint field = bitfieldExtract(7u, 30, int(b.two) + 1);
  uint between = clamp(5u, b.two, b.none);
  uint sum = quotient + 1u;
  uint product = quotient * b.none;
  uvec2 mixed = uvec2(b.two, quotient) + uvec2(1u);
}
