#version 450
layout(local_size_x = 4) in;
layout(set = 0, binding = 0) buffer B { uint v[16]; } b;

int step_of(uint kind) {
  switch (kind) {
    case 0u: return 1;
    case 1u: return -1;
    default: break;
  }
  return 7;
}

int chosen(uint kind, int x) {
  int y = x;
  switch (kind & 3u) {
    case 0u:
      y += step_of(kind);
    case 1u:
      y *= 2;
      break;
    case 2u: {
      int z = y - step_of(1u);
      y = z * z;
      break;
    }
    default:
      for (int k = 0; k < 3; ++k) {
        switch (k) {
          case 1: y += step_of(0u); continue;
          case 2: y -= 5; break;
        }
        y ^= k;
      }
  }
  return y;
}

void main() {
  uint i = gl_LocalInvocationIndex;
  b.v[i] = uint(chosen(b.v[i], int(i)));
}
