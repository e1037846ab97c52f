#version 450
layout(local_size_x = 1) in;
layout(set = 0, binding = 0, std430) buffer B { uint set; uint limit; uint alarms; } b;

// What `above` is doesn't matter where nothing was set. An optimizer makes one OpSelect of the second `if`.
void main() {
  uint limit;
  bool set = b.set != 0u;
  if (set) {
    limit = b.limit;
  }
  bool above = limit > 3u;
  bool alarm = false;
  if (set) {
    alarm = above;
  }
  if (alarm) {
    b.alarms++;
  }
}
