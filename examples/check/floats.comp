#version 450
layout(local_size_x = 1) in;
layout(set = 0, binding = 0) buffer F { float x; } f;
void main() { f.x = 1.5; }
