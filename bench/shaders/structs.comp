// Structs, arrays of structs, a runtime array of them, uniform and push constant blocks, shared memory and a specialization constant.
#version 450
layout(local_size_x = 1) in;
layout(constant_id = 7) const uint SCALE = 3;

struct Point { int x; int y; };
struct Cell { uint id; Point at[2]; uvec3 weights; };

layout(std430, set = 0, binding = 0) buffer Cells { uint count; Cell cells[]; } b;
layout(std140, set = 0, binding = 1) uniform Limits { uvec2 low; Point corner; uint steps[3]; } u;
layout(push_constant) uniform Push { uint which; int by; } p;

shared uint s[4];
shared Point last;

void main() {
    uint n = uint(b.cells.length());
    Cell c = b.cells[p.which];
    c.at[1].x += p.by * int(SCALE);
    c.weights.yz = u.low;
    b.cells[n - 1u] = c;
    last = c.at[1];
    s[c.id & 3u] = u.steps[2] + uint(last.y - u.corner.x);
    b.count = s[c.id & 3u] + gl_LocalInvocationIndex;
    Cell written = b.cells[n - 1u];
    uint counted = b.count;
}
