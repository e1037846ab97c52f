// Blocks within blocks, arrays of arrays, arrays whose lengths are specialized, and copies of whole structs between layouts.
#version 450
layout(local_size_x = 1) in;
layout(constant_id = 0) const int ROWS = 2;
const int ALL = ROWS * 2;

struct Inner { uvec2 pair; uint tail; };
struct Outer { Inner inner[2]; int grid[2][3]; };

layout(std430, set = 1, binding = 2) buffer Source { Outer first; Outer rest[]; } source;
layout(std140, set = 1, binding = 3) buffer Target { uint lengths[2]; Outer outer; } target;
layout(std430, set = 0, binding = 0) readonly buffer Picks { ivec4 at; } picks;

shared int row[ALL];
shared Outer kept;

void main() {
    ivec4 at = picks.at;
    Outer o = source.rest[at.x];
    o.inner[at.y].pair = source.first.inner[1 - at.y].pair.yx;
    kept = o;
    row[at.z] = kept.grid[at.y][at.w];
    row[ALL - 1] = row[at.z] * ROWS;
    o.grid[1][2] = row[ALL - 1] - row[at.z];
    target.outer = o;
    target.lengths[0] = uint(source.rest.length());
    target.lengths[1] = kept.inner[at.y].tail;
    Outer written = target.outer;
    uint tail = target.lengths[1] + target.lengths[0];
}
