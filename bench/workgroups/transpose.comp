#version 450
layout(local_size_x = 4, local_size_y = 4, local_size_z = 2) in;
layout(set = 0, binding = 0) buffer In { uint v[32]; } given;
layout(set = 0, binding = 1) buffer Out { uint v[32]; } made;
shared uint tile[2][4][4];

void main() {
    uvec3 at = gl_LocalInvocationID;
    uint place = at.z * 16u + at.y * 4u + at.x;
    tile[at.z][at.y][at.x] = given.v[place];
    barrier();
    made.v[place] = tile[at.z][at.x][at.y];
}
