__kernel void lift(__global const uint *a0, __global const uint *a1, __global uint *o0, const uint s0, const uint s1)
{
  uint p0[3];
  uint v0;
  uint v1;
  uint v2;
  uint v3;
  uint v4;
  uint v5;
  for (uint i0 = (uint)get_group_id(0); i0 < s1; i0 += (uint)get_num_groups(0)) {
    for (uint i1 = (uint)get_local_id(0); i1 < s0; i1 += (uint)get_local_size(0)) {
      for (uint i2 = 0u; i2 < 3u; i2 += 1u) {
        v0 = 0u;
        for (uint i3 = 0u; i3 < 3u; i3 += 1u) {
          v1 = a0[((min((max((i0 + i2), 1u) - 1u), (s1 - 1u)) * s0) + min((max((i1 + i3), 1u) - 1u), (s0 - 1u)))];
          v2 = a1[((i2 * 3u) + i3)];
          v3 = (v1 * v2);
          v0 = (v0 + v3);
        }
        p0[i2] = v0;
      }
      v4 = 0u;
      for (uint i2 = 0u; i2 < 3u; i2 += 1u) {
        v5 = p0[i2];
        v4 = (v4 + v5);
      }
      o0[((i0 * s0) + i1)] = v4;
    }
  }
}
