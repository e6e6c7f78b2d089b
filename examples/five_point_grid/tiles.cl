__kernel __attribute__((reqd_work_group_size(16, 4, 1))) void lift(__global const uint *a0, __global const uint *a1, __global uint *o0, const uint s0, const uint s1)
{
  __local uint l0[108];
  uint v0;
  uint v1;
  uint v2;
  uint v3;
  uint v4;
  for (uint i0 = (uint)get_group_id(1); i0 < s1; i0 += (uint)get_num_groups(1)) {
    for (uint i1 = (uint)get_group_id(0); i1 < s0; i1 += (uint)get_num_groups(0)) {
      for (uint i2 = (uint)get_local_id(1); i2 < 6u; i2 += (uint)get_local_size(1)) {
        for (uint i3 = (uint)get_local_id(0); i3 < 18u; i3 += (uint)get_local_size(0)) {
          v0 = a0[((min((max(((i0 * 4u) + i2), 1u) - 1u), ((4u * s1) - 1u)) * (16u * s0)) + min((max(((i1 * 16u) + i3), 1u) - 1u), ((16u * s0) - 1u)))];
          l0[((i2 * 18u) + i3)] = v0;
        }
      }
      barrier(CLK_LOCAL_MEM_FENCE);
      v1 = 0u;
      for (uint i2 = 0u; i2 < 9u; i2 += 1u) {
        v2 = l0[((((uint)get_local_id(1) + (i2 / 3u)) * 18u) + ((uint)get_local_id(0) + (i2 % 3u)))];
        v3 = a1[i2];
        v4 = (v2 * v3);
        v1 = (v1 + v4);
      }
      o0[((((i0 * 4u) + (uint)get_local_id(1)) * (16u * s0)) + ((i1 * 16u) + (uint)get_local_id(0)))] = v1;
      barrier(CLK_LOCAL_MEM_FENCE);
    }
  }
}
