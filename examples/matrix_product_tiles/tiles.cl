__kernel void lift(__global const uint *a0, __global const uint *a1, __global uint *o0, const uint s0, const uint s1)
{
  __local uint l0[128];
  uint p0[16];
  uint v0;
  uint v1;
  uint v2;
  uint v3;
  uint v4;
  uint v5;
  for (uint i0 = (uint)get_group_id(0); i0 < (s0 / 8u); i0 += (uint)get_num_groups(0)) {
    for (uint i1 = (uint)get_local_id(0); i1 < 128u; i1 += (uint)get_local_size(0)) {
      v0 = a0[((((i0 * 8u) + (i1 / 16u)) * 16u) + (i1 % 16u))];
      l0[i1] = v0;
    }
    barrier(CLK_LOCAL_MEM_FENCE);
    for (uint i1 = (uint)get_local_id(0); i1 < s1; i1 += (uint)get_local_size(0)) {
      for (uint i2 = 0u; i2 < 16u; i2 += 1u) {
        v1 = a1[((i2 * s1) + i1)];
        p0[i2] = v1;
      }
      for (uint i2 = 0u; i2 < 8u; i2 += 1u) {
        v2 = 0u;
        for (uint i3 = 0u; i3 < 16u; i3 += 1u) {
          v3 = l0[((i2 * 16u) + i3)];
          v4 = p0[i3];
          v5 = (v3 * v4);
          v2 = (v2 + v5);
        }
        o0[((((i0 * 8u) + i2) * s1) + i1)] = v2;
      }
    }
    barrier(CLK_LOCAL_MEM_FENCE);
  }
}
