__kernel void lift(__global const uint *a0, __global const uint *a1, __global uint *o0, const uint s0, const uint s1)
{
  __local uint l0[100];
  uint v0;
  uint v1;
  uint v2;
  uint v3;
  uint v4;
  for (uint i0 = (uint)get_group_id(0); i0 < (s0 * s1); i0 += (uint)get_num_groups(0)) {
    for (uint i1 = (uint)get_local_id(0); i1 < 100u; i1 += (uint)get_local_size(0)) {
      v0 = a0[((min((max((((i0 % s1) * 8u) + (i1 / 10u)), 1u) - 1u), ((8u * s1) - 1u)) * (8u * s0)) + min((max((((i0 / s1) * 8u) + (i1 % 10u)), 1u) - 1u), ((8u * s0) - 1u)))];
      l0[i1] = v0;
    }
    barrier(CLK_LOCAL_MEM_FENCE);
    for (uint i1 = (uint)get_local_id(0); i1 < 64u; i1 += (uint)get_local_size(0)) {
      v1 = 0u;
      for (uint i2 = 0u; i2 < 9u; i2 += 1u) {
        v2 = l0[((((i1 / 8u) + (i2 / 3u)) * 10u) + ((i1 % 8u) + (i2 % 3u)))];
        v3 = a1[i2];
        v4 = (v2 * v3);
        v1 = (v1 + v4);
      }
      o0[(((((((i0 % s1) * 8u) + (i1 / 8u)) * s0) + (i0 / s1)) * 8u) + (i1 % 8u))] = v1;
    }
    barrier(CLK_LOCAL_MEM_FENCE);
  }
}
