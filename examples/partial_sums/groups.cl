__kernel void lift(__global const uint *a0, __global const uint *a1, __global uint *o0, const uint s0)
{
  __local uint l0[4];
  uint v0;
  uint v1;
  uint v2;
  uint v3;
  uint v4;
  uint v5;
  for (uint i0 = (uint)get_group_id(0); i0 < (s0 / 8u); i0 += (uint)get_num_groups(0)) {
    for (uint i1 = (uint)get_local_id(0); i1 < 4u; i1 += (uint)get_local_size(0)) {
      v0 = 0u;
      for (uint i2 = 0u; i2 < 2u; i2 += 1u) {
        v1 = a0[((i0 * 8u) + ((i1 * 2u) + i2))];
        v2 = a1[((i0 * 8u) + ((i1 * 2u) + i2))];
        v3 = (v1 * v2);
        v0 = (v0 + v3);
      }
      l0[i1] = v0;
    }
    barrier(CLK_LOCAL_MEM_FENCE);
    for (uint i1 = (uint)get_local_id(0); i1 < 2u; i1 += (uint)get_local_size(0)) {
      v4 = 0u;
      for (uint i2 = 0u; i2 < 2u; i2 += 1u) {
        v5 = l0[((i1 * 2u) + i2)];
        v4 = (v4 + v5);
      }
      o0[((i0 * 2u) + i1)] = v4;
    }
    barrier(CLK_LOCAL_MEM_FENCE);
  }
}
