__kernel void lift(__global const uint *a0, __global const uint *a1, __global uint *o0, const uint s0, const uint s1)
{
  __local uint l0[16];
  __local uint l1[4];
  uint v0;
  uint v1;
  uint v2;
  uint v3;
  uint v4;
  uint v5;
  for (uint i0 = (uint)get_group_id(0); i0 < 1u; i0 += (uint)get_num_groups(0)) {
    for (uint i1 = (uint)get_local_id(0); i1 < 16u; i1 += (uint)get_local_size(0)) {
      v0 = 0u;
      for (uint i2 = 0u; i2 < s0; i2 += 1u) {
        v1 = a0[((i2 * 16u) + i1)];
        v0 = (v0 + v1);
      }
      l0[i1] = v0;
    }
    barrier(CLK_LOCAL_MEM_FENCE);
    for (uint i1 = (uint)get_local_id(0); i1 < 4u; i1 += (uint)get_local_size(0)) {
      v2 = 0u;
      for (uint i2 = 0u; i2 < 4u; i2 += 1u) {
        v3 = l0[((i1 * 4u) + i2)];
        v2 = (v2 + v3);
      }
      l1[i1] = v2;
    }
    barrier(CLK_LOCAL_MEM_FENCE);
    for (uint i1 = (uint)get_local_id(0); i1 < s1; i1 += (uint)get_local_size(0)) {
      v4 = 0u;
      for (uint i2 = 0u; i2 < 4u; i2 += 1u) {
        v5 = l1[i2];
        v4 = (v4 + v5);
      }
      o0[i1] = v4;
    }
  }
}
