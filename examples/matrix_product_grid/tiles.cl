__kernel __attribute__((reqd_work_group_size(8, 8, 1))) void lift(__global const uint *a0, __global const uint *a1, __global uint *o0, const uint s0, const uint s1)
{
  __local uint l0[128];
  __local uint l1[128];
  uint v0;
  uint v1;
  uint v2;
  uint v3;
  uint v4;
  uint v5;
  for (uint i0 = (uint)get_group_id(1); i0 < s0; i0 += (uint)get_num_groups(1)) {
    for (uint i1 = (uint)get_group_id(0); i1 < s1; i1 += (uint)get_num_groups(0)) {
      for (uint i2 = (uint)get_local_id(0); i2 < 16u; i2 += (uint)get_local_size(0)) {
        v0 = a0[((((i0 * 8u) + (uint)get_local_id(1)) * 16u) + i2)];
        l0[(((uint)get_local_id(1) * 16u) + i2)] = v0;
      }
      for (uint i2 = (uint)get_local_id(1); i2 < 16u; i2 += (uint)get_local_size(1)) {
        v1 = a1[((i2 * (8u * s1)) + ((i1 * 8u) + (uint)get_local_id(0)))];
        l1[((i2 * 8u) + (uint)get_local_id(0))] = v1;
      }
      barrier(CLK_LOCAL_MEM_FENCE);
      v2 = 0u;
      for (uint i2 = 0u; i2 < 16u; i2 += 1u) {
        v3 = l0[(((uint)get_local_id(1) * 16u) + i2)];
        v4 = l1[((i2 * 8u) + (uint)get_local_id(0))];
        v5 = (v3 * v4);
        v2 = (v2 + v5);
      }
      o0[((((i0 * 8u) + (uint)get_local_id(1)) * (8u * s1)) + ((i1 * 8u) + (uint)get_local_id(0)))] = v2;
      barrier(CLK_LOCAL_MEM_FENCE);
    }
  }
}
