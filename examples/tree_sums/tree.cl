__kernel __attribute__((reqd_work_group_size(16, 1, 1))) void lift(__global const uint *a0, __global uint *o0, const uint s0, const uint s1)
{
  __local uint l0[16];
  __local uint l1[8];
  __local uint l2[4];
  __local uint l3[2];
  uint v0;
  uint v1;
  uint v2;
  uint v3;
  uint v4;
  uint v5;
  uint v6;
  uint v7;
  uint v8;
  uint v9;
  for (uint i0 = (uint)get_group_id(0); i0 < s0; i0 += (uint)get_num_groups(0)) {
    v0 = 0u;
    for (uint i1 = 0u; i1 < s1; i1 += 1u) {
      v1 = a0[((i0 * (16u * s1)) + ((i1 * 16u) + (uint)get_local_id(0)))];
      v0 = (v0 + v1);
    }
    l0[(uint)get_local_id(0)] = v0;
    barrier(CLK_LOCAL_MEM_FENCE);
    if ((uint)get_local_id(0) < 8u) {
      v2 = 0u;
      for (uint i1 = 0u; i1 < 2u; i1 += 1u) {
        v3 = l0[((i1 * 8u) + (uint)get_local_id(0))];
        v2 = (v2 + v3);
      }
      l1[(uint)get_local_id(0)] = v2;
    }
    barrier(CLK_LOCAL_MEM_FENCE);
    if ((uint)get_local_id(0) < 4u) {
      v4 = 0u;
      for (uint i1 = 0u; i1 < 2u; i1 += 1u) {
        v5 = l1[((i1 * 4u) + (uint)get_local_id(0))];
        v4 = (v4 + v5);
      }
      l2[(uint)get_local_id(0)] = v4;
    }
    barrier(CLK_LOCAL_MEM_FENCE);
    if ((uint)get_local_id(0) < 2u) {
      v6 = 0u;
      for (uint i1 = 0u; i1 < 2u; i1 += 1u) {
        v7 = l2[((i1 * 2u) + (uint)get_local_id(0))];
        v6 = (v6 + v7);
      }
      l3[(uint)get_local_id(0)] = v6;
    }
    barrier(CLK_LOCAL_MEM_FENCE);
    if ((uint)get_local_id(0) < 1u) {
      v8 = 0u;
      for (uint i1 = 0u; i1 < 2u; i1 += 1u) {
        v9 = l3[i1];
        v8 = (v8 + v9);
      }
      o0[i0] = v8;
    }
  }
}
