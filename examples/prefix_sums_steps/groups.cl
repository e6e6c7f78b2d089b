__kernel __attribute__((reqd_work_group_size(17, 1, 1))) void lift(__global const uint *a0, __global const uint *a1, __global uint *o0, const uint s0)
{
  __local uint l0[17];
  __local uint l1[17];
  __local uint l2[17];
  __local uint l3[17];
  __local uint l4[17];
  uint v0;
  uint v1;
  uint v2;
  uint v3;
  uint v4;
  uint v5;
  uint v6;
  uint v7;
  uint v8;
  uint v9;
  uint v10;
  uint v11;
  for (uint i0 = (uint)get_group_id(0); i0 < s0; i0 += (uint)get_num_groups(0)) {
    v0 = a1[(uint)get_local_id(0)];
    v1 = a0[((i0 * 16u) + (max((uint)get_local_id(0), 1u) - 1u))];
    l0[(uint)get_local_id(0)] = ((v0 == 0u ? 1u : 0u) == 0u ? v1 : 0u);
    barrier(CLK_LOCAL_MEM_FENCE);
    v2 = 0u;
    for (uint i1 = 0u; i1 < 2u; i1 += 1u) {
      v3 = l0[min((max((i1 + (uint)get_local_id(0)), 1u) - 1u), 16u)];
      v2 = (v2 + v3);
    }
    l1[(uint)get_local_id(0)] = v2;
    barrier(CLK_LOCAL_MEM_FENCE);
    v4 = 0u;
    for (uint i1 = 0u; i1 < 2u; i1 += 1u) {
      v5 = l1[min((max(((i1 * 2u) + (uint)get_local_id(0)), 2u) - 2u), 16u)];
      v4 = (v4 + v5);
    }
    l2[(uint)get_local_id(0)] = v4;
    barrier(CLK_LOCAL_MEM_FENCE);
    v6 = 0u;
    for (uint i1 = 0u; i1 < 2u; i1 += 1u) {
      v7 = l2[min((max(((i1 * 4u) + (uint)get_local_id(0)), 4u) - 4u), 16u)];
      v6 = (v6 + v7);
    }
    l3[(uint)get_local_id(0)] = v6;
    barrier(CLK_LOCAL_MEM_FENCE);
    v8 = 0u;
    for (uint i1 = 0u; i1 < 2u; i1 += 1u) {
      v9 = l3[min((max(((i1 * 8u) + (uint)get_local_id(0)), 8u) - 8u), 16u)];
      v8 = (v8 + v9);
    }
    l4[(uint)get_local_id(0)] = v8;
    barrier(CLK_LOCAL_MEM_FENCE);
    if ((uint)get_local_id(0) < 16u) {
      v10 = 0u;
      for (uint i1 = 0u; i1 < 2u; i1 += 1u) {
        v11 = l4[((uint)get_local_id(0) + i1)];
        v10 = v11;
      }
      o0[((i0 * 16u) + (uint)get_local_id(0))] = v10;
    }
  }
}
