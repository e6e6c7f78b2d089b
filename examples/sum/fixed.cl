__kernel __attribute__((reqd_work_group_size(16, 1, 1))) void lift(__global const uint *a0, __global const uint *a1, __global uint *o0, const uint s0, const uint s1)
{
  __local uint l0[16];
  __local uint l1[4];
  uint v0;
  uint v1;
  uint v2;
  uint v3;
  uint v4;
  uint v5;
  if ((uint)get_group_id(0) < 1u) {
    v0 = 0u;
    for (uint i0 = 0u; i0 < s0; i0 += 1u) {
      v1 = a0[((i0 * 16u) + (uint)get_local_id(0))];
      v0 = (v0 + v1);
    }
    l0[(uint)get_local_id(0)] = v0;
    barrier(CLK_LOCAL_MEM_FENCE);
    if ((uint)get_local_id(0) < 4u) {
      v2 = 0u;
      for (uint i0 = 0u; i0 < 4u; i0 += 1u) {
        v3 = l0[(((uint)get_local_id(0) * 4u) + i0)];
        v2 = (v2 + v3);
      }
      l1[(uint)get_local_id(0)] = v2;
    }
    barrier(CLK_LOCAL_MEM_FENCE);
    if ((uint)get_local_id(0) < s1) {
      v4 = 0u;
      for (uint i0 = 0u; i0 < 4u; i0 += 1u) {
        v5 = l1[i0];
        v4 = (v4 + v5);
      }
      o0[0u] = v4;
    }
  }
}
