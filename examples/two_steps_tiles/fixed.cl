__kernel __attribute__((reqd_work_group_size(16, 1, 1))) void lift(__global const uint *a0, __global uint *o0, const uint s0)
{
  __local uint l0[20];
  __local uint l1[18];
  uint v0;
  uint v1;
  uint v2;
  uint v3;
  uint v4;
  for (uint i0 = (uint)get_group_id(0); i0 < s0; i0 += (uint)get_num_groups(0)) {
    for (uint i1 = (uint)get_local_id(0); i1 < 20u; i1 += (uint)get_local_size(0)) {
      v0 = a0[((i0 * 16u) + i1)];
      l0[i1] = v0;
    }
    barrier(CLK_LOCAL_MEM_FENCE);
    for (uint i1 = (uint)get_local_id(0); i1 < 18u; i1 += (uint)get_local_size(0)) {
      v1 = 0u;
      for (uint i2 = 0u; i2 < 3u; i2 += 1u) {
        v2 = l0[(i1 + i2)];
        v1 = (v1 + v2);
      }
      l1[i1] = v1;
    }
    barrier(CLK_LOCAL_MEM_FENCE);
    v3 = 0u;
    for (uint i1 = 0u; i1 < 3u; i1 += 1u) {
      v4 = l1[((uint)get_local_id(0) + i1)];
      v3 = (v3 + v4);
    }
    o0[((i0 * 16u) + (uint)get_local_id(0))] = v3;
  }
}
