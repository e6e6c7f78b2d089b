__kernel void lift(__global const uint *a0, __global const uint *a1, __global const uint *a2, __global const uint *a3, __global uint *o0, __global uint *o1, __global uint *o2, __global uint *o3, const uint s0, const uint s1)
{
  __local uint l0[8];
  __local uint l1[8];
  uint v0;
  uint v1;
  uint v2;
  uint v3;
  uint v4;
  uint v5;
  uint v6;
  uint v7;
  uint v8;
  uint v9;
  uint v10;
  uint v11;
  uint v12;
  uint v13;
  for (uint i0 = (uint)get_group_id(0); i0 < s0; i0 += (uint)get_num_groups(0)) {
    for (uint i1 = (uint)get_local_id(0); i1 < 8u; i1 += (uint)get_local_size(0)) {
      v0 = a0[((i0 * 8u) + i1)];
      v1 = a1[((i0 * 8u) + i1)];
      l0[i1] = v0;
      l1[i1] = v1;
    }
    barrier(CLK_LOCAL_MEM_FENCE);
    for (uint i1 = (uint)get_local_id(0); i1 < s1; i1 += (uint)get_local_size(0)) {
      v2 = 0u;
      v3 = 0u;
      v4 = 0u;
      v5 = 0u;
      for (uint i2 = 0u; i2 < 8u; i2 += 1u) {
        v6 = l0[i2];
        v7 = l1[i2];
        v8 = a2[((i2 * s1) + i1)];
        v9 = a3[((i2 * s1) + i1)];
        v10 = (v2 + (v6 * v8));
        v11 = (v3 + (v6 * v9));
        v12 = (v4 + (v7 * v8));
        v13 = (v5 + (v7 * v9));
        v2 = v10;
        v3 = v11;
        v4 = v12;
        v5 = v13;
      }
      o0[((i0 * s1) + i1)] = v2;
      o1[((i0 * s1) + i1)] = v3;
      o2[((i0 * s1) + i1)] = v4;
      o3[((i0 * s1) + i1)] = v5;
    }
    barrier(CLK_LOCAL_MEM_FENCE);
  }
}
