__kernel void lift(__global const uint *a0, __global uint *o0, const uint s0)
{
  __local uint l0[8];
  uint v0;
  uint v1;
  for (uint i0 = (uint)get_group_id(0); i0 < (s0 / 2u); i0 += (uint)get_num_groups(0)) {
    for (uint i1 = (uint)get_local_id(0); i1 < 2u; i1 += (uint)get_local_size(0)) {
      for (uint i2 = 0u; i2 < 4u; i2 += 1u) {
        v0 = a0[((((i0 * 2u) + i1) * 4u) + i2)];
        l0[((i1 * 4u) + i2)] = v0;
      }
    }
    barrier(CLK_LOCAL_MEM_FENCE);
    for (uint i1 = (uint)get_local_id(0); i1 < 4u; i1 += (uint)get_local_size(0)) {
      for (uint i2 = 0u; i2 < 2u; i2 += 1u) {
        v1 = l0[((i2 * 4u) + i1)];
        o0[((((i1 * (s0 / 2u)) + i0) * 2u) + i2)] = v1;
      }
    }
    barrier(CLK_LOCAL_MEM_FENCE);
  }
}
