__kernel void lift(__global const uint *a0, __global uint *o0, const uint s0, const uint s1)
{
  uint v0;
  uint v1;
  for (uint i0 = (uint)get_global_id(0); i0 < s1; i0 += (uint)get_global_size(0)) {
    for (uint i1 = 0u; i1 < s0; i1 += 1u) {
      v0 = a0[((i0 * s0) + i1)];
      v1 = (v0 * 2u);
      o0[((i0 * s0) + i1)] = (v1 + 1u);
    }
  }
}
