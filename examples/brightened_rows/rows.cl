__kernel void lift(__global const uint *a0, __global uint *o0, const uint s0)
{
  uint4 w0;
  for (uint i0 = (uint)get_global_id(0); i0 < s0; i0 += (uint)get_global_size(0)) {
    for (uint i1 = 0u; i1 < 16u; i1 += 1u) {
      w0 = vload4((((i0 * 64u) + (i1 * 4u)) / 4u), a0);
      vstore4(min(((w0 * (uint4)(300u)) >> (uint4)(8u)), (uint4)(255u)), (((i0 * 64u) + (i1 * 4u)) / 4u), o0);
    }
  }
}
