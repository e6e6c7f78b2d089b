__kernel void lift(__global const uint *a0, __global uint *o0, const uint s0)
{
  uint v0;
  for (uint i0 = (uint)get_global_id(0); i0 < (8u * s0); i0 += (uint)get_global_size(0)) {
    v0 = a0[i0];
    o0[i0] = ((v0 * 2u) + 1u);
  }
}
