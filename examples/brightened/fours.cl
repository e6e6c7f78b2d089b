__kernel void lift(__global const uint *a0, __global uint *o0, const uint s0)
{
  uint4 w0;
  uint4 w1;
  for (uint i0 = (uint)get_global_id(0); i0 < (s0 / 4u); i0 += (uint)get_global_size(0)) {
    w0 = vload4(i0, a0);
    w1 = ((w0 * (uint4)(300u)) >> (uint4)(8u));
    vstore4(min(w1, (uint4)(255u)), i0, o0);
  }
}
