__kernel void lift(__global const uint *a0, __global const uint *a1, __global uint *o0, const uint s0)
{
  uint v0;
  uint v1;
  uint v2;
  uint v3;
  v0 = 0u;
  for (uint i0 = 0u; i0 < s0; i0 += 1u) {
    v1 = a0[i0];
    v2 = a1[i0];
    v3 = (v1 * v2);
    v0 = (v0 + v3);
  }
  o0[0u] = v0;
}
