__kernel void lift0(__global const uint *a0, __global const uint *a1, __global uint *o0, const uint s0, const uint s1)
{
  uint p0[1];
  uint v0;
  uint v1;
  uint v2;
  uint v3;
  uint v4;
  for (uint i0 = (uint)get_global_id(0); i0 < s1; i0 += (uint)get_global_size(0)) {
    for (uint i1 = 0u; i1 < s0; i1 += 1u) {
      v0 = 0u;
      for (uint i2 = 0u; i2 < 3u; i2 += 1u) {
        v1 = a0[((i0 * s0) + min((max((i1 + i2), 1u) - 1u), (s0 - 1u)))];
        v2 = a1[i2];
        v3 = (v1 * v2);
        v0 = (v0 + v3);
      }
      p0[0u] = v0;
      for (uint i2 = 0u; i2 < 1u; i2 += 1u) {
        v4 = p0[i2];
        o0[((i0 * s0) + i1)] = (v4 / 4u);
      }
    }
  }
}
__kernel void lift1(__global const uint *a0, __global const uint *a1, __global const uint *a2, __global uint *o0, const uint s0, const uint s1)
{
  uint p0[1];
  uint v0;
  uint v1;
  uint v2;
  uint v3;
  uint v4;
  for (uint i0 = (uint)get_global_id(0); i0 < s0; i0 += (uint)get_global_size(0)) {
    for (uint i1 = 0u; i1 < s1; i1 += 1u) {
      v0 = 0u;
      for (uint i2 = 0u; i2 < 3u; i2 += 1u) {
        v1 = a2[((min((max((i1 + i2), 1u) - 1u), (s1 - 1u)) * s0) + i0)];
        v2 = a1[i2];
        v3 = (v1 * v2);
        v0 = (v0 + v3);
      }
      p0[0u] = v0;
      for (uint i2 = 0u; i2 < 1u; i2 += 1u) {
        v4 = p0[i2];
        o0[((i1 * s0) + i0)] = (v4 / 4u);
      }
    }
  }
}
