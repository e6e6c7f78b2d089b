__kernel void lift0(__global const uint *a0, __global const uint *a1, __global uint *o0, const uint s0, const uint s1)
{
  uint v0;
  uint v1;
  for (uint i0 = (uint)get_global_id(0); i0 < s1; i0 += (uint)get_global_size(0)) {
    v0 = 0u;
    for (uint i1 = 0u; i1 < s0; i1 += 1u) {
      v1 = a0[((i0 * s0) + i1)];
      v0 = max(v0, v1);
    }
    o0[i0] = v0;
  }
}
__kernel void lift1(__global const uint *a0, __global const uint *a1, __global const uint *a2, __global uint *o0, const uint s0, const uint s1)
{
  uint v0;
  uint v1;
  for (uint i0 = (uint)get_global_id(0); i0 < s1; i0 += (uint)get_global_size(0)) {
    v0 = a2[i0];
    for (uint i1 = 0u; i1 < s0; i1 += 1u) {
      v1 = a0[((i0 * s0) + i1)];
      o0[((i0 * s0) + i1)] = (65536u >> min(31u, (v0 - v1)));
    }
  }
}
__kernel void lift2(__global const uint *a0, __global const uint *a1, __global const uint *a2, __global const uint *a3, __global uint *o0, const uint s0, const uint s1)
{
  uint v0;
  uint v1;
  for (uint i0 = (uint)get_global_id(0); i0 < s1; i0 += (uint)get_global_size(0)) {
    v0 = 0u;
    for (uint i1 = 0u; i1 < s0; i1 += 1u) {
      v1 = a0[((i0 * s0) + i1)];
      v0 = max(v0, v1);
    }
    o0[i0] = v0;
  }
}
__kernel void lift3(__global const uint *a0, __global const uint *a1, __global const uint *a2, __global const uint *a3, __global const uint *a4, __global uint *o0, const uint s0, const uint s1)
{
  uint v0;
  uint v1;
  for (uint i0 = (uint)get_global_id(0); i0 < s1; i0 += (uint)get_global_size(0)) {
    v0 = a4[i0];
    for (uint i1 = 0u; i1 < s0; i1 += 1u) {
      v1 = a0[((i0 * s0) + i1)];
      o0[((i0 * s0) + i1)] = (65536u >> min(31u, (v0 - v1)));
    }
  }
}
__kernel void lift4(__global const uint *a0, __global const uint *a1, __global const uint *a2, __global const uint *a3, __global const uint *a4, __global const uint *a5, __global uint *o0, const uint s0, const uint s1)
{
  uint v0;
  uint v1;
  for (uint i0 = (uint)get_global_id(0); i0 < s1; i0 += (uint)get_global_size(0)) {
    v0 = 0u;
    for (uint i1 = 0u; i1 < s0; i1 += 1u) {
      v1 = a5[((i0 * s0) + i1)];
      v0 = (v0 + v1);
    }
    o0[i0] = v0;
  }
}
__kernel void lift5(__global const uint *a0, __global const uint *a1, __global const uint *a2, __global const uint *a3, __global const uint *a4, __global const uint *a5, __global const uint *a6, __global uint *o0, const uint s0, const uint s1)
{
  uint p0[1];
  uint p1[1];
  uint v0;
  uint v1;
  uint v2;
  uint v3;
  uint v4;
  uint v5;
  uint v6;
  uint v7;
  uint v8;
  uint v9;
  for (uint i0 = (uint)get_global_id(0); i0 < s1; i0 += (uint)get_global_size(0)) {
    v0 = a6[i0];
    for (uint i1 = 0u; i1 < s0; i1 += 1u) {
      v1 = a3[((i0 * s0) + i1)];
      v2 = 0u;
      v3 = 0u;
      for (uint i2 = 0u; i2 < 32u; i2 += 1u) {
        v4 = a1[i2];
        v5 = ((v3 << 1u) | (((v1 * 32768u) >> v4) & 1u));
        v6 = (v5 < v0 ? 1u : 0u);
        v7 = ((v2 << 1u) | (1u - v6));
        v8 = (v6 == 0u ? (v5 - v0) : v5);
        v2 = v7;
        v3 = v8;
      }
      p0[0u] = v2;
      p1[0u] = v3;
      for (uint i2 = 0u; i2 < 1u; i2 += 1u) {
        v9 = p0[i2];
        o0[((i0 * s0) + i1)] = v9;
      }
    }
  }
}
