// What the programs that time OpenFst share: our bytes as a transducer, a string as an acceptor, the count of paths.
#ifndef BENCH_OPENFST_H
#define BENCH_OPENFST_H

#include <fst/fstlib.h>

#include <algorithm>
#include <cstdint>
#include <cstdio>
#include <cstdlib>
#include <fstream>
#include <iterator>
#include <string>
#include <vector>

using fst::StdArc;
using fst::StdVectorFst;

inline std::string slurp(const std::string &path) {
  std::ifstream file(path, std::ios::binary);
  if (!file) std::fprintf(stderr, "%s: not there\n", path.c_str()), std::exit(1);
  return std::string(std::istreambuf_iterator<char>(file), {});
}

inline uint32_t u16_at(const std::string &b, size_t i) { return (uint8_t)b[i] | (uint8_t)b[i + 1] << 8; }
inline int32_t i32_at(const std::string &b, size_t i) { return (int32_t)(u16_at(b, i) | u16_at(b, i + 2) << 16); }

// A transducer whose bytes are known to be sound.
inline StdVectorFst build(const std::string &b) {
  StdVectorFst t;
  const uint32_t n = u16_at(b, 4), m = u16_at(b, 6), f = u16_at(b, 8), start = u16_at(b, 10);
  for (uint32_t i = 0; i < n; ++i) t.AddState();
  t.SetStart(start);
  size_t at = 12;
  for (uint32_t i = 0; i < f; ++i, at += 10) t.SetFinal(u16_at(b, at + 4), i32_at(b, at + 6));
  for (uint32_t i = 0; i < m; ++i, at += 16)
    t.AddArc(u16_at(b, at + 4), StdArc(u16_at(b, at + 6), u16_at(b, at + 8), i32_at(b, at + 12), u16_at(b, at + 10)));
  return t;
}

// The linear acceptor of a string.
inline StdVectorFst acceptor(const std::string &code) {
  StdVectorFst t;
  t.SetStart(t.AddState());
  for (size_t i = 0; i + 1 < code.size(); i += 2) {
    const int s = t.AddState();
    t.AddArc(s - 1, StdArc(u16_at(code, i), u16_at(code, i), 0, s));
  }
  t.SetFinal(t.NumStates() - 1, 0);
  return t;
}

// Accepting paths, held at 99; -1 where they are infinitely many. For a connected (trimmed) transducer. `counts` gets those from each state.
inline int count(const StdVectorFst &t, std::vector<int> *counts = nullptr) {
  if (t.Start() < 0) return 0;
  std::vector<int> order;
  bool acyclic;
  fst::TopOrderVisitor<StdArc> v(&order, &acyclic);
  fst::DfsVisit(t, &v);
  if (!acyclic) return -1;
  std::vector<int> by(t.NumStates()), c(t.NumStates());
  for (int s = 0; s < t.NumStates(); ++s) by[order[s]] = s;
  for (int i = t.NumStates() - 1; i >= 0; --i) {
    const int s = by[i];
    int x = t.Final(s) != StdArc::Weight::Zero();
    for (fst::ArcIterator<StdVectorFst> it(t, s); !it.Done(); it.Next()) x = std::min(99, x + c[it.Value().nextstate]);
    c[s] = x;
  }
  const int all = c[t.Start()];
  if (counts) counts->swap(c);
  return all;
}

#endif
