// Random small pairs of transducers with a string: the same seed and number always give the same case.
#ifndef PAIRS_H
#define PAIRS_H

#include <algorithm>
#include <cstddef>
#include <cstdint>
#include <utility>
#include <vector>

using Bytes = std::vector<uint8_t>;
using Labels = std::vector<uint16_t>;

// As an input it reads any symbol that its state does not name, as an output it passes on the symbol read.
constexpr int ANY = 65535;

// The left transducer once more with arcs for any symbol, which composing refuses and the cascade takes; empty where there is none.
struct Case {
  Bytes left, right;
  Labels string;
  Bytes any_left;
};

// splitmix64
struct Rng {
  uint64_t x;
  uint64_t next() {
    uint64_t z = x += 0x9E3779B97F4A7C15u;
    z = (z ^ (z >> 30)) * 0xBF58476D1CE4E5B9u;
    z = (z ^ (z >> 27)) * 0x94D049BB133111EBu;
    return z ^ (z >> 31);
  }
  uint32_t below(uint32_t n) { return (next() >> 11) % n; }
  uint32_t range(uint32_t low, uint32_t high) { return low + below(high - low + 1); }
  bool chance(uint32_t part, uint32_t whole) { return below(whole) < part; }
};

struct Move {
  uint32_t source, input, output, target;
  int32_t weight;
};

struct Table {
  uint32_t states = 1, start = 0;
  std::vector<std::pair<uint32_t, int32_t>> finals;
  std::vector<Move> arcs;

  void set_final(uint32_t s, int32_t w) {
    finals.erase(std::remove_if(finals.begin(), finals.end(), [&](auto &x) { return x.first == s; }), finals.end());
    finals.push_back({s, w});
  }

  Bytes bytes() const {
    auto f = finals;
    auto a = arcs;
    std::sort(f.begin(), f.end());
    std::stable_sort(a.begin(), a.end(), [](auto &x, auto &y) { return x.source < y.source; });
    Bytes b;
    auto two = [&](uint32_t v) { b.push_back(v & 255), b.push_back(v >> 8 & 255); };
    auto four = [&](int32_t w) {  // two's complement
      const uint32_t v = static_cast<uint32_t>(w);
      two(v & 65535), two(v >> 16);
    };
    for (size_t v : {size_t(8), size_t(1), size_t(states), a.size(), f.size(), size_t(start)}) two(v);
    for (auto &x : f) two(6), two(2), two(x.first), four(x.second);
    for (auto &x : a) two(12), two(3), two(x.source), two(x.input), two(x.output), two(x.target), four(x.weight);
    return b;
  }
};

// Mostly small, so that costs tie; now and then near what a table may hold, where sums of two can be refused (13). One in `below` is below
// zero; none where that is 0.
static int32_t weight(Rng &r, uint32_t below) {
  const int32_t size = r.chance(1, 60) ? r.range(400000, 600000) : r.chance(1, 3) ? r.below(1000) : r.below(4);
  return below > 0 && r.chance(1, below) ? -size : size;
}

// Weights below zero that change no cycle's sum: each state has an amount, which arcs to it lose and arcs from it gain. Where a weight
// would leave the range, all stay.
static void shift(Rng &r, Table &t) {
  const uint32_t most = r.chance(1, 8) ? 500000 : 20;
  std::vector<int32_t> amounts;
  for (uint32_t s = 0; s < t.states; ++s) amounts.push_back((int32_t)r.below(2 * most) - (int32_t)most);
  Table moved = t;
  bool within = true;
  auto change = [&](int32_t &w, int32_t by) { w += by, within &= -1000000 <= w && w <= 1000000; };
  for (auto &x : moved.finals) change(x.second, amounts[x.first]);
  for (auto &a : moved.arcs) change(a.weight, amounts[a.source] - amounts[a.target]);
  if (within) t = moved;
}

static uint32_t label(Rng &r, uint32_t labels, uint32_t empty_percent) {
  return r.below(100) < empty_percent ? 0 : 1 + r.below(labels);
}

// Some random arcs, some of them repeated; upward ones make no cycle.
static void more_arcs(Rng &r, Table &t, uint32_t count, uint32_t labels, uint32_t empty_percent, bool upward, uint32_t below) {
  for (uint32_t i = 0; i < count; ++i) {
    if (!t.arcs.empty() && r.chance(1, 7)) {
      t.arcs.push_back(t.arcs[r.below(t.arcs.size())]);
      continue;
    }
    uint32_t s = r.below(t.states), to = r.below(t.states);
    if (upward && s == to) continue;
    if (upward && s > to) std::swap(s, to);
    t.arcs.push_back({s, label(r, labels, empty_percent), label(r, labels, empty_percent), to, weight(r, below)});
  }
}

// Of at most 5 states, or 12, or 40.
static Table random_table(Rng &r, uint32_t below) {
  static const uint32_t empties[] = {0, 15, 30, 50, 80};
  const uint32_t size = r.below(20);
  Table t;
  t.states = r.range(1, size == 0 ? 40 : size < 6 ? 12 : 5);
  t.start = r.chance(2, 3) ? 0 : r.below(t.states);
  more_arcs(r, t, r.below((size < 6 ? 4 : 3) * t.states + 3), r.range(1, 3), empties[r.below(5)], r.chance(2, 3), below);
  const uint32_t rare = r.range(1, 4);
  for (uint32_t s = 0; s < t.states; ++s)
    if (r.chance(1, rare)) t.set_final(s, weight(r, below));
  return t;
}

// A walk from the start; where it ends.
static uint32_t walk(Rng &r, const Table &t, uint32_t most, Labels &reads, Labels &writes) {
  uint32_t s = t.start;
  for (uint32_t i = r.below(most + 1); i > 0; --i) {
    std::vector<Move> next;
    for (auto &a : t.arcs)
      if (a.source == s) next.push_back(a);
    if (next.empty()) break;
    const Move a = next[r.below(next.size())];
    if (a.input) reads.push_back(a.input);
    if (a.output) writes.push_back(a.output);
    s = a.target;
  }
  return s;
}

// A right transducer that reads some labels, with empty inputs and parallel arcs on the way.
static Table reader_of(Rng &r, const Labels &labels, uint32_t below) {
  Table t;
  t.states = r.chance(1, 3) ? r.range(1, 4) : labels.size() + r.range(1, 5);
  uint32_t s = 0;
  auto on = [&] { return r.chance(4, 5) ? (s + 1) % t.states : r.below(t.states); };
  for (size_t i = 0; i <= labels.size(); ++i) {
    if (r.chance(1, 3)) {
      const uint32_t to = on();
      t.arcs.push_back({s, 0, label(r, 3, 30), to, weight(r, below)});
      s = to;
    }
    if (i == labels.size()) break;
    const uint32_t to = on();
    for (uint32_t copies = r.chance(1, 3) ? r.range(2, 4) : 1; copies > 0; --copies)
      t.arcs.push_back({s, labels[i], label(r, 3, 30), to, weight(r, below)});
    s = to;
  }
  t.set_final(s, weight(r, below));
  if (r.chance(1, 2)) t.set_final(r.below(t.states), weight(r, below));
  return t;
}

static Case make_case(uint64_t seed, uint64_t number) {
  Rng r{seed * 0x2545F4914F6CDD1Du + number * 0x9E3779B97F4A7C15u};
  // Of three cases one has no weight below zero, one has some in cycles that sum to what they did, and one has any.
  const uint32_t signs = r.below(3), below = signs == 2 ? r.range(2, 6) : 0;
  Table left = random_table(r, below), right;
  Labels string, middle;
  const uint32_t end = walk(r, left, r.chance(1, 3) ? 30 : 8, string, middle);
  if (r.chance(3, 4)) {
    left.set_final(end, weight(r, below));
    right = reader_of(r, middle, below);
    more_arcs(r, right, r.below(5), 3, 30, r.chance(3, 4), below);
  } else {
    right = random_table(r, below);
  }
  if (signs == 1) shift(r, left), shift(r, right);
  if (string.size() > 64) string.resize(64);
  if (r.chance(1, 12)) string.push_back(r.range(1, 3));
  if (r.chance(1, 12)) string.clear();
  // Of three cases one may have arcs for any symbol on the right; they pass it on, or write what they did.
  if (r.chance(1, 3))
    for (auto &a : right.arcs)
      if (a.input && r.chance(1, 3)) a.input = ANY, a.output = r.chance(1, 2) ? ANY : a.output;
  // Likewise on the left, for the cascade.
  Table any = left;
  bool some = false;
  for (auto &a : any.arcs)
    if (a.input && r.chance(1, 3)) a.input = ANY, a.output = r.chance(1, 2) ? ANY : a.output, some = true;
  return {left.bytes(), right.bytes(), string, some ? any.bytes() : Bytes()};
}

#endif
