// Compares the static library with OpenFst on random pairs of transducers and strings; tests/openfst/run builds and runs it.
//
//   compare CASES SEED PLANT FOLDER         cases 0 up; a failing one is written to FOLDER/case-K
//   compare one K SEED PLANT FOLDER         case K alone
//   compare folder PLANT FOLDER             left.tab, right.tab and code.lab of a folder
//
// Both get the same bytes. Compared in each case, OpenFst composing with its sequence filter and with weights as doubles, which are exact:
//   - the count of accepting paths of the applied string: 0 to 98, 99 for more, or infinitely many (14);
//   - its least cost, by ShortestDistance and by ShortestPath, or that nothing accepts (16). Where a cycle below zero lies on an
//     accepting path these two do not end: such cycles are looked for in OpenFst's result, and must be there exactly where 19 is given;
//   - from 1 to 98 paths: the cost and the output of every path, as two sorted lists;
//   - the states, arcs and finals of the lattice, and of the composition trimmed, each made by OpenFst from our composition;
//   - the same numbers of OpenFst's own composition, where they must agree. OpenFst gives a left state without empty outputs no second
//     mark, so that must be where the right side has no empty input or every left state has an empty output;
//   - count, least cost, paths and trimmed sizes of the cascade, OpenFst composing the string, the left transducer and the right one in this order; then
//     again with arcs for any symbol on the left, written out for the symbols of the string.
// Left out: pairs that end in 11, 12 or 13, since OpenFst has no such limits. Bytes that are no table (1 to 8), strings that are
// refused (9), short buffers (10), path order, origins and ties are not compared here: OpenFst has none of them.
// OpenFst's composition has no label for any symbol: it gets such arcs of the right table written out, one for each symbol that the left one
// writes and no arc of their state names. What is compared stays the same, since each of these is read in one way.
// PLANT is none, or a fault of OpenFst's side to show that differences are found: filter, weight, arcs, sign, any, named or left.
#include <fst/arcsort.h>
#include <fst/compose.h>
#include <fst/connect.h>
#include <fst/shortest-distance.h>
#include <fst/shortest-path.h>
#include <fst/topsort.h>
#include <fst/vector-fst.h>
#include <sys/stat.h>

#include <algorithm>
#include <cstdio>
#include <cstdlib>
#include <fstream>
#include <iterator>
#include <map>
#include <set>
#include <string>
#include <utility>
#include <vector>

#include "../../bindings/c/forthwn.h"
#include "pairs.h"

using Arc = fst::ArcTpl<fst::TropicalWeightTpl<double>>;
using Weight = Arc::Weight;
using Fst = fst::VectorFst<Arc>;
using Reading = std::pair<int64_t, std::vector<int>>;  // cost, output labels

static std::string plant = "none";
static std::map<std::string, long> tally;

// ---- OpenFst's side

static uint32_t u16_at(const Bytes &b, size_t i) { return b[i] | b[i + 1] << 8; }
static uint32_t u32_at(const Bytes &b, size_t i) { return u16_at(b, i) | u16_at(b, i + 2) << 16; }
static double weight_at(const Bytes &b, size_t i) { return plant == "sign" ? u32_at(b, i) : (double)(int32_t)u32_at(b, i); }

// A transducer whose bytes are known to be sound.
static Fst build(const Bytes &b) {
  Fst t;
  const uint32_t n = u16_at(b, 4), m = u16_at(b, 6), f = u16_at(b, 8), start = u16_at(b, 10);
  for (uint32_t i = 0; i < n; ++i) t.AddState();
  t.SetStart(start);
  size_t at = 12;
  for (uint32_t i = 0; i < f; ++i, at += 10) t.SetFinal(u16_at(b, at + 4), weight_at(b, at + 6) + (plant == "weight"));
  for (uint32_t i = 0; i < m; ++i, at += 16) {
    if (plant == "arcs" && i > 0 && std::equal(b.begin() + at, b.begin() + at + 16, b.begin() + at - 16)) continue;
    t.AddArc(u16_at(b, at + 4), Arc(u16_at(b, at + 6), u16_at(b, at + 8), weight_at(b, at + 12), u16_at(b, at + 10)));
  }
  return t;
}

static bool has_any(const Bytes &b) {
  for (size_t at = 12 + 10 * (size_t)u16_at(b, 8); at < b.size(); at += 16)
    if (u16_at(b, at + 6) == ANY) return true;
  return false;
}

// The right transducer with arcs for any symbol written out, for the symbols that the left one writes and no arc of their state names; all of them where a
// fault is planted.
static Fst written_out(const Fst &left, const Fst &right, bool faulty = plant == "named") {
  std::set<int> symbols;
  for (int s = 0; s < left.NumStates(); ++s)
    for (fst::ArcIterator<Fst> it(left, s); !it.Done(); it.Next())
      if (it.Value().olabel) symbols.insert(it.Value().olabel);
  Fst t(right);
  bool some = false;
  for (int s = 0; s < right.NumStates(); ++s) {
    t.DeleteArcs(s);
    std::set<int> named;
    for (fst::ArcIterator<Fst> it(right, s); !it.Done() && !faulty; it.Next()) named.insert(it.Value().ilabel);
    for (fst::ArcIterator<Fst> it(right, s); !it.Done(); it.Next()) {
      const Arc &a = it.Value();
      if (a.ilabel != ANY) {
        t.AddArc(s, a);
        continue;
      }
      some = true;
      for (int x : symbols)
        if (!named.count(x)) t.AddArc(s, Arc(x, a.olabel == ANY && plant != "any" ? x : a.olabel, a.weight, a.nextstate));
    }
  }
  tally["arcs for any symbol"] += some;
  return t;
}

// The linear acceptor of a string.
static Fst acceptor(const Labels &string) {
  Fst t;
  t.SetStart(t.AddState());
  for (uint16_t x : string) {
    const int s = t.AddState();
    t.AddArc(s - 1, Arc(x, x, 0, s));
  }
  t.SetFinal(t.NumStates() - 1, 0);
  return t;
}

// Composition wants one side sorted, which no table of ours has to be.
static Fst compose(const Fst &left, const Fst &right) {
  Fst sorted(right), out;
  fst::ArcSort(&sorted, fst::ILabelCompare<Arc>());
  const auto filter = plant == "filter" ? fst::TRIVIAL_FILTER : fst::SEQUENCE_FILTER;
  fst::Compose(left, sorted, &out, fst::ComposeOptions(false, filter));
  return out;
}

static Fst connected(Fst t) {
  fst::Connect(&t);
  return t;
}

constexpr int ENDLESS = -1;

// Accepting paths of a connected transducer, held at 99.
static int count(const Fst &t) {
  if (t.Start() < 0) return 0;
  std::vector<int> order;
  bool acyclic;
  fst::TopOrderVisitor<Arc> v(&order, &acyclic);
  fst::DfsVisit(t, &v);
  if (!acyclic) return ENDLESS;
  std::vector<int> by(t.NumStates()), c(t.NumStates());
  for (int s = 0; s < t.NumStates(); ++s) by[order[s]] = s;
  for (int i = t.NumStates() - 1; i >= 0; --i) {
    int x = t.Final(by[i]) != Weight::Zero();
    for (fst::ArcIterator<Fst> it(t, by[i]); !it.Done(); it.Next()) x = std::min(99, x + c[it.Value().nextstate]);
    c[by[i]] = x;
  }
  return c[t.Start()];
}

// Every accepting path from a state of a connected transducer without cycles.
static void paths(const Fst &t, int s, Reading &so_far, std::vector<Reading> &found) {
  if (t.Final(s) != Weight::Zero()) found.push_back({so_far.first + (int64_t)t.Final(s).Value(), so_far.second});
  for (fst::ArcIterator<Fst> it(t, s); !it.Done(); it.Next()) {
    const Arc &a = it.Value();
    so_far.first += (int64_t)a.weight.Value();
    if (a.olabel) so_far.second.push_back(a.olabel);
    paths(t, a.nextstate, so_far, found);
    if (a.olabel) so_far.second.pop_back();
    so_far.first -= (int64_t)a.weight.Value();
  }
}

// No cost: nothing accepts, or a cycle below zero leaves none the least. Another refusal is none of ours.
constexpr double NONE = 1e18, NO_LEAST = -1e18, REFUSED = 2e18;

// Whether a connected transducer has a cycle that sums below zero: what each state can save is still growing after as many rounds as states.
static bool cycle_below_zero(const Fst &t) {
  std::vector<double> saved(t.NumStates(), 0);
  for (int round = 0; round < t.NumStates(); ++round) {
    bool changed = false;
    for (int s = 0; s < t.NumStates(); ++s)
      for (fst::ArcIterator<Fst> it(t, s); !it.Done(); it.Next()) {
        const double sum = it.Value().weight.Value() + saved[it.Value().nextstate];
        if (sum < saved[s]) saved[s] = sum, changed = true;
      }
    if (!changed) return false;
  }
  return t.NumStates() > 0;
}

// Whether a cycle below zero leads to a final state, in a transducer that need not be connected: costs from the final states back still fall after as many
// rounds as states.
static bool cycle_before_final(const Fst &t) {
  std::vector<double> cost(t.NumStates());
  for (int s = 0; s < t.NumStates(); ++s) cost[s] = t.Final(s) == Weight::Zero() ? NONE : t.Final(s).Value();
  for (int round = 0; round < t.NumStates(); ++round) {
    bool changed = false;
    for (int s = 0; s < t.NumStates(); ++s)
      for (fst::ArcIterator<Fst> it(t, s); !it.Done(); it.Next()) {
        if (cost[it.Value().nextstate] == NONE) continue;
        const double sum = it.Value().weight.Value() + cost[it.Value().nextstate];
        if (sum < cost[s]) cost[s] = sum, changed = true;
      }
    if (!changed) return false;
  }
  return t.NumStates() > 0;
}

// The cost of the one path that ShortestPath leaves.
static double cost_of_path(const Fst &t) {
  Fst path;
  fst::ShortestPath(t, &path);
  if (path.Start() < 0) return NONE;
  double cost = 0;
  int s = path.Start();
  for (; path.NumArcs(s) > 0; s = fst::ArcIterator<Fst>(path, s).Value().nextstate) cost += fst::ArcIterator<Fst>(path, s).Value().weight.Value();
  return cost + path.Final(s).Value();
}

static double least_cost(const Fst &t) {
  const Weight w = fst::ShortestDistance(t);
  return w == Weight::Zero() ? NONE : w.Value();
}

// ---- ours

static Bytes table(FORTHWN_TABLE_LEN), lattice(FORTHWN_TABLE_LEN), trimmed(FORTHWN_TABLE_LEN);
static std::vector<uint16_t> origins(FORTHWN_ORIGINS_LEN), lattice_origins(FORTHWN_LATTICE_ORIGINS_LEN);
static std::vector<uint16_t> path_arcs(FORTHWN_PATH_LEN), path_labels(FORTHWN_PATH_LEN);
static std::vector<uint32_t> states(FORTHWN_STATES_LEN);

static Bytes front(const Bytes &b, uint32_t len) { return Bytes(b.begin(), b.begin() + len); }

static int our_count(const Bytes &b) {
  uint32_t n = 0;
  const uint32_t refused = forthwn_count(b.data(), b.size(), &n);
  return refused == FORTHWN_ENDLESS ? ENDLESS : refused ? -100 - (int)refused : (int)n;
}

static double our_least(const Bytes &b) {
  forthwn_path told;
  const uint32_t refused =
      forthwn_shortest(b.data(), b.size(), path_arcs.data(), path_arcs.size(), path_labels.data(), path_labels.size(), &told);
  if (refused == FORTHWN_NO_PATH) return NONE;
  if (refused == FORTHWN_NEGATIVE_CYCLE) return NO_LEAST;
  return refused ? REFUSED : (double)told.cost;
}

static Reading our_path(const Bytes &b, uint32_t k) {
  forthwn_path told;
  forthwn_nth(b.data(), b.size(), k, path_arcs.data(), path_arcs.size(), path_labels.data(), path_labels.size(), &told);
  return {told.cost, std::vector<int>(path_labels.begin(), path_labels.begin() + static_cast<std::ptrdiff_t>(told.labels))};
}

// ---- comparing

static std::vector<forthwn_cost> cells(FORTHWN_CELLS_LEN);

static std::string kind_of(int n) {
  return n == ENDLESS ? "count endless" : n == 0 ? "count 0" : n == 1 ? "count 1" : n < 99 ? "count 2..98" : "count 99+";
}

static std::string differ(const char *what, double ours, double theirs) {
  char line[200];
  std::snprintf(line, sizeof line, "%s: ours %.0f, OpenFst's %.0f", what, ours, theirs);
  return line;
}

// States, arcs and finals of our trimmed bytes and of a connected transducer, which has no state where nothing accepts.
static std::string sizes(const char *what, const Bytes &b, const Fst &t) {
  long arcs = 0, finals = 0;
  for (int s = 0; s < t.NumStates(); ++s) arcs += t.NumArcs(s), finals += t.Final(s) != Weight::Zero();
  const std::string name(what);
  const long alone = t.NumStates() == 0;
  if (u16_at(b, 4) != t.NumStates() + alone) return differ((name + ", states").c_str(), u16_at(b, 4), t.NumStates() + alone);
  if (u16_at(b, 6) != arcs) return differ((name + ", arcs").c_str(), u16_at(b, 6), arcs);
  if (u16_at(b, 8) != finals) return differ((name + ", finals").c_str(), u16_at(b, 8), finals);
  return "";
}

// Whether OpenFst's composition must have our states, once both are trimmed.
static bool same_states(const Fst &left, const Fst &right) {
  bool no_empty_input = true, empty_outputs = true;
  for (int s = 0; s < right.NumStates(); ++s) no_empty_input &= right.NumInputEpsilons(s) == 0;
  for (int s = 0; s < left.NumStates(); ++s) empty_outputs &= left.NumOutputEpsilons(s) > 0;
  return no_empty_input || empty_outputs;
}

// Costs to come of a table, each state's, beside OpenFst's reverse distances; 19 exactly where these would not end.
static std::string distances(const Bytes &b) {
  const Fst t = build(b);
  const uint32_t refused = forthwn_distance(b.data(), b.size(), cells.data(), cells.size());
  const bool falls = cycle_before_final(t);
  if ((refused == FORTHWN_NEGATIVE_CYCLE) != falls) return differ("costs to come, a cycle below zero", refused, falls);
  ++tally[falls ? "costs to come refused" : "costs to come compared"];
  if (falls) return "";
  if (refused) return differ("costs to come refused", refused, 0);
  std::vector<Weight> theirs;
  fst::ShortestDistance(t, &theirs, true);
  for (size_t s = 0; s < cells.size(); ++s) {
    const bool none = s >= theirs.size() || theirs[s] == Weight::Zero();
    const double cost = none ? (double)FORTHWN_NO_COST : theirs[s].Value();
    if ((double)cells[s] != cost) return differ("a cost to come", (double)cells[s], cost);
  }
  return "";
}

static std::string left_out(uint32_t refused) {
  ++tally["left out, " + std::to_string(refused)];
  return "";
}

// Count, least cost and, where there are few, all paths, beside those of OpenFst's connected result.
static std::string told(const std::string &where, const Bytes &b, const Fst &result) {
  const int n = our_count(b);
  ++tally[where + kind_of(n)];
  if (n != count(result)) return differ((where + "count").c_str(), n, count(result));
  const double least = our_least(b);
  const bool endless_saving = cycle_below_zero(result);
  if ((least == NO_LEAST) != endless_saving) return differ((where + "a cycle below zero").c_str(), least == NO_LEAST, endless_saving);
  ++tally[where + (endless_saving ? "a cycle below zero" : least == NONE ? "no cost" : least < 0 ? "least cost below 0" : "least cost from 0")];
  if (!endless_saving && least != least_cost(result)) return differ((where + "least cost").c_str(), least, least_cost(result));
  if (!endless_saving && least != cost_of_path(result)) return differ((where + "cost of the shortest path").c_str(), least, cost_of_path(result));
  if (n >= 1 && n <= 98) {
    std::vector<Reading> ours, theirs;
    Reading none;
    for (int k = 0; k < n; ++k) ours.push_back(our_path(b, k));
    paths(result, result.Start(), none, theirs);
    std::sort(ours.begin(), ours.end());
    std::sort(theirs.begin(), theirs.end());
    for (int k = 0; k < n; ++k)
      if (ours[k] != theirs[k]) return differ((where + "costs and outputs of the paths, sorted: first difference at").c_str(), k, k);
    ++tally[where + "every path compared"];
  }
  return "";
}

// The cascade beside OpenFst's composition of the string, the left transducer and the right one, in this order.
static std::string cascaded(const Bytes &left_bytes, const Case &c) {
  const std::string where = "string first, ";
  uint32_t len = 0;
  uint32_t refused = forthwn_cascade(left_bytes.data(), left_bytes.size(), c.right.data(), c.right.size(), c.string.data(), c.string.size(),
                                     table.data(), table.size(), origins.data(), origins.size(), states.data(), states.size(), &len);
  uint32_t n = 0;
  const uint32_t one_call = forthwn_cascade_readings(left_bytes.data(), left_bytes.size(), c.right.data(), c.right.size(), c.string.data(),
                                                     c.string.size(), &n);
  if (refused >= 11 && refused <= 13) {
    ++tally[where + "left out, " + std::to_string(refused)];
    return one_call == refused ? "" : differ("string first, the refusal of the one call", one_call, refused);
  }
  if (refused) return differ("cascade refuses", refused, 0);
  const Bytes made = front(table, len);
  if ((one_call == FORTHWN_ENDLESS ? ENDLESS : (int)n) != our_count(made)) return differ("string first, the one call", n, our_count(made));
  const Fst string = acceptor(c.string), left = written_out(string, build(left_bytes), plant == "left");
  const Fst lattice_of = connected(compose(string, left)), right = written_out(lattice_of, build(c.right));
  const Fst composed = connected(compose(lattice_of, right));
  std::string said = told(where, made, composed);
  if (!said.empty() || !same_states(lattice_of, right)) return said;
  refused = forthwn_trim(made.data(), made.size(), trimmed.data(), trimmed.size(), lattice_origins.data(), lattice_origins.size(), &len);
  if (refused) return differ("string first, trim refuses", refused, 0);
  ++tally[where + "states compared"];
  return sizes("string first, OpenFst's composition", front(trimmed, len), composed);
}

// The first chain: composed, then applied.
static std::string chained(const Case &c) {
  uint32_t len = 0;
  uint32_t refused = forthwn_compose(c.left.data(), c.left.size(), c.right.data(), c.right.size(), table.data(), table.size(),
                                     origins.data(), origins.size(), states.data(), states.size(), &len);
  if (refused >= 11 && refused <= 13) return left_out(refused);
  if (refused) return differ("compose refuses", refused, 0);
  const Bytes joined = front(table, len);
  refused = forthwn_apply(c.string.data(), c.string.size(), joined.data(), joined.size(), lattice.data(), lattice.size(),
                          lattice_origins.data(), lattice_origins.size(), states.data(), states.size(), &len);
  if (refused == 11 || refused == 12) return left_out(refused);
  if (refused) return differ("apply refuses", refused, 0);
  const Bytes applied = front(lattice, len);
  refused = forthwn_trim(joined.data(), joined.size(), trimmed.data(), trimmed.size(), lattice_origins.data(), lattice_origins.size(), &len);
  if (refused) return differ("trim refuses", refused, 0);
  const Bytes small = front(trimmed, len);

  const Fst left = build(c.left), right = written_out(left, build(c.right)), string = acceptor(c.string);
  const Fst composed = compose(left, right), result = connected(compose(string, composed));
  const std::string first = told("", applied, result);
  if (!first.empty()) return first;
  for (const Bytes &b : {c.left, c.right, joined, applied}) {
    const std::string far = distances(b);
    if (!far.empty()) return far;
  }
  const Fst again = build(joined);
  std::string said = sizes("lattice", applied, connected(compose(string, again)));
  if (said.empty()) said = sizes("trimmed composition", small, connected(again));
  if (said.empty() && same_states(left, right)) {
    ++tally["states of the composition compared"];
    said = sizes("OpenFst's composition", small, connected(composed));
  }
  return said;
}

// What differs first; empty where nothing does. The cascade is compared with the left transducer as it is, and with one that has arcs for any symbol.
static std::string compared(const Case &c) {
  std::string said = has_any(c.left) ? "" : chained(c);
  if (said.empty()) said = cascaded(c.left, c);
  if (said.empty() && !c.any_left.empty()) said = cascaded(c.any_left, c);
  return said;
}

static void save(const std::string &folder, const Case &c) {
  mkdir(folder.c_str(), 0777);
  auto put = [&](const char *name, const void *p, size_t n) {
    std::ofstream(folder + "/" + name, std::ios::binary).write((const char *)p, n);
  };
  put("left.tab", c.left.data(), c.left.size());
  put("left-any.tab", c.any_left.data(), c.any_left.size());
  put("right.tab", c.right.data(), c.right.size());
  put("code.lab", c.string.data(), 2 * c.string.size());
}

static Bytes slurp(const std::string &path) {
  std::ifstream file(path, std::ios::binary);
  return Bytes(std::istreambuf_iterator<char>(file), {});
}

static int one_folder(const std::string &folder) {
  Case c{slurp(folder + "/left.tab"), slurp(folder + "/right.tab"), {}, {}};
  const Bytes code = slurp(folder + "/code.lab");
  for (size_t i = 0; i + 1 < code.size(); i += 2) c.string.push_back(u16_at(code, i));
  const std::string said = compared(c);
  for (const auto &x : tally) std::printf("%s\n", x.first.c_str());
  std::printf("%s\n", said.empty() ? "agrees" : said.c_str());
  return !said.empty();
}

int main(int argc, char **argv) {
  const std::string first = argc > 1 ? argv[1] : "";
  if (first == "folder" && argc == 4) return plant = argv[2], one_folder(argv[3]);
  const bool one = first == "one";
  if (argc != 5 + one) return std::fprintf(stderr, "usage: tests/openfst/run says how this is called\n"), 2;
  const long number = std::atol(argv[1 + one]);
  const uint64_t seed = std::strtoull(argv[2 + one], nullptr, 10);
  plant = argv[3 + one];
  const std::string folder = argv[4 + one];
  long wrong = 0;
  for (long k = one ? number : 0; k < number + one; ++k) {
    const Case c = make_case(seed, k);
    const std::string said = compared(c);
    if (said.empty()) continue;
    if (++wrong > 3) continue;
    const std::string kept = folder + "/case-" + std::to_string(k);
    save(kept, c);
    const std::string run = "tests/openfst/run" + (plant == "none" ? "" : " --plant " + plant);
    std::printf("case %ld differs: %s\n  reproduce: %s --seed %llu --case %ld, or %s %s\n", k, said.c_str(), run.c_str(),
                (unsigned long long)seed, k, run.c_str(), kept.c_str());
  }
  for (const auto &x : tally) std::printf("  %-36s %ld\n", x.first.c_str(), x.second);
  std::printf("%ld cases, %ld differ\n", one ? 1 : number, wrong);
  return wrong > 0;
}
