// The OpenFst yardstick: the same bytes as VectorFst<StdArc>. One round, a line `WORKLOAD openfst-CALL NANOSECONDS` for each.
// OpenFst answers no refusals, gives no origins and clears no buffers; our figures include all three.
#include "openfst.h"

#include <chrono>

// The median of samples of at least 20 microseconds each, as reader.rs takes it.
template <class F>
static double median_ns(F f) {
  using clock = std::chrono::steady_clock;
  auto ns = [](clock::duration d) { return std::chrono::duration<double, std::nano>(d).count(); };
  auto t0 = clock::now();
  int n = 0;
  while (ns(clock::now() - t0) < 5e6) f(), ++n;
  const double each = ns(clock::now() - t0) / n;
  const int batch = std::max(1, (int)(20000 / each));
  const int samples = each > 200000 ? 51 : 301;
  std::vector<double> v;
  for (int i = 0; i < samples; ++i) {
    auto a = clock::now();
    for (int k = 0; k < batch; ++k) f();
    v.push_back(ns(clock::now() - a) / batch);
  }
  std::sort(v.begin(), v.end());
  return v[v.size() / 2];
}

static long sink = 0;

static StdVectorFst sorted_by_input(const StdVectorFst &t) {
  StdVectorFst out(t);
  fst::ArcSort(&out, fst::ILabelCompare<StdArc>());
  return out;
}

// The string's acceptor composed with the left transducer, connected, and composed with the right one, both sorted.
static StdVectorFst string_first(const StdVectorFst &code, const StdVectorFst &left, const StdVectorFst &right) {
  const fst::ComposeOptions options(false, fst::SEQUENCE_FILTER);
  StdVectorFst lattice, out;
  fst::Compose(code, left, &lattice, options);
  fst::Connect(&lattice);
  fst::Compose(lattice, right, &out, options);
  return out;
}

// For a string at a time, with both transducers sorted beforehand, or sorting them too; and counting the paths.
template <class Say>
static void cascades(const std::vector<StdVectorFst> &strings, const StdVectorFst &left, const StdVectorFst &right, Say say) {
  const StdVectorFst l = sorted_by_input(left), r = sorted_by_input(right);
  auto each = [&](auto one) {
    return median_ns([&] {
             for (const StdVectorFst &code : strings) one(code);
           }) / strings.size();
  };
  say("cascade", each([&](const StdVectorFst &code) { sink += string_first(code, l, r).NumStates(); }));
  say("cascade-sort", each([&](const StdVectorFst &code) { sink += string_first(code, sorted_by_input(left), sorted_by_input(right)).NumStates(); }));
  say("cascade-count", each([&](const StdVectorFst &code) {
        StdVectorFst out = string_first(code, l, r);
        fst::Connect(&out);
        sink += count(out);
      }));
}

static void round(const std::string &folder, const char *name) {
  const std::string left = slurp(folder + "/left.tab"), right = slurp(folder + "/right.tab");
  auto say = [&](const char *call, double ns) { std::printf("%s openfst-%s %.1f\n", name, call, ns); };
  say("build", median_ns([&] { sink += build(left).NumStates() + build(right).NumStates(); }));
  // The sequence filter is paper 01's; composition wants one side sorted, which no table of ours has to be.
  const StdVectorFst l = build(left), r = build(right);
  say("compose", median_ns([&] {
    StdVectorFst sorted(r), out;
    fst::ArcSort(&sorted, fst::ILabelCompare<StdArc>());
    fst::Compose(l, sorted, &out, fst::ComposeOptions(false, fst::SEQUENCE_FILTER));
    sink += out.NumStates();
  }));
  // A string is applied by composing its acceptor with the transducer, sorted beforehand, and connecting.
  const StdVectorFst code = acceptor(slurp(folder + "/code.lab")), joined = build(slurp(folder + "/joined.tab"));
  StdVectorFst sorted(joined);
  fst::ArcSort(&sorted, fst::ILabelCompare<StdArc>());
  say("apply", median_ns([&] {
    StdVectorFst out;
    fst::Compose(code, sorted, &out, fst::ComposeOptions(false, fst::SEQUENCE_FILTER));
    fst::Connect(&out);
    sink += out.NumStates();
  }));
  say("connect", median_ns([&] {
    StdVectorFst out(joined);
    fst::Connect(&out);
    sink += out.NumStates();
  }));
  const StdVectorFst lattice = build(slurp(folder + "/lattice.tab"));
  say("shortest", median_ns([&] {
    StdVectorFst out;
    fst::ShortestPath(lattice, &out);
    sink += out.NumStates();
  }));
  say("count", median_ns([&] { sink += count(lattice); }));
  cascades({code}, l, r, say);
  // Costs to come: reverse distances, of both tables and of their composition; with weights of both signs not, since where a cycle is below zero they do
  // not end.
  if (name[2] != 0) return;
  auto distances = [&](const StdVectorFst &t) {
    std::vector<StdArc::Weight> out;
    fst::ShortestDistance(t, &out, true);
    sink += out.size();
  };
  say("distance", median_ns([&] { distances(l), distances(r); }));
  say("distance-joined", median_ns([&] { distances(joined); }));
}

// A catalogue of 280 codes behind a correction table for one slip, for each code one that was typed with a slip: the time for one of them.
static void round_of_slips(const std::string &folder) {
  const std::string typed = slurp(folder + "/typed.lab");
  std::vector<StdVectorFst> strings;
  for (size_t from = 0, i = 0; i + 1 < typed.size(); i += 2)
    if (u16_at(typed, i) == 0) strings.push_back(acceptor(typed.substr(from, i - from))), from = i + 2;
  cascades(strings, build(slurp(folder + "/left.tab")), build(slurp(folder + "/right.tab")),
           [](const char *call, double ns) { std::printf("slips openfst-%s %.1f\n", call, ns); });
}

int main(int argc, char **argv) {
  if (argc < 2) return std::fprintf(stderr, "usage: openfst FOLDER_OF_WORKLOADS NAME..\n"), 2;
  for (int i = 2; i < argc; ++i) round(std::string(argv[1]) + "/" + argv[i], argv[i]);
  round_of_slips(std::string(argv[1]) + "/slips");
  return sink == 42;
}
