// Times OpenFst for bench/growth: for each line `CALL NAME FILE..` of the standard input a line `CALL NAME NANOSECONDS ANSWER`.
#include "openfst.h"

#include <chrono>
#include <functional>
#include <iostream>
#include <sstream>

// The least of batches of at least 20 microseconds within 30 milliseconds, as growth.rs takes it.
static double least_ns(const std::function<void()> &f) {
  using clock = std::chrono::steady_clock;
  auto ns = [](clock::duration d) { return std::chrono::duration<double, std::nano>(d).count(); };
  const auto first = clock::now();
  f();
  const int batch = std::max(1, (int)(20000 / std::max(1.0, ns(clock::now() - first))));
  double least = 1e18;
  const auto begun = clock::now();
  for (int i = 0; i < 5 || ns(clock::now() - begun) < 3e7; ++i) {
    const auto a = clock::now();
    for (int k = 0; k < batch; ++k) f();
    least = std::min(least, ns(clock::now() - a) / batch);
  }
  return least;
}

static StdVectorFst composed(const StdVectorFst &left, const StdVectorFst &sorted) {
  StdVectorFst out;
  fst::Compose(left, sorted, &out, fst::ComposeOptions(false, fst::SEQUENCE_FILTER));
  return out;
}

static StdVectorFst sorted_of(StdVectorFst t) {
  fst::ArcSort(&t, fst::ILabelCompare<StdArc>());
  return t;
}

// The cost of a transducer that is one path.
static long cost(const StdVectorFst &path) {
  float sum = 0;
  int s = path.Start();
  for (; path.NumArcs(s) > 0; s = fst::ArcIterator<StdVectorFst>(path, s).Value().nextstate)
    sum += fst::ArcIterator<StdVectorFst>(path, s).Value().weight.Value();
  return (long)(sum + path.Final(s).Value());
}

// The cost of the last path that can be asked for, in the order of arc numbers, where a path comes before its extensions: the counts say where it goes.
static long last_cost(const StdVectorFst &t) {
  std::vector<int> counts;
  int k = count(t, &counts) - 1, s = t.Start();
  float sum = 0;
  for (;;) {
    const bool final = t.Final(s) != StdArc::Weight::Zero();
    if (final && k-- == 0) return (long)(sum + t.Final(s).Value());
    for (fst::ArcIterator<StdVectorFst> it(t, s); !it.Done(); it.Next()) {
      const int beyond = counts[it.Value().nextstate];
      if (k < beyond) {
        sum += it.Value().weight.Value(), s = it.Value().nextstate;
        break;
      }
      k -= beyond;
    }
  }
}

// The call as a function that tells the number it comes to: states, a count (14 where infinitely many), a cost.
static std::function<long()> call_of(const std::string &call, const std::vector<std::string> &bytes) {
  const StdVectorFst t = build(bytes[0]);
  if (call == "refusal") return [=] { return (long)build(bytes[0]).NumStates(); };
  if (call == "compose") {
    const StdVectorFst right = build(bytes[1]);
    return [=] { return (long)composed(t, sorted_of(right)).NumStates(); };
  }
  if (call == "apply") {
    const StdVectorFst string = acceptor(""), right = sorted_of(t);
    return [=] {
      StdVectorFst out = composed(string, right);
      fst::Connect(&out);
      return (long)out.NumStates();
    };
  }
  if (call == "trim") return [=] {
    StdVectorFst out(t);
    fst::Connect(&out);
    return (long)out.NumStates();
  };
  if (call == "count") return [=] {
    const int n = count(t);
    return n < 0 ? 14L : (long)n;
  };
  if (call == "shortest") return [=] {
    StdVectorFst path;
    fst::ShortestPath(t, &path);
    return cost(path);
  };
  if (call == "distance") return [=] {
    std::vector<StdArc::Weight> out;
    fst::ShortestDistance(t, &out, true);
    return (long)out[t.Start()].Value();
  };
  if (call == "nth") return [=] { return last_cost(t); };
  std::fprintf(stderr, "no call %s\n", call.c_str()), std::exit(2);
}

int main() {
  for (std::string line; std::getline(std::cin, line);) {
    std::istringstream words(line);
    std::string call, name;
    std::vector<std::string> bytes;
    words >> call >> name;
    for (std::string file; words >> file;) bytes.push_back(slurp(file));
    const auto f = call_of(call, bytes);
    const long answer = f();
    std::printf("%s %s %.1f %ld\n", call.c_str(), name.c_str(), least_ns([&] { volatile long x = f(); (void)x; }), answer);
  }
}
