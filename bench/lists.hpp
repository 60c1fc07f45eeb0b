// What the benchmark's programs share: they read a list of requests of texcache (docs/REQUESTS.md), deal it to threads
// as texcache does, and print lines of the same form. Each program has a Worker of its own, which answers requests.
//
//     PROGRAM FOLDER [--workers N] [--budget BYTES] [--handles N] [--autotile T] [--no-automip]
//
// Requests are `tex`, `pixels`, `info` and `sync`. Of the closing lines only `total` is printed. On standard error a
// program says what its calls took by its own clock: processor time and wall time in microseconds, from the first thread
// that starts on a round to the last that has its answers. Parsing and printing are not in these times.
#ifndef TEXCACHE_BENCH_LISTS_HPP
#define TEXCACHE_BENCH_LISTS_HPP

#include <algorithm>
#include <charconv>
#include <cstdint>
#include <cstdio>
#include <cstdlib>
#include <cstring>
#include <string>
#include <string_view>
#include <thread>
#include <time.h>
#include <unistd.h>
#include <vector>

namespace lists {

constexpr uint64_t MAX_ROUND_TEXELS = 4194304;  // docs/REQUESTS.md, "Rounds"
constexpr uint64_t MAX_REGION_TEXELS = 1048576;
constexpr size_t PAGE = 65536;

struct Options {
  std::string folder;
  int workers = 4;
  double budget = 268435456;
  int handles = 100;
  int autotile = 64;
  bool automip = true;
};

enum class Kind { Tex, Pixels, Info, Sync };
enum class Filter { Closest, Bilinear, Trilinear };
enum class Wrap { Black, Clamp, Periodic, Mirror };

struct Request {
  Kind kind = Kind::Sync;
  Filter filter = Filter::Closest;
  Wrap swrap = Wrap::Black, twrap = Wrap::Black;
  int channels = 0;
  int64_t a = 0, b = 0, c = 0, d = 0, e = 0;  // S T LOD, or LEVEL X Y W H
  std::string_view name;
};

// What a request is answered: a word, some numbers behind it, and values in the worker's store.
struct Answer {
  enum class Word { Tex, Pixels, Info, Sync, NoSuchFile, BadFile, NoLevel, TooLarge } word = Word::Sync;
  int numbers[6] = {0, 0, 0, 0, 0, 0};
  size_t first = 0, values = 0;
};

[[noreturn]] inline void stop(const std::string& why, int status) {
  std::fprintf(stderr, "benchmark: %s\n", why.c_str());
  std::exit(status);
}

inline Options options_of(int count, char** words) {
  Options found;
  for (int i = 1; i < count; ++i) {
    std::string word = words[i];
    if (word == "--no-automip") {
      found.automip = false;
    } else if (word.rfind("--", 0) == 0 && i + 1 < count) {
      double value = std::atof(words[++i]);
      if (word == "--workers") found.workers = int(value);
      else if (word == "--budget") found.budget = value;
      else if (word == "--handles") found.handles = int(value);
      else if (word == "--autotile") found.autotile = int(value);
      else stop("no such option: " + word, 2);
    } else if (found.folder.empty()) {
      found.folder = word;
    } else {
      stop("two folders", 2);
    }
  }
  if (found.folder.empty()) stop("no folder", 2);
  return found;
}

// ---- the list ----

class Line {
 public:
  explicit Line(std::string_view text) : rest(text) {}

  std::string_view word() {
    size_t end = rest.find(' ');
    std::string_view found = rest.substr(0, end);
    rest = end == std::string_view::npos ? std::string_view() : rest.substr(end + 1);
    return found;
  }
  int64_t number() {
    bool is_negative = !rest.empty() && rest[0] == '-';
    size_t at = is_negative;
    int64_t found = 0;
    for (; at < rest.size() && rest[at] >= '0' && rest[at] <= '9'; ++at) found = 10 * found + (rest[at] - '0');
    if (at == size_t(is_negative) || at > 11 || (at < rest.size() && rest[at] != ' ')) stop("bad list", 3);
    rest.remove_prefix(std::min(at + 1, rest.size()));
    return is_negative ? -found : found;
  }
  Wrap wrap() {
    std::string_view name = word();
    if (name == "black") return Wrap::Black;
    if (name == "clamp") return Wrap::Clamp;
    if (name == "periodic") return Wrap::Periodic;
    if (name == "mirror") return Wrap::Mirror;
    stop("bad list", 3);
  }
  Filter filter() {
    std::string_view name = word();
    if (name == "closest") return Filter::Closest;
    if (name == "bilinear") return Filter::Bilinear;
    if (name == "trilinear") return Filter::Trilinear;
    stop("bad list", 3);
  }
  std::string_view rest;
};

inline Request request_of(std::string_view text) {
  Line line(text);
  Request found;
  std::string_view word = line.word();
  if (word == "tex") {
    found.kind = Kind::Tex;
    found.a = line.number(), found.b = line.number(), found.c = line.number();
    found.swrap = line.wrap(), found.twrap = line.wrap(), found.filter = line.filter();
    found.channels = int(line.number());
  } else if (word == "pixels") {
    found.kind = Kind::Pixels;
    found.a = line.number(), found.b = line.number(), found.c = line.number();
    found.d = line.number(), found.e = line.number();
  } else if (word == "info") {
    found.kind = Kind::Info;
  } else if (word != "sync") {
    stop("bad list", 3);
  }
  found.name = line.rest;
  return found;
}

inline std::string standard_input() {
  std::string all;
  char some[PAGE];
  for (ssize_t got; (got = read(0, some, sizeof some)) > 0;) all.append(some, size_t(got));
  return all;
}

inline std::vector<Request> requests_of(const std::string& list) {
  std::vector<Request> found;
  found.reserve(size_t(std::count(list.begin(), list.end(), '\n')) + 1);
  std::string_view left = list;
  while (!left.empty()) {
    size_t end = left.find('\n');
    std::string_view line = left.substr(0, end);
    left = end == std::string_view::npos ? std::string_view() : left.substr(end + 1);
    if (!line.empty() && line[0] != '#') found.push_back(request_of(line));
  }
  return found;
}

// Where the round ends that begins at `first`.
inline size_t round_end(const std::vector<Request>& requests, size_t first) {
  uint64_t texels = 0;
  for (size_t i = first; i < requests.size(); ++i) {
    if (requests[i].kind == Kind::Sync) return i + 1;
    if (requests[i].kind != Kind::Pixels) continue;
    uint64_t more = uint64_t(requests[i].d) * uint64_t(requests[i].e);
    if (more > MAX_REGION_TEXELS) continue;
    if (texels + more > MAX_ROUND_TEXELS) return i;
    texels += more;
  }
  return requests.size();
}

// ---- the lines ----

class Page {
 public:
  void text(std::string_view some) {
    std::memcpy(place, some.data(), some.size());
    place += some.size();
  }
  void number(int64_t value) {
    if (place > end) put();
    *place++ = ' ';
    place = std::to_chars(place, place + 24, value).ptr;
  }
  void end_line() {
    *place++ = '\n';
    if (place > end) put();
  }
  void put() {
    for (const char* done = waiting; done < place;) {
      ssize_t some = write(1, done, size_t(place - done));
      if (some <= 0) stop("cannot write", 5);
      done += some;
    }
    place = waiting;
  }

 private:
  char waiting[PAGE + 256];  // a word and a number fit behind the end
  char* place = waiting;
  char* end = waiting + PAGE;
};

inline void write_line(Page& page, const Answer& answer, const std::vector<uint16_t>& store) {
  using Word = Answer::Word;
  switch (answer.word) {
    case Word::Sync: page.text("sync"); break;
    case Word::NoSuchFile: page.text("no such file"); break;
    case Word::BadFile: page.text("bad file 1"); break;
    case Word::TooLarge: page.text("region too large"); break;
    case Word::NoLevel: page.text("no level 1"), page.number(answer.numbers[0]); break;
    case Word::Tex: page.text("tex 1"); break;
    case Word::Pixels: page.text("pixels 1"), page.number(answer.numbers[0]); break;
    case Word::Info:
      page.text("info 1");
      for (int number : answer.numbers) page.number(number);
      break;
  }
  for (size_t i = 0; i < answer.values; ++i) page.number(store[answer.first + i]);
  page.end_line();
}

// ---- the answers ----

// What the calls take, round by round, in microseconds.
struct Clock {
  double cpu = 0, wall = 0;
  static double now(clockid_t clock) {
    timespec time;
    clock_gettime(clock, &time);
    return double(time.tv_sec) * 1e6 + double(time.tv_nsec) / 1e3;
  }
  void begin() { cpu -= now(CLOCK_PROCESS_CPUTIME_ID), wall -= now(CLOCK_MONOTONIC); }
  void end() { cpu += now(CLOCK_PROCESS_CPUTIME_ID), wall += now(CLOCK_MONOTONIC); }
};

// Answers each `step`th request of a round from `first` on. A Worker has begin(), answer(request), answers and store.
template <class Worker>
void answer_share(Worker& worker, const std::vector<Request>& requests, size_t first, size_t end, size_t step) {
  worker.begin();
  worker.answers.clear();
  worker.store.clear();
  worker.answers.reserve(first < end ? (end - first) / step + 1 : 0);
  for (size_t i = first; i < end; i += step) worker.answers.push_back(worker.answer(requests[i]));
}

// Answers a list round by round, and prints its lines; the exit status.
template <class Worker>
int answer_all(const std::vector<Request>& requests, std::vector<Worker>& workers) {
  Page page;
  Clock calls;
  size_t refused = 0;
  for (size_t first = 0; first < requests.size();) {
    size_t end = round_end(requests, first);
    std::vector<std::thread> threads;
    calls.begin();
    for (size_t i = 1; i < workers.size(); ++i)
      threads.emplace_back([&, i] { answer_share(workers[i], requests, first + i, end, workers.size()); });
    answer_share(workers[0], requests, first, end, workers.size());
    for (std::thread& thread : threads) thread.join();
    calls.end();
    for (size_t i = first; i < end; ++i) {
      const Worker& worker = workers[(i - first) % workers.size()];
      const Answer& answer = worker.answers[(i - first) / workers.size()];
      refused += answer.word > Answer::Word::Sync;
      write_line(page, answer, worker.store);
    }
    first = end;
  }
  page.text("total"), page.number(int64_t(requests.size()));
  page.text(" refused"), page.number(int64_t(refused)), page.end_line();
  page.put();
  std::fprintf(stderr, "calls %.0f %.0f\n", calls.cpu, calls.wall);
  return refused ? 1 : 0;
}

}  // namespace lists

#endif
