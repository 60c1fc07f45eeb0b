// Answers a list of requests through the C library, include/texcache.h (see lists.hpp and docs/BENCHMARK.md).
#include "lists.hpp"
#include "texcache.h"

#include <unordered_map>

using namespace lists;

namespace {

// A file that a worker has met: its number, or why it is refused.
struct Met {
  uint32_t number = 0;
  bool is_there = false;
};

class Worker {
 public:
  explicit Worker(texcache* cache) : cache(cache) {}

  void begin() {
    if (pass) return;
    if (int error = texcache_new_pass(cache, &pass)) stop(texcache_error_string(error), 4);
  }

  Answer answer(const Request& request) {
    Answer found;
    if (request.kind == Kind::Sync) return found;
    const Met& file = met(request.name);
    if (!file.is_there) {
      found.word = Answer::Word::NoSuchFile;
      return found;
    }
    if (request.kind == Kind::Tex) return lookup(request, file);
    return request.kind == Kind::Info ? facts(file) : region(request, file);
  }

  void end() { texcache_end(&pass); }

  std::vector<Answer> answers;
  std::vector<uint16_t> store;

 private:
  const Met& met(std::string_view name) {
    auto place = files.find(name);
    if (place != files.end()) return place->second;
    Met file;
    file.is_there = texcache_find(cache, std::string(name).c_str(), &file.number) == TEXCACHE_OK;
    return files.emplace(name, file).first->second;
  }

  static Answer refused(int error, const texcache_answer& said) {
    Answer found;
    switch (error) {
      case TEXCACHE_BAD_FILE: found.word = Answer::Word::BadFile; break;
      case TEXCACHE_REGION_TOO_LARGE: found.word = Answer::Word::TooLarge; break;
      case TEXCACHE_NO_LEVEL:
        found.word = Answer::Word::NoLevel;
        found.numbers[0] = int(said.detail);
        break;
      default: stop(texcache_error_string(error), 4);
    }
    return found;
  }

  Answer lookup(const Request& request, const Met& file) {
    texcache_lookup at = texcache_lookup_at(int32_t(request.a), int32_t(request.b), uint32_t(request.c),
                                            uint32_t(request.channels));
    at.swrap = uint32_t(request.swrap);
    at.twrap = uint32_t(request.twrap);
    at.filter = uint32_t(request.filter);
    Answer found;
    texcache_answer said;
    found.word = Answer::Word::Tex;
    found.first = store.size(), found.values = size_t(request.channels);
    store.resize(found.first + found.values);
    int error = texcache_texture_fixed(pass, file.number, &at, store.data() + found.first, found.values, &said);
    if (!error) return found;
    store.resize(found.first);
    return refused(error, said);
  }

  Answer region(const Request& request, const Met& file) {
    texcache_region at = {uint32_t(request.a), int32_t(request.b), int32_t(request.c), uint32_t(request.d),
                          uint32_t(request.e)};
    texcache_info info;
    texcache_answer said;
    Answer found;
    found.word = Answer::Word::Pixels;
    found.first = store.size();
    if (int error = texcache_get_info(pass, file.number, &info, &said)) return refused(error, said);
    found.values = size_t(request.d) * size_t(request.e) * info.channels;
    store.resize(found.first + found.values);
    found.numbers[0] = int(info.channels);
    int error = texcache_get_pixels(pass, file.number, &at, store.data() + found.first, found.values, &said);
    if (!error) return found;
    store.resize(found.first);
    return refused(error, said);
  }

  Answer facts(const Met& file) {
    texcache_info info;
    texcache_answer said;
    Answer found;
    if (int error = texcache_get_info(pass, file.number, &info, &said)) return refused(error, said);
    found.word = Answer::Word::Info;
    int facts[6] = {int(info.width), int(info.height), int(info.channels), int(info.depth), int(info.stored),
                    int(info.levels)};
    std::memcpy(found.numbers, facts, sizeof facts);
    return found;
  }

  texcache* cache;
  texcache_pass* pass = nullptr;
  std::unordered_map<std::string_view, Met> files;
};

}  // namespace

int main(int count, char** words) {
  Options options = options_of(count, words);
  std::string list = standard_input();
  std::vector<Request> requests = requests_of(list);

  texcache_options how = texcache_default_options();
  how.budget = uint64_t(options.budget);
  how.handles = uint32_t(options.handles);
  how.autotile = uint32_t(options.autotile);
  how.automip = options.automip;
  texcache* cache = nullptr;
  if (int error = texcache_open(&cache, options.folder.c_str(), &how)) stop(texcache_error_string(error), 4);

  std::vector<Worker> workers(size_t(options.workers), Worker(cache));
  int status = answer_all(requests, workers);
  for (Worker& worker : workers) worker.end();
  texcache_close(&cache);
  return status;
}
