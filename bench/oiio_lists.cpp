// Answers a list of requests through OpenImageIO's ImageCache and TextureSystem (see lists.hpp and docs/BENCHMARK.md).
// A generation is always 1, because OpenImageIO has none; a file that cannot be read is `bad file 1`.
#include "lists.hpp"

#include <OpenImageIO/imagecache.h>
#include <OpenImageIO/texture.h>

#include <cmath>
#include <unordered_map>

using namespace OIIO;
using namespace lists;

namespace {

constexpr int64_t ONE = 65536;  // coordinates and LODs are in 1/65536

// A file that a worker has met: its handles, and the shorter side of its largest level.
struct Met {
  TextureSystem::TextureHandle* texture = nullptr;
  ImageCache::ImageHandle* image = nullptr;
  float side = 1;
  int channels = 0;
  bool is_good = false;
};

struct Caches {
  TextureSystem* textures;
  ImageCache* images;
  std::string folder;
};

// What is measured as a lookup alone: a function of its own, so that a profiler finds it.
__attribute__((noinline)) bool lookup_alone(TextureSystem* textures, TextureSystem::TextureHandle* file,
                                            TextureSystem::Perthread* thread, TextureOpt& how, float s,
                                            float t, float width, int channels, float* out) {
  return textures->texture(file, thread, how, s, t, width, 0, 0, width, channels, out);
}

class Worker {
 public:
  explicit Worker(const Caches& caches) : caches(caches) {}

  // Each round begins in a thread of its own.
  void begin() {
    by_texture = caches.textures->get_perthread_info();
    by_image = caches.images->get_perthread_info();
  }

  std::vector<Answer> answers;
  std::vector<uint16_t> store;

  Answer answer(const Request& request) {
    Answer found;
    if (request.kind == Kind::Sync) return found;
    if (request.kind == Kind::Pixels && uint64_t(request.d) * uint64_t(request.e) > MAX_REGION_TEXELS) {
      found.word = Answer::Word::TooLarge;
      return found;
    }
    const Met& file = met(request.name);
    if (!file.is_good) {
      bool is_there = access((caches.folder + "/" + std::string(request.name)).c_str(), F_OK) == 0;
      found.word = is_there ? Answer::Word::BadFile : Answer::Word::NoSuchFile;
      return found;
    }
    if (request.kind == Kind::Tex) return lookup(request, file);
    return request.kind == Kind::Info ? facts(file) : region(request, file);
  }

 private:
  const Met& met(std::string_view name) {
    auto place = files.find(name);
    if (place != files.end()) return place->second;
    Met file;
    ustring path(caches.folder + "/" + std::string(name));
    file.texture = caches.textures->get_texture_handle(path, by_texture);
    file.image = caches.images->get_image_handle(path, by_image);
    if (const ImageSpec* spec = caches.images->imagespec(file.image, by_image, 0, 0)) {
      file.side = float(std::min(spec->width, spec->height));
      file.channels = spec->nchannels;
      file.is_good = caches.textures->good(file.texture);
    } else {
      (void)caches.images->geterror();
    }
    return files.emplace(name, file).first->second;
  }

  // The width of a filter, in texels of level 0, with which OpenImageIO takes the levels of the LOD.
  static float filter_width(const Request& request) {
    if (request.filter == Filter::Trilinear) {
      int64_t level = std::min<int64_t>(request.c / ONE, 30);
      return std::ldexp(1.0f + float(request.c % ONE) / ONE, int(level));
    }
    return std::ldexp(0.999f, int(std::min<int64_t>((request.c + ONE / 2) / ONE, 30)));
  }

  static TextureOpt::Wrap wrap_of(Wrap wrap) {
    switch (wrap) {
      case Wrap::Clamp: return TextureOpt::WrapClamp;
      case Wrap::Periodic: return TextureOpt::WrapPeriodic;
      case Wrap::Mirror: return TextureOpt::WrapMirror;
      default: return TextureOpt::WrapBlack;
    }
  }

  Answer lookup(const Request& request, const Met& file) {
    bool is_trilinear = request.filter == Filter::Trilinear, is_closest = request.filter == Filter::Closest;
    how.swrap = wrap_of(request.swrap);
    how.twrap = wrap_of(request.twrap);
    how.mipmode = is_trilinear ? TextureOpt::MipModeTrilinear : TextureOpt::MipModeOneLevel;
    how.interpmode = is_closest ? TextureOpt::InterpClosest : TextureOpt::InterpBilinear;
    float out[8];
    Answer found;
    if (!lookup_alone(caches.textures, file.texture, by_texture, how, float(request.a) / ONE,
                      float(request.b) / ONE, filter_width(request) / file.side, request.channels, out)) {
      (void)caches.textures->geterror();
      found.word = Answer::Word::BadFile;
      return found;
    }
    found.word = Answer::Word::Tex;
    found.first = store.size(), found.values = size_t(request.channels);
    for (int i = 0; i < request.channels; ++i) {
      float value = out[i] * 65535.0f + 0.5f;
      store.push_back(value <= 0 ? 0 : value >= 65535 ? 65535 : uint16_t(value));
    }
    return found;
  }

  Answer region(const Request& request, const Met& file) {
    Answer found;
    int levels = 0;
    caches.images->get_image_info(file.image, by_image, 0, 0, u_levels, TypeInt, &levels);
    if (request.a >= levels) {
      found.word = Answer::Word::NoLevel;
      found.numbers[0] = levels;
      return found;
    }
    found.word = Answer::Word::Pixels;
    found.numbers[0] = file.channels;
    found.first = store.size();
    found.values = size_t(request.d) * size_t(request.e) * size_t(file.channels);
    store.resize(found.first + found.values);
    if (!caches.images->get_pixels(file.image, by_image, 0, int(request.a), int(request.b),
                                   int(request.b + request.d), int(request.c), int(request.c + request.e),
                                   0, 1, TypeUInt16, store.data() + found.first)) {
      (void)caches.images->geterror();
      store.resize(found.first);
      found.word = Answer::Word::BadFile;
    }
    return found;
  }

  Answer facts(const Met& file) {
    Answer found;
    const ImageSpec* spec = caches.images->imagespec(file.image, by_image, 0, 0, true);
    int levels = 0;
    caches.images->get_image_info(file.image, by_image, 0, 0, u_levels, TypeInt, &levels);
    found.word = Answer::Word::Info;
    int facts[6] = {spec->width, spec->height, spec->nchannels, int(8 * spec->format.basesize()), levels, levels};
    std::memcpy(found.numbers, facts, sizeof facts);
    return found;
  }

  Caches caches;
  TextureSystem::Perthread* by_texture = nullptr;
  ImageCache::Perthread* by_image = nullptr;
  TextureOpt how;
  ustring u_levels{"miplevels"};
  std::unordered_map<std::string_view, Met> files;
};

}  // namespace

int main(int count, char** words) {
  Options options = options_of(count, words);
  std::string list = standard_input();
  std::vector<Request> requests = requests_of(list);

  ImageCache* images = ImageCache::create(false);
  images->attribute("max_memory_MB", float(options.budget / 1048576));
  images->attribute("max_open_files", options.handles);
  images->attribute("autotile", options.autotile);
  images->attribute("automip", options.automip ? 1 : 0);
  TextureSystem* textures = TextureSystem::create(false, images);

  std::vector<Worker> workers(size_t(options.workers), Worker(Caches{textures, images, options.folder}));
  int status = answer_all(requests, workers);
  TextureSystem::destroy(textures, false);
  ImageCache::destroy(images);
  return status;
}
