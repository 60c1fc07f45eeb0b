// texcache.hpp: textures of folders of TIFF files, for programs in C++14 or later. Header only, over texcache.h.
//
//     texcache_cpp::Cache cache("textures");
//     texcache_cpp::Pass pass = cache.this_thread();     // the calling thread's
//     float rgb[3];
//     pass.texture(cache.find("wall.tif"), texcache_default_texture_options(3), 0.5, 0.5, rgb);
//
// A call that fails throws a Refused, whose what() is the sentence of texcache_last_error. Give a call a std::error_code
// as its last argument, and it sets that instead. What belongs to the latest call of a Pass is in its answer().
//
// Lookups write to memory of yours and allocate nothing, except for tiles that the cache lacks. What a caller must see
// to is in texcache.h.
#ifndef TEXCACHE_HPP
#define TEXCACHE_HPP

#include "texcache.h"

#include <cstddef>
#include <cstdint>
#include <initializer_list>
#include <memory>
#include <stdexcept>
#include <string>
#include <system_error>
#include <type_traits>
#include <utility>
#include <vector>

namespace texcache_cpp {

// The category of error codes, whose values are those of enum texcache_status.
class Category : public std::error_category {
public:
    const char *name() const noexcept override { return "texcache"; }
    std::string message(int status) const override { return texcache_error_string(status); }
};

inline const std::error_category &category()
{
    static const Category category;
    return category;
}

// A refused call.
class Refused : public std::runtime_error {
public:
    explicit Refused(int number, const texcache_answer &said = texcache_answer(), const char *text = texcache_last_error())
        : std::runtime_error(text), status(number), answer(said) {}

    std::error_code code() const noexcept { return std::error_code(status, category()); }

    int status;              // enum texcache_status
    texcache_answer answer;  // the generation, the fault and what else belongs to it
};

// What becomes of an error: it is thrown, or put into an error code of the caller's.
class Errors {
public:
    Errors() noexcept : code_(nullptr) {}
    Errors(std::error_code &code) noexcept : code_(&code) {}

    // Returns whether the call succeeded.
    bool take(int status, const texcache_answer &answer = texcache_answer()) const
    {
        if (code_) code_->assign(status, category());
        else if (status != TEXCACHE_OK) throw Refused(status, answer);
        return status == TEXCACHE_OK;
    }

    // Refuses arguments that no call of C sees.
    void refuse(const char *text) const
    {
        if (!code_) throw Refused(TEXCACHE_BAD_ARGUMENT, texcache_answer(), text);
        code_->assign(TEXCACHE_BAD_ARGUMENT, category());
    }

private:
    std::error_code *code_;
};

// Elements side by side that belong to the caller: of a pointer and a count, of an array, or of what has data() and
// size(), as std::vector, std::array and std::span.
template <class T> class Span {
public:
    Span(T *data, std::size_t size) noexcept : data_(data), size_(size) {}
    template <std::size_t N> Span(T (&array)[N]) noexcept : data_(array), size_(N) {}
    template <class From, class = typename std::enable_if<std::is_convertible<
        decltype(std::declval<From &>().data()), T *>::value>::type>
    Span(From &&from) noexcept : data_(from.data()), size_(from.size()) {}

    T *data() const noexcept { return data_; }
    std::size_t size() const noexcept { return size_; }

private:
    T *data_;
    std::size_t size_;
};

class Pass;

// A cache of the files of a folder and of a search path. It is closed when the Cache and each Pass that you made of it are gone.
class Cache {
public:
    explicit Cache(const std::string &folder, const texcache_options &options = texcache_default_options(),
                   Errors errors = Errors())
    {
        std::unique_ptr<Held> held(new Held);
        if (is_text(folder, errors) && errors.take(texcache_open(&held->cache, folder.c_str(), &options))) held_ = std::move(held);
    }

    Cache(const std::string &folder, Errors errors) : Cache(folder, texcache_default_options(), errors) {}

    // Whether there is a cache: it was opened, and not closed or moved from.
    explicit operator bool() const noexcept { return get() != nullptr; }

    // Closes the cache now; a Pass of this_thread may not be used any more. It fails if a Pass that you made is left.
    void close(Errors errors = Errors())
    {
        texcache *none = nullptr;
        if (errors.take(texcache_close(held_ ? &held_->cache : &none))) held_.reset();
    }

    // The number of the file that a name means: its path, in the folder or on the search path.
    std::uint32_t find(const std::string &name, Errors errors = Errors()) const
    {
        std::uint32_t file = UINT32_MAX;
        if (is_text(name, errors)) errors.take(texcache_find(get(), name.c_str(), &file));
        return file;
    }

    // Finds each plain file that a folder has now, and returns how many there are.
    std::uint32_t find_all(const std::string &folder = ".", Errors errors = Errors()) const
    {
        std::uint32_t count = 0;
        if (is_text(folder, errors)) errors.take(texcache_find_all(get(), folder.c_str(), &count));
        return count;
    }

    // The pass of the calling thread. It ends with the thread or the cache, not with the Pass.
    Pass this_thread(Errors errors = Errors()) const;

    // Whether this is the number of a UDIM set: find gives one for a name with the mark <UDIM>, and all lookups take it.
    bool is_udim(std::uint32_t file) const noexcept { return texcache_is_udim(get(), file); }

    // The numbers of the tiles of a set, and the number of a tile's file.
    std::vector<std::uint32_t> udim_tiles(std::uint32_t set, Errors errors = Errors()) const
    {
        std::vector<std::uint32_t> tiles;
        std::size_t count = 0;
        int status = texcache_udim_tiles(get(), set, nullptr, 0, &count);
        while (status == TEXCACHE_SMALL_BUFFER) {
            tiles.resize(count);
            status = texcache_udim_tiles(get(), set, tiles.data(), tiles.size(), &count);
        }
        tiles.resize(errors.take(status) ? count : 0);
        return tiles;
    }

    std::uint32_t udim_file(std::uint32_t set, std::uint32_t tile, Errors errors = Errors()) const
    {
        std::uint32_t file = UINT32_MAX;
        errors.take(texcache_udim_file(get(), set, tile, &file));
        return file;
    }

    // How many files have been found.
    std::uint32_t file_count() const noexcept { return texcache_file_count(get()); }

    // The path of a file, empty if no file has this number.
    std::string file_name(std::uint32_t file) const
    {
        const char *name = texcache_file_name(get(), file);
        return name ? name : "";
    }

    // What the cache has done, as a text for people and as JSON; level 2 has a line for each file too.
    std::string statistics_text(std::uint32_t level = 2, Errors errors = Errors()) const
    {
        return text_of(texcache_statistics_text, level, errors);
    }

    std::string statistics_json(std::uint32_t level = 2, Errors errors = Errors()) const
    {
        return text_of(texcache_statistics_json, level, errors);
    }

    texcache *get() const noexcept { return held_ ? held_->cache : nullptr; }

private:
    friend class Pass;

    struct Held {
        texcache *cache = nullptr;
        Held() = default;
        Held(const Held &) = delete;
        Held &operator=(const Held &) = delete;
        ~Held()
        {
            if (cache) texcache_close(&cache);
        }
    };

    using Texts = int(texcache *, std::uint32_t, char *, std::size_t, std::size_t *);

    // Whether C sees the whole name.
    static bool is_text(const std::string &name, Errors errors)
    {
        if (name.find('\0') == std::string::npos) return true;
        errors.refuse("the name has a zero byte");
        return false;
    }

    // The numbers may grow while they are asked for, so there is some more room.
    std::string text_of(Texts *call, std::uint32_t level, Errors errors) const
    {
        std::string text;
        std::size_t needed = 0;
        int status = call(get(), level, nullptr, 0, &needed);
        while (status == TEXCACHE_OK && text.size() < needed) {
            text.resize(needed + 1000);
            status = call(get(), level, &text[0], text.size(), &needed);
            if (status == TEXCACHE_SMALL_BUFFER) status = TEXCACHE_OK;
        }
        text.resize(errors.take(status) && needed ? needed - 1 : 0);
        return text;
    }

    std::shared_ptr<Held> held_;
};

// The values of a region, and what they are of.
struct Pixels {
    std::vector<std::uint16_t> values;
    std::uint32_t channels = 0, generation = 0;
};

// What one thread has of a cache. Where a call returns a generation, it is 0 after an error.
class Pass {
public:
    // A new pass, which ends with this object.
    explicit Pass(const Cache &cache, Errors errors = Errors())
    {
        if (errors.take(texcache_new_pass(cache.get(), &pass_))) held_ = cache.held_;
    }

    Pass(Pass &&other) noexcept { swap(other); }
    Pass &operator=(Pass &&other) noexcept
    {
        Pass taken(std::move(other));
        swap(taken);
        return *this;
    }
    Pass(const Pass &) = delete;
    Pass &operator=(const Pass &) = delete;
    ~Pass()
    {
        if (held_) texcache_end(&pass_);
    }

    // Whether there is a pass: it was made, and not ended or moved from.
    explicit operator bool() const noexcept { return pass_ != nullptr; }

    // Ends the pass now, also one of this_thread.
    void end(Errors errors = Errors())
    {
        if (errors.take(texcache_end(&pass_))) held_.reset();
    }

    // What belongs to the latest call: the generation, the details of an error.
    const texcache_answer &answer() const noexcept { return answer_; }

    texcache_info info(std::uint32_t file, Errors errors = Errors())
    {
        texcache_info info = texcache_info();
        errors.take(texcache_get_info(pass_, file, &info, &answer_), answer_);
        return info;
    }

    // Writes the values of a lookup at a place to `out`, and returns their generation. What s, t and the derivatives
    // mean is in texcache.h. An empty `out` is too small; NULL with a size is refused.
    std::uint32_t texture(std::uint32_t file, const texcache_texture_options &options, double s, double t,
                          Span<std::uint16_t> out, Errors errors = Errors())
    {
        return said(texcache_texture(pass_, file, &options, s, t, at(out), out.size(), &answer_), errors);
    }

    std::uint32_t texture(std::uint32_t file, const texcache_texture_options &options, double s, double t,
                          Span<float> out, Errors errors = Errors())
    {
        return said(texcache_texture_float(pass_, file, &options, s, t, at(out), out.size(), &answer_), errors);
    }

    // Writes the values over a pixel's footprint.
    std::uint32_t texture_footprint(std::uint32_t file, const texcache_texture_options &options, double s, double t,
                                    double dsdx, double dtdx, double dsdy, double dtdy, Span<std::uint16_t> out,
                                    Errors errors = Errors())
    {
        return said(texcache_texture_footprint(pass_, file, &options, s, t, dsdx, dtdx, dsdy, dtdy, at(out), out.size(),
                                               &answer_), errors);
    }

    std::uint32_t texture_footprint(std::uint32_t file, const texcache_texture_options &options, double s, double t,
                                    double dsdx, double dtdx, double dsdy, double dtdy, Span<float> out,
                                    Errors errors = Errors())
    {
        return said(texcache_texture_footprint_float(pass_, file, &options, s, t, dsdx, dtdx, dsdy, dtdy, at(out),
                                                     out.size(), &answer_), errors);
    }

    // Writes the values of `count` lookups, which are of one generation. `done`, if given, says how many stand, also
    // if the call fails.
    std::uint32_t texture_many(std::uint32_t file, const texcache_texture_options &options,
                               const texcache_coordinates &places, std::size_t count, Span<std::uint16_t> out,
                               std::size_t *done = nullptr, Errors errors = Errors())
    {
        return said(texcache_texture_many(pass_, file, &options, &places, count, at(out), out.size(), done, &answer_),
                    errors);
    }

    std::uint32_t texture_many(std::uint32_t file, const texcache_texture_options &options,
                               const texcache_coordinates &places, std::size_t count, Span<float> out,
                               std::size_t *done = nullptr, Errors errors = Errors())
    {
        const texcache_results results = {sizeof results, TEXCACHE_FLOAT, out.size(), at(out), nullptr, nullptr};
        return texture_results(file, options, places, count, results, done, errors);
    }

    // Those at the places of two arrays of one length. `values` are of std::uint16_t or float.
    template <class Values>
    std::uint32_t texture_many(std::uint32_t file, const texcache_texture_options &options, Span<const double> s,
                               Span<const double> t, Values &&values, std::size_t *done = nullptr, Errors errors = Errors())
    {
        if (!are_as_many(s, {t}, done, errors)) return 0;
        texcache_coordinates places = {at(s), at(t), nullptr, nullptr, nullptr, nullptr, 1};
        return texture_many(file, options, places, s.size(), std::forward<Values>(values), done, errors);
    }

    // Those over the footprints of six arrays of one length.
    template <class Values>
    std::uint32_t texture_many(std::uint32_t file, const texcache_texture_options &options, Span<const double> s,
                               Span<const double> t, Span<const double> dsdx, Span<const double> dtdx,
                               Span<const double> dsdy, Span<const double> dtdy, Values &&values,
                               std::size_t *done = nullptr, Errors errors = Errors())
    {
        if (!are_as_many(s, {t, dsdx, dtdx, dsdy, dtdy}, done, errors)) return 0;
        texcache_coordinates places = {at(s), at(t), at(dsdx), at(dtdx), at(dsdy), at(dtdy), 1};
        return texture_many(file, options, places, s.size(), std::forward<Values>(values), done, errors);
    }

    // Those of any type, with their derivatives if `results` has room for them.
    std::uint32_t texture_results(std::uint32_t file, const texcache_texture_options &options,
                                  const texcache_coordinates &places, std::size_t count, const texcache_results &results,
                                  std::size_t *done = nullptr, Errors errors = Errors())
    {
        return said(texcache_texture_results(pass_, file, &options, &places, count, &results, done, &answer_), errors);
    }

    // The values of a lookup in the units of the program's requests, 1/65536 of the image; and along a footprint.
    std::uint32_t texture_fixed(std::uint32_t file, const texcache_lookup &r, Span<std::uint16_t> out,
                                Errors errors = Errors())
    {
        return said(texcache_texture_fixed(pass_, file, &r, at(out), out.size(), &answer_), errors);
    }

    std::uint32_t texture_d_fixed(std::uint32_t file, const texcache_lookup &r, Span<std::uint16_t> out,
                                  Errors errors = Errors())
    {
        return said(texcache_texture_d_fixed(pass_, file, &r, at(out), out.size(), &answer_), errors);
    }

    // Whether the two latest tiles of the pass had all that the lookup at S, T and LOD needs.
    bool texture_local_fixed(std::uint32_t file, const texcache_lookup &r, Span<std::uint16_t> out,
                             Errors errors = Errors())
    {
        int status = texcache_texture_local_fixed(pass_, file, &r, at(out), out.size(), &answer_);
        return status == TEXCACHE_NOT_LOCAL ? !errors.take(TEXCACHE_OK) : said(status, errors) != 0;
    }

    // Writes the values of a region to `out`, and returns their generation; answer() has the channels.
    std::uint32_t pixels(std::uint32_t file, const texcache_region &region, Span<std::uint16_t> out,
                         Errors errors = Errors())
    {
        return said(texcache_get_pixels(pass_, file, &region, at(out), out.size(), &answer_), errors);
    }

    // The values of a region. Memory is taken only if the region is right.
    Pixels pixels(std::uint32_t file, const texcache_region &region, Errors errors = Errors())
    {
        Pixels pixels;
        int status = texcache_get_pixels(pass_, file, &region, nullptr, 0, &answer_);
        // if the file was replaced it may have other channels
        while (status == TEXCACHE_SMALL_BUFFER) {
            pixels.values.resize(answer_.value);
            status = texcache_get_pixels(pass_, file, &region, pixels.values.data(), pixels.values.size(), &answer_);
        }
        pixels.values.resize(errors.take(status, answer_) ? answer_.value : 0);
        pixels.channels = answer_.channels;
        pixels.generation = answer_.generation;
        return pixels;
    }

    std::uint32_t invalidate(std::uint32_t file, bool force = false, Errors errors = Errors())
    {
        return said(texcache_invalidate(pass_, file, force, &answer_), errors);
    }

    // After an error answer() has the first file that failed in `part`, and how many failed in `value`.
    void invalidate_all(Errors errors = Errors()) { errors.take(texcache_invalidate_all(pass_, &answer_), answer_); }

    // Holds the cell of a texel until it is released. A pass holds at most four; the oldest is at place 0.
    std::uint32_t get_tile(std::uint32_t file, std::uint32_t level, std::uint32_t x, std::uint32_t y,
                           Errors errors = Errors())
    {
        return said(texcache_get_tile(pass_, file, level, x, y, &answer_), errors);
    }

    texcache_tile tile_at(std::size_t place, Errors errors = Errors())
    {
        texcache_tile tile = texcache_tile();
        errors.take(texcache_tile_at(pass_, place, &tile));
        return tile;
    }

    void tile_texels(std::size_t place, Span<std::uint16_t> out, Errors errors = Errors())
    {
        errors.take(texcache_tile_texels(pass_, place, at(out), out.size()));
    }

    std::vector<std::uint16_t> tile_texels(std::size_t place, Errors errors = Errors())
    {
        texcache_tile tile = texcache_tile();
        std::vector<std::uint16_t> out;
        int status = texcache_tile_at(pass_, place, &tile);
        if (status == TEXCACHE_OK) {
            out.resize(std::size_t(tile.w) * tile.h * tile.channels);
            status = texcache_tile_texels(pass_, place, out.data(), out.size());
        }
        errors.take(status);
        return out;
    }

    void release_tile(std::size_t place, Errors errors = Errors()) { errors.take(texcache_release_tile(pass_, place)); }

    texcache_statistics stats(Errors errors = Errors())
    {
        texcache_statistics stats = texcache_statistics();
        errors.take(texcache_stats(pass_, &stats));
        return stats;
    }

    texcache_shard shard_stats(std::uint32_t shard, Errors errors = Errors())
    {
        texcache_shard stats = texcache_shard();
        errors.take(texcache_shard_stats(pass_, shard, &stats));
        return stats;
    }

    texcache_pass *get() const noexcept { return pass_; }

private:
    friend class Cache;
    Pass() noexcept = default;

    void swap(Pass &other) noexcept
    {
        std::swap(pass_, other.pass_);
        std::swap(answer_, other.answer_);
        held_.swap(other.held_);
    }

    std::uint32_t said(int status, Errors errors) const
    {
        return errors.take(status, answer_) ? answer_.generation : 0;
    }

    // Where elements are. An empty vector may have NULL, which is refused; nothing is read or written there.
    template <class T> static T *at(Span<T> span)
    {
        static T none = 0;
        return span.size() ? span.data() : &none;
    }

    static bool are_as_many(Span<const double> one, std::initializer_list<Span<const double>> others, std::size_t *done,
                            Errors errors)
    {
        if (done) *done = 0;
        for (const auto &it : others) {
            if (it.size() == one.size()) continue;
            errors.refuse("the arrays of coordinates have different lengths");
            return false;
        }
        return true;
    }

    texcache_pass *pass_ = nullptr;
    texcache_answer answer_ = texcache_answer();
    std::shared_ptr<Cache::Held> held_;  // of a pass that ends with this object
};

inline Pass Cache::this_thread(Errors errors) const
{
    Pass pass;
    errors.take(texcache_this_thread(get(), &pass.pass_));
    return pass;
}

}  // namespace texcache_cpp
#endif
