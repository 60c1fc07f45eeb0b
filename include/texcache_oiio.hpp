// texcache_oiio.hpp: the calls of OpenImageIO's TextureSystem over texcache.h, for programs that use OpenImageIO.
//
//     #include <texcache_oiio.hpp>
//     namespace OIIO = texcache_oiio;
//
// Header only, for C++17 or later; link the library of texcache.h. Names, arguments and results are those of OpenImageIO
// 2.4. docs/OIIO.md says what differs and what is left out. What can never work does not compile, and says why; other
// calls return false, and geterror says why.
#ifndef TEXCACHE_OIIO_HPP
#define TEXCACHE_OIIO_HPP

#include "texcache.h"

#if !defined(_MSVC_LANG) && __cplusplus < 201703L
#    error "texcache_oiio.hpp needs C++17: compile with -std=c++17"
#endif

#include <sys/stat.h>
#include <unistd.h>

#include <algorithm>
#include <atomic>
#include <cmath>
#include <cstdint>
#include <cstdlib>
#include <cstring>
#include <deque>
#include <functional>
#include <limits>
#include <memory>
#include <mutex>
#include <ostream>
#include <string>
#include <string_view>
#include <unordered_map>
#include <unordered_set>
#include <utility>
#include <vector>

namespace texcache_oiio {

using std::string_view;

// ---- ustring: a text that is kept once, so that two of them are compared by their places

class ustring {
public:
    ustring() noexcept : text_(nothing()) {}
    explicit ustring(string_view text) : text_(kept(text)) {}
    explicit ustring(const char *text) : text_(kept(text ? string_view(text) : string_view())) {}
    explicit ustring(const std::string &text) : text_(kept(text)) {}
    ustring &operator=(string_view text)
    {
        text_ = kept(text);
        return *this;
    }

    const char *c_str() const noexcept { return text_->c_str(); }
    const std::string &string() const noexcept { return *text_; }
    std::size_t length() const noexcept { return text_->size(); }
    std::size_t size() const noexcept { return text_->size(); }
    bool empty() const noexcept { return text_->empty(); }
    std::size_t hash() const noexcept { return std::hash<const void *>()(text_); }
    operator string_view() const noexcept { return *text_; }
    explicit operator std::string() const { return *text_; }

    friend bool operator==(const ustring &a, const ustring &b) noexcept { return a.text_ == b.text_; }
    friend bool operator!=(const ustring &a, const ustring &b) noexcept { return a.text_ != b.text_; }
    friend bool operator<(const ustring &a, const ustring &b) noexcept { return *a.text_ < *b.text_; }
    friend bool operator==(const ustring &a, string_view b) noexcept { return *a.text_ == b; }
    friend bool operator!=(const ustring &a, string_view b) noexcept { return *a.text_ != b; }
    friend std::ostream &operator<<(std::ostream &out, const ustring &text) { return out << *text.text_; }

private:
    static const std::string *nothing()
    {
        static const std::string &empty = *new std::string;
        return &empty;
    }

    // Texts are never freed, as in OpenImageIO.
    static const std::string *kept(string_view text)
    {
        static std::mutex lock;
        static std::unordered_set<std::string> &all = *new std::unordered_set<std::string>;
        if (text.empty()) return nothing();
        std::lock_guard<std::mutex> guard(lock);
        return &*all.emplace(text).first;
    }

    const std::string *text_;
};

// ---- types of values

struct TypeDesc {
    enum BASETYPE : unsigned char {
        UNKNOWN, NONE, UINT8, UCHAR = UINT8, INT8, CHAR = INT8, UINT16, USHORT = UINT16, INT16, SHORT = INT16, UINT32,
        UINT = UINT32, INT32, INT = INT32, UINT64, ULONGLONG = UINT64, INT64, LONGLONG = INT64, HALF, FLOAT, DOUBLE, STRING,
        PTR, LASTBASE
    };
    enum AGGREGATE : unsigned char { SCALAR = 1, VEC2 = 2, VEC3 = 3, VEC4 = 4, MATRIX33 = 9, MATRIX44 = 16 };
    enum VECSEMANTICS : unsigned char { NOXFORM = 0, NOSEMANTICS = 0, COLOR, POINT, VECTOR, NORMAL };

    unsigned char basetype, aggregate, vecsemantics, reserved = 0;
    int arraylen;

    constexpr TypeDesc(BASETYPE type = UNKNOWN, AGGREGATE many = SCALAR, VECSEMANTICS means = NOSEMANTICS,
                       int length = 0) noexcept
        : basetype(type), aggregate(many), vecsemantics(means), arraylen(length) {}
    constexpr TypeDesc(BASETYPE type, int length) noexcept
        : basetype(type), aggregate(SCALAR), vecsemantics(NOSEMANTICS), arraylen(length) {}

    const char *c_str() const noexcept
    {
        static const char *const names[] = {"unknown", "void", "uint8", "int8", "uint16", "int16", "uint", "int", "uint64",
                                            "int64", "half", "float", "double", "string", "pointer"};
        return basetype < LASTBASE ? names[basetype] : "unknown";
    }

    friend constexpr bool operator==(const TypeDesc &a, const TypeDesc &b) noexcept
    {
        return a.basetype == b.basetype && a.aggregate == b.aggregate && a.arraylen == b.arraylen;
    }
    friend constexpr bool operator!=(const TypeDesc &a, const TypeDesc &b) noexcept { return !(a == b); }
};

inline constexpr TypeDesc TypeUnknown(TypeDesc::UNKNOWN), TypeUInt8(TypeDesc::UINT8), TypeUInt16(TypeDesc::UINT16),
    TypeInt(TypeDesc::INT), TypeUInt(TypeDesc::UINT), TypeInt64(TypeDesc::INT64), TypeUInt64(TypeDesc::UINT64),
    TypeHalf(TypeDesc::HALF), TypeFloat(TypeDesc::FLOAT), TypeString(TypeDesc::STRING),
    TypeMatrix44(TypeDesc::FLOAT, TypeDesc::MATRIX44);

// What a file is. Names of channels are guessed from their number; tile sizes are not told and stay 0.
class ImageSpec {
public:
    int x = 0, y = 0, z = 0, width = 0, height = 0, depth = 1;
    int full_x = 0, full_y = 0, full_z = 0, full_width = 0, full_height = 0, full_depth = 1;
    int tile_width = 0, tile_height = 0, tile_depth = 1;
    int nchannels = 0;
    TypeDesc format;
    std::vector<std::string> channelnames;
    int alpha_channel = -1, z_channel = -1;
    bool deep = false;
};

// ---- options of a lookup

namespace Tex {

enum class Wrap { Default, Black, Clamp, Periodic, Mirror, PeriodicPow2, PeriodicSharedBorder, Last };
enum class MipMode { Default, NoMIP, OneLevel, Trilinear, Aniso, StochasticTrilinear, StochasticAniso };
enum class InterpMode { Closest, Bilinear, Bicubic, SmartBicubic };

#ifndef OIIO_TEXTURE_SIMD_BATCH_WIDTH
#    define OIIO_TEXTURE_SIMD_BATCH_WIDTH 16
#endif
inline constexpr int BatchWidth = OIIO_TEXTURE_SIMD_BATCH_WIDTH;
inline constexpr int BatchAlign = BatchWidth * int(sizeof(float));
static_assert(BatchWidth > 0 && BatchWidth <= 64 && (BatchWidth & (BatchWidth - 1)) == 0,
              "texcache_oiio: OIIO_TEXTURE_SIMD_BATCH_WIDTH is 1, 2, 4, 8, 16, 32 or 64");
typedef std::uint64_t RunMask;
inline constexpr RunMask RunMaskOn = ~RunMask(0) >> (64 - BatchWidth);

inline Wrap decode_wrapmode(const char *name)
{
    static const char *const names[] = {"default", "black", "clamp", "periodic", "mirror", "periodic_pow2",
                                        "periodic_sharedborder"};
    for (int i = 0; name && i < 7; i++)
        if (!std::strcmp(name, names[i])) return Wrap(i);
    return Wrap::Default;
}
inline Wrap decode_wrapmode(ustring name) { return decode_wrapmode(name.c_str()); }

inline void parse_wrapmodes(const char *wrapmodes, Wrap &swrap, Wrap &twrap)
{
    std::string both = wrapmodes ? wrapmodes : "";
    std::size_t comma = both.find(',');
    swrap = decode_wrapmode(both.substr(0, comma).c_str());
    twrap = comma == std::string::npos ? swrap : decode_wrapmode(both.c_str() + comma + 1);
}

}  // namespace Tex

class TextureOpt {
public:
    enum Wrap {
        WrapDefault, WrapBlack, WrapClamp, WrapPeriodic, WrapMirror, WrapPeriodicPow2, WrapPeriodicSharedBorder, WrapLast
    };
    enum MipMode {
        MipModeDefault, MipModeNoMIP, MipModeOneLevel, MipModeTrilinear, MipModeAniso, MipModeStochasticTrilinear,
        MipModeStochasticAniso
    };
    enum InterpMode { InterpClosest, InterpBilinear, InterpBicubic, InterpSmartBicubic };

    int firstchannel = 0;                         // the first channel of the lookup
    int subimage = 0;                             // only 0: a file of texcache has one image
    ustring subimagename;                         // only empty
    Wrap swrap = WrapDefault, twrap = WrapDefault;
    MipMode mipmode = MipModeDefault;
    InterpMode interpmode = InterpSmartBicubic;   // bilinear; InterpBicubic is refused
    int anisotropic = 32;                         // the most probes over a footprint
    bool conservative_filter = true;              // of MipModeOneLevel and MipModeTrilinear
    float sblur = 0, tblur = 0;                   // added to the footprint, in parts of the image
    float swidth = 1, twidth = 1;                 // multiply the derivatives
    float fill = 0;                               // the value of channels that the file does not have
    const float *missingcolor = nullptr;          // the color of a file that cannot be read
    float time = 0;                               // the rest is of 3D textures and shadows, and does nothing
    union {
        float bias;
        float rnd = -1;
    };
    int samples = 1;
    Wrap rwrap = WrapDefault;
    float rblur = 0, rwidth = 1;

    static Wrap decode_wrapmode(const char *name) { return Wrap(Tex::decode_wrapmode(name)); }
    static Wrap decode_wrapmode(ustring name) { return Wrap(Tex::decode_wrapmode(name)); }
    static void parse_wrapmodes(const char *wrapmodes, Wrap &swrapcode, Wrap &twrapcode)
    {
        Tex::Wrap s, t;
        Tex::parse_wrapmodes(wrapmodes, s, t);
        swrapcode = Wrap(s), twrapcode = Wrap(t);
    }
};

// The options of a batch. Unlike OpenImageIO's, its arrays begin with usable values.
class TextureOptBatch {
public:
    TextureOptBatch()
    {
        for (int i = 0; i < Tex::BatchWidth; i++) {
            sblur[i] = tblur[i] = rblur[i] = 0;
            swidth[i] = twidth[i] = rwidth[i] = 1;
            rnd[i] = -1;
        }
    }

    alignas(Tex::BatchAlign) float sblur[Tex::BatchWidth];
    alignas(Tex::BatchAlign) float tblur[Tex::BatchWidth];
    alignas(Tex::BatchAlign) float rblur[Tex::BatchWidth];
    alignas(Tex::BatchAlign) float swidth[Tex::BatchWidth];
    alignas(Tex::BatchAlign) float twidth[Tex::BatchWidth];
    alignas(Tex::BatchAlign) float rwidth[Tex::BatchWidth];
    alignas(Tex::BatchAlign) float rnd[Tex::BatchWidth];

    int firstchannel = 0, subimage = 0;
    ustring subimagename;
    Tex::Wrap swrap = Tex::Wrap::Default, twrap = Tex::Wrap::Default, rwrap = Tex::Wrap::Default;
    Tex::MipMode mipmode = Tex::MipMode::Default;
    Tex::InterpMode interpmode = Tex::InterpMode::SmartBicubic;
    int anisotropic = 32, conservative_filter = 1;
    float fill = 0;
    const float *missingcolor = nullptr;

    // The options of one lookup of the batch.
    TextureOpt at(int i) const
    {
        TextureOpt one;
        one.firstchannel = firstchannel, one.subimage = subimage, one.subimagename = subimagename;
        one.swrap = TextureOpt::Wrap(swrap), one.twrap = TextureOpt::Wrap(twrap);
        one.mipmode = TextureOpt::MipMode(mipmode), one.interpmode = TextureOpt::InterpMode(interpmode);
        one.anisotropic = anisotropic, one.conservative_filter = conservative_filter != 0;
        one.sblur = sblur[i], one.tblur = tblur[i], one.swidth = swidth[i], one.twidth = twidth[i];
        one.fill = fill, one.missingcolor = missingcolor;
        return one;
    }
};

// ---- inside

namespace detail {

template <class...> inline constexpr bool never = false;

// The options of a lookup that none of OpenImageIO's changes.
inline const texcache_texture_options usual = texcache_default_texture_options(1);

// What a version of a file is.
struct Facts {
    texcache_info info = texcache_info();
    std::uint32_t generation = 0;
    ImageSpec spec;
};

// The cache of all files. Threads that get no pass of their own share one, one call at a time.
struct Cache {
    texcache *cache = nullptr;   // NULL until the first file is opened
    texcache_pass *common = nullptr;
    std::mutex lock;
};

// A thread's access to the cache. The lock is that of a shared pass, or NULL.
struct Access {
    texcache_pass *pass = nullptr;
    std::mutex *lock = nullptr;
};

// Where a lookup is, as floats or widened.
struct Place {
    double s, t, dsdx, dtdx, dsdy, dtdy;
};

// Two neighbouring levels, and the part of the second one.
struct Levels {
    int first = 0, second = 0;
    double blend = 0;
};

// Where the values of a lookup go, and the derivatives that are wanted or NULL. One value is `step` from the next.
struct Result {
    float *values, *ds, *dt;
    int nchannels, step;
};

// A lookup as the library takes it.
struct Sampling {
    texcache_texture_options how = usual;
    Place at = Place();
    Levels levels;               // of a blended one
    bool is_footprint = false;
    bool is_blended = false;     // the nearest texels of two levels
};

inline bool is_file(const std::string &path)
{
    struct stat found;
    return !stat(path.c_str(), &found) && S_ISREG(found.st_mode);
}

// The path from the root on. A program may change its working directory while the cache is open.
inline std::string absolute(const std::string &path)
{
    char working[4096];
    if (path.empty() || path[0] == '/' || !getcwd(working, sizeof working)) return path;
    return std::string(working) + "/" + path;
}

// Whether a name may be that of a UDIM set: it has one of OpenImageIO's marks.
inline bool has_mark(string_view name)
{
    for (const char *mark : {"<UDIM>", "%(UDIM)d", "<u>", "<v>", "<U>", "<V>", "<uvtile>", "<UVTILE>", "_u##v##"})
        if (name.find(mark) != string_view::npos) return true;
    return false;
}

constexpr std::uint32_t no_file = ~std::uint32_t(0);
constexpr std::uint32_t first_tile = 1001, last_tile = 9999;

// The tile at s and t by OpenImageIO's rule, which has the first ones for what is below 0; or 0 if there can be none.
inline std::uint32_t tile_at(double s, double t)
{
    const double u = s > 0 ? std::floor(s) : 0, v = t > 0 ? std::floor(t) : 0, tile = first_tile + u + 10 * v;
    return u <= 9 && tile <= last_tile ? std::uint32_t(tile) : 0;
}

// The levels whose texels have this width, in parts of the image: OpenImageIO's rule.
inline Levels levels_of(const texcache_info &info, double width, bool is_one)
{
    Levels found;
    int count = int(info.levels);
    found.first = found.second = -1;
    for (int m = 0; m < count; m++) {
        double side = std::max<std::uint32_t>(1, std::min(info.width, info.height) >> m), texels = width * side;
        if (texels <= 1) {
            found.first = m - 1, found.second = m;
            found.blend = std::min(std::max(2 * texels - 1, 0.0), 1.0);
            break;
        }
    }
    if (found.second < 0) found.first = found.second = count - 1, found.blend = 0;
    if (found.first < 0) found.first = found.second = 0, found.blend = 0;
    if (is_one) found.first = found.second, found.blend = 0;
    return found;
}

// The axes of the ellipse that the derivatives span, and where the longer one points.
struct Axes {
    double major, minor, x, y;
};

inline Axes axes_of(const Place &p, bool with_direction)
{
    double e = (p.dsdx + p.dtdy) / 2, f = (p.dsdx - p.dtdy) / 2, g = (p.dtdx + p.dsdy) / 2, h = (p.dtdx - p.dsdy) / 2;
    double q = std::sqrt(e * e + h * h), r = std::sqrt(f * f + g * g);
    double angle = with_direction ? (std::atan2(h, e) + std::atan2(g, f)) / 2 : 0;
    return {q + r, std::fabs(q - r), std::cos(angle), std::sin(angle)};
}

// Blur makes the axes longer. If they then differ more than `anisotropic` times, both are changed, and their sum stays:
// OpenImageIO's rules.
inline void shape(Place &p, double sblur, double tblur, double anisotropic)
{
    bool has_blur = sblur != 0 || tblur != 0;
    Axes axes = axes_of(p, false);
    if (!has_blur && axes.major <= anisotropic * axes.minor) return;
    axes = axes_of(p, true);
    double x = axes.x, y = axes.y;
    axes.major += sblur * std::fabs(x) + tblur * std::fabs(y);
    axes.minor += sblur * std::fabs(y) + tblur * std::fabs(x);
    if (axes.minor > axes.major) {
        std::swap(axes.major, axes.minor);
        std::swap(x, y);
        x = -x;
    }
    if (axes.major > anisotropic * axes.minor) {
        double sum = axes.major + axes.minor;
        axes.minor = sum / (1 + anisotropic), axes.major = sum - axes.minor;
    }
    p.dsdx = axes.major * x, p.dtdx = axes.major * y, p.dsdy = -axes.minor * y, p.dtdy = axes.minor * x;
}

// A coordinate that the library takes. Far outside, clamp and black do not change any more, and the others repeat.
inline double near_image(double at, std::uint32_t wrap)
{
    if (at >= -16000 && at <= 16000) return at;
    if (wrap == TEXCACHE_BLACK || wrap == TEXCACHE_CLAMP) return at < 0 ? -16000 : 16000;
    return std::fmod(at, 2.0);
}

// A derivative that the library takes. At a horizon they are infinite.
inline double bounded(double by) { return by < -16000 ? -16000 : by > 16000 ? 16000 : by == by ? by : 0; }

}  // namespace detail

// ---- the texture system

class TextureSystem {
public:
    // A file or a UDIM set, found or not.
    class TextureHandle {
        friend class TextureSystem;
        ustring name_;
        std::string path_;
        std::once_flag is_opened_;
        std::uint32_t file_ = detail::no_file;                  // its number in the cache, if it was found
        std::atomic<const detail::Facts *> facts_{nullptr};   // NULL if the file cannot be read; a set has those of a tile
        std::unique_ptr<std::atomic<TextureHandle *>[]> tiles_; // of a set: the tiles that were looked up
        std::string error_;                                     // why not; the system's lock guards it
    };

    // What a thread has of the system. No two threads may use it at once.
    class Perthread {
        friend class TextureSystem;
        detail::Access access_;
        std::unordered_map<const char *, TextureHandle *> names_;
        unsigned resolved_ = 0;   // which search path the names are of
        texcache_texture_options how_ = detail::usual;
    };

    // The system that all callers share, or one of your own. Each create needs a destroy.
    static TextureSystem *create(bool shared = true, void *imagecache = nullptr)
    {
        if (imagecache) return nullptr;
        std::lock_guard<std::mutex> guard(shared_lock());
        if (!shared) return new TextureSystem;
        Shared &one = shared_system();
        if (!one.count++) one.system = new TextureSystem;
        return one.system;
    }

    static void destroy(TextureSystem *system, bool teardown_imagecache = false)
    {
        (void)teardown_imagecache;
        std::lock_guard<std::mutex> guard(shared_lock());
        Shared &one = shared_system();
        if (system == one.system && one.count && --one.count) return;
        if (system == one.system) one.system = nullptr;
        delete system;
    }

    TextureSystem(const TextureSystem &) = delete;
    TextureSystem &operator=(const TextureSystem &) = delete;

    // -- threads

    Perthread *get_perthread_info(Perthread *thread_info = nullptr)
    {
        if (thread_info) return thread_info;
        for (const auto &it : threads_own().of)
            if (it.number == state_->number) return it.perthread;
        Perthread *made = create_thread_info();
        threads_own().of.push_back({state_->number, state_, made});
        return made;
    }

    Perthread *create_thread_info()
    {
        std::lock_guard<std::mutex> guard(state_->lock);
        state_->perthreads.emplace_back(new Perthread);
        return state_->perthreads.back().get();
    }

    void destroy_thread_info(Perthread *thread_info) { state_->end(thread_info); }

    // -- files

    // The handle of a file. A file that cannot be read has one too: good() says so.
    TextureHandle *get_texture_handle(ustring filename, Perthread *thread_info = nullptr)
    {
        Perthread *own = get_perthread_info(thread_info);
        unsigned paths = state_->paths;
        if (own->resolved_ != paths) own->names_.clear(), own->resolved_ = paths;
        auto known = own->names_.find(filename.c_str());
        if (known != own->names_.end()) return known->second;
        TextureHandle *found = handle_of(filename, own);
        own->names_[filename.c_str()] = found;
        return found;
    }

    bool good(TextureHandle *texture_handle) { return texture_handle && texture_handle->facts_.load(); }

    ustring filename_from_handle(TextureHandle *handle) { return handle ? handle->name_ : ustring(); }

    // The path of a file: as it is if there is such a file, or else in the first folder of the search path that has it.
    std::string resolve_filename(const std::string &filename) const
    {
        for (const std::string &it : paths_of(filename))
            if (detail::is_file(it)) return it;
        return filename;
    }

    // -- lookups

    bool texture(ustring filename, TextureOpt &options, float s, float t, float dsdx, float dtdx, float dsdy, float dtdy,
                 int nchannels, float *result, float *dresultds = nullptr, float *dresultdt = nullptr)
    {
        Perthread *own = get_perthread_info();
        return texture(get_texture_handle(filename, own), own, options, s, t, dsdx, dtdx, dsdy, dtdy, nchannels, result,
                       dresultds, dresultdt);
    }

    bool texture(TextureHandle *texture_handle, Perthread *thread_info, TextureOpt &options, float s, float t, float dsdx,
                 float dtdx, float dsdy, float dtdy, int nchannels, float *result, float *dresultds = nullptr,
                 float *dresultdt = nullptr)
    {
        const detail::Result to = {result, dresultds, dresultdt, nchannels, 1};
        const char *why = refused(options);
        if (why || !texture_handle || nchannels < 1 || !result) return fails(texture_handle, why, options, to);
        Perthread *own = thread_info ? thread_info : get_perthread_info();
        const detail::Facts *facts = texture_handle->facts_.load(std::memory_order_acquire);
        detail::Place place = {s, t, dsdx, dtdx, dsdy, dtdy};
        if (!facts || texture_handle->tiles_) return in_tile(texture_handle, own, options, place, to);
        bool is_at_place = options.mipmode == TextureOpt::MipModeNoMIP
                           || (is_point(place) && options.sblur == 0 && options.tblur == 0);
        if (is_at_place && !dresultds && !dresultdt && is_quick(*texture_handle, own, *facts, options, s, t, to)) return true;
        return look_up(*texture_handle, access(own), facts, options, place, to);
    }

    // A batch: result has all values of channel 0, then those of channel 1, and so on, BatchWidth of each.
    bool texture(ustring filename, TextureOptBatch &options, Tex::RunMask mask, const float *s, const float *t,
                 const float *dsdx, const float *dtdx, const float *dsdy, const float *dtdy, int nchannels, float *result,
                 float *dresultds = nullptr, float *dresultdt = nullptr)
    {
        Perthread *own = get_perthread_info();
        return texture(get_texture_handle(filename, own), own, options, mask, s, t, dsdx, dtdx, dsdy, dtdy, nchannels,
                       result, dresultds, dresultdt);
    }

    bool texture(TextureHandle *texture_handle, Perthread *thread_info, TextureOptBatch &options, Tex::RunMask mask,
                 const float *s, const float *t, const float *dsdx, const float *dtdx, const float *dsdy, const float *dtdy,
                 int nchannels, float *result, float *dresultds = nullptr, float *dresultdt = nullptr)
    {
        TextureOpt first = options.at(0);
        Perthread *own = thread_info ? thread_info : get_perthread_info();
        const char *why = refused(first);
        const detail::Facts *facts = texture_handle ? texture_handle->facts_.load(std::memory_order_acquire) : nullptr;
        bool is_plain = !why && facts && !texture_handle->tiles_ && nchannels > 0 && nchannels <= 8 && result && !dresultds && !dresultdt;
        if (is_plain && together(*texture_handle, own, facts, options, first, mask, {s, t, dsdx, dtdx, dsdy, dtdy}, nchannels,
                                 result))
            return true;
        // one by one: levels differ, derivatives are wanted, or something failed
        bool is_good = true;
        for (int i = 0; i < Tex::BatchWidth; i++) {
            if (!(mask >> i & 1)) continue;
            TextureOpt one = options.at(i);
            const detail::Result to = {result ? result + i : nullptr, dresultds ? dresultds + i : nullptr,
                                       dresultdt ? dresultdt + i : nullptr, nchannels, Tex::BatchWidth};
            if (why || !texture_handle || nchannels < 1 || !result) {
                is_good = fails(texture_handle, why, one, to);
                continue;
            }
            facts = texture_handle->facts_.load(std::memory_order_acquire);
            detail::Place place = {s[i], t[i], dsdx[i], dtdx[i], dsdy[i], dtdy[i]};
            if (!facts || texture_handle->tiles_) is_good &= in_tile(texture_handle, own, one, place, to);
            else is_good &= look_up(*texture_handle, access(own), facts, one, place, to);
        }
        return is_good;
    }

    // -- what a file is

    bool get_texture_info(ustring filename, int subimage, ustring dataname, TypeDesc datatype, void *data)
    {
        Perthread *own = get_perthread_info();
        return get_texture_info(get_texture_handle(filename, own), own, subimage, dataname, datatype, data);
    }

    bool get_texture_info(TextureHandle *texture_handle, Perthread *, int subimage, ustring dataname, TypeDesc datatype,
                          void *data)
    {
        const detail::Facts *facts = texture_handle ? texture_handle->facts_.load() : nullptr;
        if (!data) return says("get_texture_info: data is NULL");
        if (dataname == "exists" && datatype == TypeInt) return put_ints(data, {facts ? 1 : 0});
        if (dataname == "udim" && datatype == TypeInt)
            return put_ints(data, {is_udim(texture_handle) ? 1 : 0});
        if (!facts) return says(why_not(texture_handle));
        if (subimage) return says(name_of(texture_handle) + ": a file has one subimage, number 0");
        const texcache_info &i = facts->info;
        int w = int(i.width), h = int(i.height);
        int format = i.depth == 8 ? TypeDesc::UINT8 : TypeDesc::UINT16;
        struct {
            const char *name;
            TypeDesc type;
            std::vector<int> values;
        } const ints[] = {
            {"subimages", TypeInt, {1}}, {"miplevels", TypeInt, {int(i.levels)}}, {"channels", TypeInt, {int(i.channels)}},
            {"format", TypeInt, {format}}, {"cachedformat", TypeInt, {format}},
            {"resolution", TypeDesc(TypeDesc::INT, 2), {w, h}}, {"resolution", TypeDesc(TypeDesc::INT, 3), {w, h, 1}},
            {"datawindow", TypeDesc(TypeDesc::INT, 4), {0, 0, w - 1, h - 1}},
            {"datawindow", TypeDesc(TypeDesc::INT, 6), {0, 0, 0, w - 1, h - 1, 0}},
            {"displaywindow", TypeDesc(TypeDesc::INT, 4), {0, 0, w - 1, h - 1}},
            {"displaywindow", TypeDesc(TypeDesc::INT, 6), {0, 0, 0, w - 1, h - 1, 0}}};
        for (const auto &it : ints)
            if (dataname == it.name && datatype == it.type) return put_ints(data, it.values);
        if (dataname == "channels" && datatype == TypeFloat) {
            *static_cast<float *>(data) = float(i.channels);
            return true;
        }
        const char *text = dataname == "texturetype" || dataname == "textureformat" ? "Plain Texture"
                           : dataname == "fileformat" ? "tiff" : nullptr;
        if (text && datatype == TypeString) {
            *static_cast<const char **>(data) = ustring(text).c_str();
            return true;
        }
        return says(name_of(texture_handle) + ": no \"" + dataname.string() + "\" of type " + datatype.c_str());
    }

    bool get_imagespec(ustring filename, int subimage, ImageSpec &spec)
    {
        Perthread *own = get_perthread_info();
        return get_imagespec(get_texture_handle(filename, own), own, subimage, spec);
    }

    bool get_imagespec(TextureHandle *texture_handle, Perthread *, int subimage, ImageSpec &spec)
    {
        const detail::Facts *facts = texture_handle ? texture_handle->facts_.load() : nullptr;
        if (!facts) return says(why_not(texture_handle));
        if (subimage) return says(name_of(texture_handle) + ": a file has one subimage, number 0");
        spec = facts->spec;
        return true;
    }

    const ImageSpec *imagespec(ustring filename, int subimage = 0)
    {
        Perthread *own = get_perthread_info();
        return imagespec(get_texture_handle(filename, own), own, subimage);
    }

    // It stays valid until the system is destroyed.
    const ImageSpec *imagespec(TextureHandle *texture_handle, Perthread *thread_info = nullptr, int subimage = 0)
    {
        (void)thread_info;
        const detail::Facts *facts = texture_handle ? texture_handle->facts_.load() : nullptr;
        if (facts && !subimage) return &facts->spec;
        says(facts ? name_of(texture_handle) + ": a file has one subimage, number 0" : why_not(texture_handle));
        return nullptr;
    }

    // The texels of a region of a level, as uint8, uint16 or float; outside the level they are 0.
    bool get_texels(ustring filename, TextureOpt &options, int miplevel, int xbegin, int xend, int ybegin, int yend,
                    int zbegin, int zend, int chbegin, int chend, TypeDesc format, void *result)
    {
        Perthread *own = get_perthread_info();
        return get_texels(get_texture_handle(filename, own), own, options, miplevel, xbegin, xend, ybegin, yend, zbegin, zend,
                          chbegin, chend, format, result);
    }

    bool get_texels(TextureHandle *texture_handle, Perthread *thread_info, TextureOpt &options, int miplevel, int xbegin,
                    int xend, int ybegin, int yend, int zbegin, int zend, int chbegin, int chend, TypeDesc format,
                    void *result)
    {
        if (!texture_handle || !texture_handle->facts_.load()) return says(why_not(texture_handle));
        if (texture_handle->tiles_) return says(name_of(texture_handle) + ": get_texels reads a tile; resolve_udim gives it");
        if (miplevel < 0 || xend < xbegin || yend < ybegin || chbegin < 0 || chend < chbegin || zbegin || zend != 1
            || options.subimage || !result)
            return says(name_of(texture_handle) + ": get_texels: a range is not one of an image");
        if (format != TypeUInt8 && format != TypeUInt16 && format != TypeFloat)
            return says(name_of(texture_handle) + ": get_texels gives uint8, uint16 and float, and no " + format.c_str());
        return texels(*texture_handle, access(get_perthread_info(thread_info)),
                      {std::uint32_t(miplevel), xbegin, ybegin, std::uint32_t(xend - xbegin), std::uint32_t(yend - ybegin)},
                      chbegin, chend, format, result);
    }

    // -- UDIM: names with marks, of which a tile exists

    bool is_udim(ustring filename) { return detail::has_mark(filename) && is_udim(get_texture_handle(filename)); }
    bool is_udim(TextureHandle *udimfile) { return good(udimfile) && udimfile->tiles_; }

    // The handle of the tile at s and t, or NULL if it has no file that can be read.
    TextureHandle *resolve_udim(ustring udimpattern, float s, float t)
    {
        Perthread *own = get_perthread_info();
        return resolve_udim(get_texture_handle(udimpattern, own), own, s, t);
    }
    TextureHandle *resolve_udim(TextureHandle *udimfile, Perthread *thread_info, float s, float t)
    {
        std::string why;
        TextureHandle *found = is_udim(udimfile) ? tile_at(*udimfile, get_perthread_info(thread_info), s, t, why) : nullptr;
        if (!found) says(is_udim(udimfile) ? why : why_no_set(udimfile));
        return found;
    }

    // The paths of the tiles, row by row. Those of tiles without a file are empty.
    void inventory_udim(ustring udimpattern, std::vector<ustring> &filenames, int &nutiles, int &nvtiles)
    {
        Perthread *own = get_perthread_info();
        inventory_udim(get_texture_handle(udimpattern, own), own, filenames, nutiles, nvtiles);
    }
    void inventory_udim(TextureHandle *udimfile, Perthread *, std::vector<ustring> &filenames, int &nutiles, int &nvtiles)
    {
        const std::vector<std::uint32_t> tiles = is_udim(udimfile) ? tiles_of(*udimfile) : std::vector<std::uint32_t>();
        if (tiles.empty()) says(why_no_set(udimfile));
        nutiles = nvtiles = 0;
        for (std::uint32_t tile : tiles) {
            nutiles = std::max(nutiles, int((tile - detail::first_tile) % 10) + 1);
            nvtiles = std::max(nvtiles, int((tile - detail::first_tile) / 10) + 1);
        }
        filenames.assign(std::size_t(nutiles) * nvtiles, ustring());
        for (std::uint32_t tile : tiles) {
            const std::uint32_t at = tile - detail::first_tile;
            filenames[at / 10 * nutiles + at % 10] = path_of_tile(*udimfile, tile);
        }
    }

    // -- replaced files

    void invalidate(ustring filename, bool force = true)
    {
        Perthread *own = get_perthread_info();
        check_again(*get_texture_handle(filename, own), own, force);
    }

    void invalidate_all(bool force = false)
    {
        Perthread *own = get_perthread_info();
        std::vector<TextureHandle *> all;
        {
            std::lock_guard<std::mutex> guard(state_->lock);
            for (const auto &it : state_->handles) all.push_back(it.second.get());
        }
        for (TextureHandle *it : all) check_again(*it, own, force);
    }

    // They do nothing: idle files are closed as max_open_files says.
    void close(ustring) {}
    void close_all() {}

    // -- errors, of the calling thread

    bool has_error() const { return !error().empty(); }

    std::string geterror(bool clear = true) const
    {
        std::string found = error();
        if (clear) error().clear();
        return found;
    }

    // -- attributes

    bool attribute(string_view name, TypeDesc type, const void *val)
    {
        if (!val) return says(std::string(name) + ": the value is NULL");
        if (type == TypeInt) return attribute(name, *static_cast<const int *>(val));
        if (type == TypeFloat) return attribute(name, *static_cast<const float *>(val));
        if (type == TypeString) return attribute(name, string_view(*static_cast<const char *const *>(val)));
        return says(std::string(name) + ": no attribute has the type " + type.c_str());
    }

    bool attribute(string_view name, int val) { return set_number(name, val); }
    bool attribute(string_view name, float val) { return set_number(name, val); }
    bool attribute(string_view name, double val) { return set_number(name, val); }
    bool attribute(string_view name, const char *val) { return attribute(name, string_view(val ? val : "")); }
    bool attribute(string_view name, const std::string &val) { return attribute(name, string_view(val)); }
    bool attribute(string_view name, ustring val) { return attribute(name, string_view(val)); }

    bool attribute(string_view name, string_view val)
    {
        if (name == "options") return set_many(std::string(val));
        if (name == "searchpath") {
            std::lock_guard<std::mutex> guard(state_->lock);
            state_->searchpath = std::string(val);
            state_->paths++;
            return true;
        }
        if ((name == "plugin_searchpath" || name == "substitute_image") && val.empty()) return true;
        return says("there is no attribute " + std::string(name) + " that is a text");
    }

    bool getattribute(string_view name, TypeDesc type, void *val) const
    {
        double number;
        if (!val) return says(std::string(name) + ": the place for the value is NULL");
        if (type == TypeString) return getattribute(name, static_cast<char **>(val));
        if (!number_of(name, number)) return false;
        if (type == TypeInt) *static_cast<int *>(val) = int(number);
        else if (type == TypeFloat) *static_cast<float *>(val) = float(number);
        else if (type == TypeInt64 || type == TypeUInt64) *static_cast<std::int64_t *>(val) = std::int64_t(number);
        else return says(std::string(name) + ": it has no value of type " + type.c_str());
        return true;
    }

    bool getattribute(string_view name, int &val) const { return getattribute(name, TypeInt, &val); }
    bool getattribute(string_view name, float &val) const { return getattribute(name, TypeFloat, &val); }
    bool getattribute(string_view name, double &val) const { return number_of(name, val); }

    bool getattribute(string_view name, char **val) const
    {
        std::string text;
        if (!getattribute(name, text)) return false;
        *val = const_cast<char *>(ustring(text).c_str());
        return true;
    }

    bool getattribute(string_view name, std::string &val) const
    {
        if (name != "searchpath") return says("there is no attribute " + std::string(name) + " that is a text");
        std::lock_guard<std::mutex> guard(state_->lock);
        val = state_->searchpath;
        return true;
    }

    TypeDesc getattributetype(string_view name) const
    {
        double number;
        if (name == "searchpath") return TypeString;
        std::string kept = error();
        bool is_there = number_of(name, number);
        error() = kept;
        if (!is_there) return TypeUnknown;
        return name == "max_memory_MB" ? TypeFloat : name.substr(0, 5) == "stat:" ? TypeInt64 : TypeInt;
    }

    // What the cache has done, in words. From level 2 on with a line for each used file.
    std::string getstats(int level = 1, bool icstats = true) const
    {
        (void)icstats;
        std::lock_guard<std::mutex> guard(state_->lock);
        texcache *cache = state_->files.cache;
        std::size_t needed = 0;
        if (level < 1 || !cache) return std::string();
        texcache_statistics_text(cache, std::uint32_t(level), nullptr, 0, &needed);
        std::string text(needed + 1024, 0);
        texcache_statistics_text(cache, std::uint32_t(level), &text[0], text.size(), nullptr);
        return text.c_str();
    }

    // Counts go on: texcache has no call that sets them to 0.
    void reset_stats() {}

    // -- what texcache does not have does not compile

    template <class... Any> bool texture3d(Any &&...)
    {
        static_assert(detail::never<Any...>, "texcache_oiio: texcache has no 3D textures");
        return false;
    }
    template <class... Any> bool environment(Any &&...)
    {
        static_assert(detail::never<Any...>, "texcache_oiio: texcache has no environment maps");
        return false;
    }
    template <class... Any> bool shadow(Any &&...)
    {
        static_assert(detail::never<Any...>, "texcache_oiio: texcache has no shadow maps");
        return false;
    }
    template <class Any = void> void *imagecache() const
    {
        static_assert(detail::never<Any>, "texcache_oiio: texcache has no ImageCache; get_texels reads regions");
        return nullptr;
    }

private:
    // What the threads' own data need, which may outlive the system's object for a moment.
    struct State {
        std::uint64_t number = 0;
        std::mutex lock;   // guards what follows
        detail::Cache files;
        std::unordered_map<std::string, std::unique_ptr<TextureHandle>> handles;
        std::vector<std::unique_ptr<Perthread>> perthreads;
        std::deque<detail::Facts> facts;
        texcache_options options = texcache_default_options();
        std::string searchpath;
        std::atomic<int> gray_to_rgb{0}, flip_t{0};
        std::atomic<unsigned> paths{0};   // how often the search path was set

        // Ends what a thread has.
        void end(Perthread *thread_info)
        {
            std::lock_guard<std::mutex> guard(lock);
            for (auto it = perthreads.begin(); it != perthreads.end(); ++it) {
                if (it->get() != thread_info) continue;
                end_passes(*thread_info);
                perthreads.erase(it);
                return;
            }
        }

        static void end_passes(Perthread &thread)
        {
            if (thread.access_.pass && !thread.access_.lock) texcache_end(&thread.access_.pass);
        }

        // Ends all passes and closes the cache. No call may run.
        void close()
        {
            std::lock_guard<std::mutex> guard(lock);
            for (auto &it : perthreads) end_passes(*it);
            perthreads.clear();
            if (files.common) texcache_end(&files.common);
            if (files.cache) texcache_close(&files.cache);
        }
    };

    struct Shared {
        TextureSystem *system = nullptr;
        int count = 0;
    };

    // What the calling thread has of each system; it ends with the thread.
    struct ThreadsOwn {
        struct One {
            std::uint64_t number;
            std::weak_ptr<State> state;
            Perthread *perthread;
        };
        std::vector<One> of;
        ~ThreadsOwn()
        {
            for (const One &it : of)
                if (std::shared_ptr<State> state = it.state.lock()) state->end(it.perthread);
        }
    };

    typedef std::unordered_map<std::uint64_t, std::string> Errors;

    TextureSystem() : state_(std::make_shared<State>())
    {
        static std::atomic<std::uint64_t> made{0};
        state_->number = ++made;
        // as in OpenImageIO: levels are not generated unless the program asks for it
        state_->options.automip = false;
    }
    ~TextureSystem() { state_->close(); }

    static std::mutex &shared_lock()
    {
        static std::mutex lock;
        return lock;
    }

    static Shared &shared_system()
    {
        static Shared one;
        return one;
    }

    static ThreadsOwn &threads_own()
    {
        thread_local ThreadsOwn own;
        return own;
    }

    std::string &error() const
    {
        thread_local Errors errors;
        return errors[state_->number];
    }

    // Keeps an error text, as OpenImageIO a line for each, and returns false.
    bool says(const std::string &text) const
    {
        std::string &kept = error();
        if (kept.size() < 4096) kept += (kept.empty() ? "" : "\n") + text;
        return false;
    }

    static std::string name_of(const TextureHandle *handle) { return handle ? handle->name_.string() : "no texture"; }

    std::string why_not(const TextureHandle *handle) const
    {
        if (!handle) return "the texture handle is NULL";
        std::lock_guard<std::mutex> guard(state_->lock);
        return handle->error_;
    }

    // Why the thread's latest failed call failed, with the path as the program knows it.
    std::string latest(const TextureHandle &handle) const
    {
        const std::string text = texcache_last_error(), asked = detail::absolute(handle.path_);
        const char *known = texcache_file_name(state_->files.cache, handle.file_);
        for (string_view name : {string_view(asked), string_view(known ? known : "")})
            if (!name.empty() && text.compare(0, name.size(), name) == 0) return handle.path_ + text.substr(name.size());
        return handle.path_ + ": " + text;
    }

    // -- UDIM

    // The path of a tile's file, or an empty one.
    ustring path_of_tile(TextureHandle &set, std::uint32_t tile)
    {
        std::uint32_t file;
        if (texcache_udim_file(state_->files.cache, set.file_, tile, &file)) return ustring();
        return ustring(texcache_file_name(state_->files.cache, file));
    }

    // Stands for a tile without a file, until the set is checked again.
    static TextureHandle *no_tile()
    {
        static TextureHandle none;
        return &none;
    }

    // The handle of the tile at s and t; if it cannot be read NULL, and why.
    TextureHandle *tile_at(TextureHandle &set, Perthread *own, double s, double t, std::string &why)
    {
        const std::uint32_t tile = detail::tile_at(s, t);
        if (!tile) return why = name_of(&set) + ": there is no such tile", nullptr;
        std::atomic<TextureHandle *> &place = set.tiles_[tile - detail::first_tile];
        TextureHandle *found = place.load(std::memory_order_acquire);
        if (!found) {
            const ustring path = path_of_tile(set, tile);
            found = path.empty() ? no_tile() : handle_at(path, path.string(), own);
            place.store(found, std::memory_order_release);
        }
        if (good(found)) return found;
        why = found == no_tile() ? name_of(&set) + ": tile " + std::to_string(tile) + " has no file" : why_not(found);
        return nullptr;
    }

    // A lookup in a UDIM set: in the file of the tile, at the rest of s and t. Other files cannot be read.
    bool in_tile(TextureHandle *handle, Perthread *own, TextureOpt &options, detail::Place place, const detail::Result &to)
    {
        std::string why;
        if (!is_udim(handle)) return is_missing(handle, options, to);
        if (!(place.s - place.s == 0 && place.t - place.t == 0)) return fails(handle, "s or t is no finite number", options, to);
        TextureHandle *tile = tile_at(*handle, own, place.s, place.t, why);
        const detail::Facts *facts = tile ? tile->facts_.load(std::memory_order_acquire) : nullptr;
        if (!facts) {
            fill_all(options.fill, options.missingcolor, to);
            return options.missingcolor ? true : says(why);
        }
        place.s -= std::floor(place.s);
        place.t -= std::floor(place.t);
        return look_up(*tile, access(own), facts, options, place, to);
    }

    std::string why_no_set(const TextureHandle *handle) const
    {
        return handle && handle->facts_.load() ? name_of(handle) + ": this is no UDIM name" : why_not(handle);
    }

    // The numbers of the tiles of a set that have a file now.
    std::vector<std::uint32_t> tiles_of(TextureHandle &set)
    {
        std::vector<std::uint32_t> tiles(detail::last_tile - detail::first_tile + 1);
        std::size_t count = 0;
        texcache_udim_tiles(state_->files.cache, set.file_, tiles.data(), tiles.size(), &count);
        tiles.resize(count);
        return tiles;
    }

    // -- files

    // The paths that a name may mean: itself, and if it is relative in each folder of the search path.
    std::vector<std::string> paths_of(const std::string &filename) const
    {
        std::vector<std::string> found = {filename};
        if (filename.empty() || filename[0] == '/') return found;
        std::lock_guard<std::mutex> guard(state_->lock);
        const std::string &path = state_->searchpath;
        for (std::size_t at = 0; at < path.size();) {
            std::size_t end = std::min(path.find_first_of(":;", at), path.size());
            if (end > at) found.push_back(path.substr(at, end - at) + (path[end - 1] == '/' ? "" : "/") + filename);
            at = end + 1;
        }
        return found;
    }

    TextureHandle *handle_of(ustring filename, Perthread *own)
    {
        std::string path = resolve_filename(filename.string());
        if (detail::has_mark(filename) && !detail::is_file(path)) path = path_of_set(filename.string());
        return handle_at(filename, path, own);
    }

    // The first path of a UDIM name that has a tile; if none has, the name itself.
    std::string path_of_set(const std::string &pattern)
    {
        for (const std::string &it : paths_of(pattern)) {
            std::lock_guard<std::mutex> guard(state_->lock);
            std::uint32_t set;
            if (!opened() && !texcache_find(state_->files.cache, detail::absolute(it).c_str(), &set)) return it;
        }
        return pattern;
    }

    // The handle of a path, which is made at the first call.
    TextureHandle *handle_at(ustring filename, const std::string &path, Perthread *own)
    {
        TextureHandle *found;
        {
            std::lock_guard<std::mutex> guard(state_->lock);
            std::unique_ptr<TextureHandle> &place = state_->handles[path];
            if (!place) {
                place.reset(new TextureHandle);
                place->name_ = filename;
                place->path_ = path;
            }
            found = place.get();
        }
        std::call_once(found->is_opened_, [&] { open(*found, own); });
        return found;
    }

    // Finds the file in the cache, and what it is.
    void open(TextureHandle &handle, Perthread *own)
    {
        {
            std::lock_guard<std::mutex> guard(state_->lock);
            if (handle.file_ == detail::no_file) {
                std::uint32_t file;
                int status = opened();
                if (!status) status = texcache_find(state_->files.cache, detail::absolute(handle.path_).c_str(), &file);
                if (status) {
                    handle.error_ = latest(handle);
                    return;
                }
                handle.file_ = file;
                if (texcache_is_udim(state_->files.cache, file))
                    handle.tiles_.reset(new std::atomic<TextureHandle *>[detail::last_tile - detail::first_tile + 1]());
            }
        }
        if (handle.tiles_) open_set(handle, own);
        else refresh(handle, access(own));
    }

    // A set has the facts of its first tile that can be read.
    void open_set(TextureHandle &set, Perthread *own)
    {
        const detail::Facts *facts = nullptr;
        {
            std::lock_guard<std::mutex> guard(state_->lock);
            set.error_ = name_of(&set) + ": no tile of this UDIM name can be read";
        }
        for (std::uint32_t tile : tiles_of(set)) {
            const ustring path = path_of_tile(set, tile);
            TextureHandle *found = path.empty() ? nullptr : handle_at(path, path.string(), own);
            facts = found ? found->facts_.load(std::memory_order_acquire) : nullptr;
            std::lock_guard<std::mutex> guard(state_->lock);
            if (facts) break;
            if (found) set.error_ = found->error_;
        }
        set.facts_.store(facts, std::memory_order_release);
    }

    // Opens the cache if it is not open; the state's lock is held. Any file may be found, as in OpenImageIO.
    int opened()
    {
        detail::Cache &files = state_->files;
        if (files.cache) return TEXCACHE_OK;
        texcache_options options = state_->options;
        options.outside_paths = true;
        options.missing_ms = 0;   // handles remember what is missing, until they are checked again
        int status = texcache_open(&files.cache, ".", &options);
        if (!status) status = texcache_new_pass(files.cache, &files.common);
        if (status && files.cache) texcache_close(&files.cache);
        return status;
    }

    // Reads what the file is now; returns NULL if it cannot be read, and keeps why.
    const detail::Facts *refresh(TextureHandle &handle, detail::Access &by)
    {
        detail::Facts found;
        texcache_answer answer;
        int status = called(by, [&] { return texcache_get_info(by.pass, handle.file_, &found.info, &answer); });
        found.generation = answer.generation;
        std::lock_guard<std::mutex> guard(state_->lock);
        const detail::Facts *kept = handle.facts_.load();
        if (status) {
            handle.error_ = latest(handle);
            kept = nullptr;
        } else if (!kept || kept->generation != found.generation) {
            found.spec = spec_of(found.info);
            state_->facts.push_back(std::move(found));
            kept = &state_->facts.back();
        }
        handle.facts_.store(kept, std::memory_order_release);
        return kept;
    }

    void check_again(TextureHandle &handle, Perthread *own, bool force)
    {
        bool is_found;
        {
            std::lock_guard<std::mutex> guard(state_->lock);
            is_found = handle.file_ != detail::no_file;
        }
        if (is_found && handle.tiles_) check_tiles(handle, own, force);
        if (!is_found || handle.tiles_) {
            open(handle, own);
            return;
        }
        detail::Access &by = access(own);
        texcache_answer answer;
        int status = called(by, [&] { return texcache_invalidate(by.pass, handle.file_, force, &answer); });
        if (!status) {
            refresh(handle, by);
            return;
        }
        // what is cached of it would still be found
        says(latest(handle));
        std::lock_guard<std::mutex> guard(state_->lock);
        handle.error_ = latest(handle);
        handle.facts_.store(nullptr, std::memory_order_release);
    }

    void check_tiles(TextureHandle &set, Perthread *own, bool force)
    {
        for (std::uint32_t k = 0; k <= detail::last_tile - detail::first_tile; k++)
            if (TextureHandle *tile = set.tiles_[k].load(std::memory_order_acquire)) {
                if (tile == no_tile()) set.tiles_[k].store(nullptr, std::memory_order_release);
                else check_again(*tile, own, force);
            }
    }

    // -- passes

    detail::Access &access(Perthread *own)
    {
        if (!own->access_.pass) make_access(own);
        return own->access_;
    }

    // If all passes are taken, the other threads share one.
    void make_access(Perthread *own)
    {
        detail::Cache &files = state_->files;
        if (texcache_new_pass(files.cache, &own->access_.pass)) own->access_ = {files.common, &files.lock};
    }

    template <class Call> static int called(detail::Access &by, Call call)
    {
        if (!by.lock) return call();
        std::lock_guard<std::mutex> guard(*by.lock);
        return call();
    }

    // What the cache has read; the state's lock is held.
    texcache_statistics statistics() const
    {
        texcache_statistics found = texcache_statistics();
        std::lock_guard<std::mutex> guard(state_->files.lock);
        if (state_->files.common) texcache_stats(state_->files.common, &found);
        return found;
    }

    // -- lookups

    // Why a lookup with these options cannot be done, or NULL.
    static const char *refused(const TextureOpt &options)
    {
        if (options.interpmode == TextureOpt::InterpBicubic) return "InterpBicubic: texcache has no cubic filter";
        if (options.interpmode < TextureOpt::InterpClosest || options.interpmode > TextureOpt::InterpSmartBicubic)
            return "interpmode is out of range";
        if (options.mipmode < TextureOpt::MipModeDefault || options.mipmode > TextureOpt::MipModeStochasticAniso)
            return "mipmode is out of range";
        for (TextureOpt::Wrap it : {options.swrap, options.twrap}) {
            if (it == TextureOpt::WrapPeriodicSharedBorder) return "texcache has no wrap PeriodicSharedBorder";
            if (it < TextureOpt::WrapDefault || it >= TextureOpt::WrapLast) return "a wrap is out of range";
        }
        if (options.subimage || !options.subimagename.empty()) return "a file of texcache has one subimage, number 0";
        if (options.firstchannel < 0) return "firstchannel is below 0";
        return nullptr;
    }

    static std::uint32_t wrap_of(TextureOpt::Wrap wrap)
    {
        static const std::uint32_t wraps[] = {TEXCACHE_BLACK, TEXCACHE_BLACK, TEXCACHE_CLAMP, TEXCACHE_PERIODIC,
                                              TEXCACHE_MIRROR, TEXCACHE_PERIODIC};
        return wraps[wrap];
    }

    // Fills a result for which there are no texels.
    static void fill_all(float fill, const float *colors, const detail::Result &to)
    {
        for (int c = 0; c < to.nchannels; c++) {
            if (to.values) to.values[c * to.step] = colors ? colors[c] : fill;
            if (to.ds) to.ds[c * to.step] = 0;
            if (to.dt) to.dt[c * to.step] = 0;
        }
    }

    bool fails(const TextureHandle *handle, const char *why, const TextureOpt &options, const detail::Result &to) const
    {
        fill_all(options.fill, nullptr, to);
        return says(name_of(handle) + ": " + (why ? why : "an argument is NULL, or nchannels is below 1"));
    }

    bool is_missing(const TextureHandle *handle, const TextureOpt &options, const detail::Result &to) const
    {
        fill_all(options.fill, options.missingcolor, to);
        return options.missingcolor ? true : says(why_not(handle));
    }

    static bool is_aniso(const TextureOpt &options)
    {
        return options.mipmode == TextureOpt::MipModeDefault || options.mipmode == TextureOpt::MipModeAniso
               || options.mipmode == TextureOpt::MipModeStochasticAniso;
    }

    // The place as the library takes it. Returns false if s or t is no number.
    bool adjust(detail::Place &p, const TextureOpt &options) const
    {
        if (!(p.s - p.s == 0 && p.t - p.t == 0)) return false;
        if (state_->flip_t.load(std::memory_order_relaxed)) p.t = 1 - p.t, p.dtdx = -p.dtdx, p.dtdy = -p.dtdy;
        p.s = detail::near_image(p.s, wrap_of(options.swrap)), p.t = detail::near_image(p.t, wrap_of(options.twrap));
        p.dsdx = detail::bounded(p.dsdx * options.swidth), p.dsdy = detail::bounded(p.dsdy * options.swidth);
        p.dtdx = detail::bounded(p.dtdx * options.twidth), p.dtdy = detail::bounded(p.dtdy * options.twidth);
        return true;
    }

    static bool is_point(const detail::Place &p) { return p.dsdx == 0 && p.dtdx == 0 && p.dsdy == 0 && p.dtdy == 0; }

    // How many channels have to be read: from 0 on, because lookups begin there.
    static std::uint32_t channels_of(const texcache_info &info, const TextureOpt &options, int nchannels)
    {
        std::uint64_t last = std::uint64_t(options.firstchannel) + std::uint64_t(nchannels);
        return std::uint32_t(std::max<std::uint64_t>(1, std::min<std::uint64_t>(last, info.channels)));
    }

    // Values of the channels from 0 on as the caller's floats; `missing` is for channels that the file does not have.
    template <class Value, class Convert>
    void put(const texcache_info &info, int from, const Value *values, float *to, int nchannels, int step, float missing,
             Convert convert) const
    {
        int has = int(info.channels);
        for (int c = 0; c < nchannels; c++) to[c * step] = from + c < has ? convert(values[from + c]) : missing;
        if (has == 1 && from == 0 && state_->gray_to_rgb.load(std::memory_order_relaxed))
            for (int c = 1; c < std::min(nchannels, 3); c++) to[c * step] = to[0];
    }

    void put_values(const texcache_info &info, const TextureOpt &options, const std::uint16_t *values,
                    const detail::Result &to) const
    {
        put(info, options.firstchannel, values, to.values, to.nchannels, to.step, options.fill,
            [](std::uint16_t it) { return float(it) / 65535.0f; });
    }

    void put_slopes(const texcache_info &info, const TextureOpt &options, const float *ds, const float *dt,
                    const detail::Result &to) const
    {
        float down = state_->flip_t.load(std::memory_order_relaxed) ? -1.0f : 1.0f;
        if (to.ds) put(info, options.firstchannel, ds, to.ds, to.nchannels, to.step, 0, [](float it) { return it; });
        if (to.dt) put(info, options.firstchannel, dt, to.dt, to.nchannels, to.step, 0, [=](float it) { return down * it; });
    }

    // A usual lookup in the largest level, with as few steps as possible. Returns false, and has done nothing, if anything is
    // not usual or fails.
    bool is_quick(TextureHandle &handle, Perthread *own, const detail::Facts &facts, const TextureOpt &options, float s,
                  float t, const detail::Result &to) const
    {
        std::uint16_t values[8];
        texcache_answer answer;
        bool is_near = s >= -16000 && s <= 16000 && t >= -16000 && t <= 16000;
        const detail::Access &by = own->access_;
        if (!by.pass || by.lock || !is_near || state_->flip_t.load(std::memory_order_relaxed)) return false;
        texcache_texture_options &how = own->how_;
        how.swrap = wrap_of(options.swrap), how.twrap = wrap_of(options.twrap);
        how.channels = channels_of(facts.info, options, to.nchannels);
        how.filter = options.interpmode == TextureOpt::InterpClosest ? TEXCACHE_CLOSEST : TEXCACHE_BILINEAR;
        if (texcache_texture(by.pass, handle.file_, &how, s, t, values, 8, &answer)) return false;
        if (answer.generation != facts.generation) return false;
        put_values(facts.info, options, values, to);
        return true;
    }

    // One lookup.
    bool look_up(TextureHandle &handle, detail::Access &by, const detail::Facts *facts, const TextureOpt &options,
                 detail::Place place, const detail::Result &to)
    {
        if (!adjust(place, options)) return fails(&handle, "s or t is no finite number", options, to);
        for (int tries = 0;; tries++) {
            std::uint16_t values[8];
            float ds[8] = {0}, dt[8] = {0};
            texcache_answer answer, sloped;
            detail::Sampling how = sampling(facts->info, options, place, to.nchannels);
            int status = called(by, [&] { return values_of(handle, by.pass, how, values, answer); });
            sloped.generation = answer.generation;
            if (!status && (to.ds || to.dt)) status = called(by, [&] { return slopes_of(handle, by.pass, how, ds, dt, sloped); });
            if (status) {
                fill_all(options.fill, options.missingcolor, to);
                return options.missingcolor ? true : says(latest(handle));
            }
            if ((answer.generation == facts->generation && sloped.generation == facts->generation) || tries == 8) {
                put_values(facts->info, options, values, to);
                put_slopes(facts->info, options, ds, dt, to);
                return true;
            }
            // the file was replaced, and may have other channels and levels
            facts = refresh(handle, by);
            if (!facts) return is_missing(&handle, options, to);
        }
    }

    // What a lookup reads: its filter and its levels.
    static detail::Sampling sampling(const texcache_info &info, const TextureOpt &options, const detail::Place &place,
                                     int nchannels)
    {
        detail::Sampling to;
        detail::Place &p = to.at = place;
        bool is_closest = options.interpmode == TextureOpt::InterpClosest, has_blur = options.sblur != 0 || options.tblur != 0;
        to.how.swrap = wrap_of(options.swrap), to.how.twrap = wrap_of(options.twrap);
        to.how.channels = channels_of(info, options, nchannels);
        to.how.filter = is_closest ? TEXCACHE_CLOSEST : TEXCACHE_BILINEAR;
        if (options.mipmode == TextureOpt::MipModeNoMIP || (!has_blur && is_point(p))) return to;
        if (is_aniso(options)) {
            detail::shape(p, options.sblur, options.tblur, std::max(options.anisotropic, 1));
            p.dsdx = detail::bounded(p.dsdx), p.dtdx = detail::bounded(p.dtdx);
            p.dsdy = detail::bounded(p.dsdy), p.dtdy = detail::bounded(p.dtdy);
        }
        to.is_footprint = is_aniso(options) && !is_closest && options.anisotropic > 1;
        to.how.max_probes = std::uint32_t(std::min(std::max(options.anisotropic, 1), 32));
        if (to.is_footprint) return to;
        double width = is_aniso(options) ? detail::axes_of(p, false).minor : width_of(p, options);
        to.levels = detail::levels_of(info, width, options.mipmode == TextureOpt::MipModeOneLevel);
        to.is_blended = is_closest && to.levels.blend != 0;
        to.how.lod = to.levels.first + to.levels.blend;
        if (!is_closest && to.levels.blend != 0) to.how.filter = TEXCACHE_TRILINEAR;
        return to;
    }

    static int values_of(TextureHandle &handle, texcache_pass *pass, detail::Sampling &by, std::uint16_t *values,
                         texcache_answer &answer)
    {
        const detail::Place &p = by.at;
        if (by.is_blended) return blended(handle, pass, by, values, answer);
        if (!by.is_footprint) return texcache_texture(pass, handle.file_, &by.how, p.s, p.t, values, 8, &answer);
        return texcache_texture_footprint(pass, handle.file_, &by.how, p.s, p.t, p.dsdx, p.dtdx, p.dsdy, p.dtdy, values, 8,
                                          &answer);
    }

    // How much the values change per image across and down. The nearest texels have no slope.
    static int slopes_of(TextureHandle &handle, texcache_pass *pass, const detail::Sampling &by, float *ds, float *dt,
                         texcache_answer &answer)
    {
        const detail::Place &p = by.at;
        float values[8];
        if (by.how.filter == TEXCACHE_CLOSEST) return TEXCACHE_OK;
        texcache_results results = texcache_results();
        results.size = sizeof results, results.type = TEXCACHE_FLOAT, results.room = 8;
        results.values = values, results.dresultds = ds, results.dresultdt = dt;
        bool d = by.is_footprint;
        texcache_coordinates at = {&p.s, &p.t, d ? &p.dsdx : nullptr, d ? &p.dtdx : nullptr, d ? &p.dsdy : nullptr,
                                   d ? &p.dtdy : nullptr, 1};
        return texcache_texture_results(pass, handle.file_, &by.how, &at, 1, &results, nullptr, &answer);
    }

    // The width of a lookup without anisotropy.
    static double width_of(const detail::Place &p, const TextureOpt &options)
    {
        double across = std::max(std::fabs(p.dsdx), std::fabs(p.dsdy)), down = std::max(std::fabs(p.dtdx), std::fabs(p.dtdy));
        double width = options.conservative_filter ? std::max(across, down) : std::min(across, down);
        return width + std::max(options.sblur, options.tblur);
    }

    // The nearest texels of two levels, weighted.
    static int blended(TextureHandle &handle, texcache_pass *pass, detail::Sampling &by, std::uint16_t *values,
                       texcache_answer &answer)
    {
        std::uint16_t coarse[8];
        std::uint32_t generation;
        do {
            by.how.lod = by.levels.first;
            int status = texcache_texture(pass, handle.file_, &by.how, by.at.s, by.at.t, values, 8, &answer);
            if (status) return status;
            generation = answer.generation;
            by.how.lod = by.levels.second;
            status = texcache_texture(pass, handle.file_, &by.how, by.at.s, by.at.t, coarse, 8, &answer);
            if (status) return status;
        } while (answer.generation != generation);
        for (std::uint32_t c = 0; c < by.how.channels; c++)
            values[c] = std::uint16_t(values[c] + by.levels.blend * (double(coarse[c]) - values[c]) + 0.5);
        return TEXCACHE_OK;
    }

    // -- batches

    // All lookups of a batch in one call of the library, if none needs a level of its own. Returns false if they are to be
    // made one by one, for that reason or because something failed.
    bool together(TextureHandle &handle, Perthread *own, const detail::Facts *facts, const TextureOptBatch &options,
                  const TextureOpt &first, Tex::RunMask mask, const float *const (&in)[6], int nchannels, float *result)
    {
        constexpr int W = Tex::BatchWidth;
        double at[W][6];
        int lane[W], count = 0;
        bool all_points = true;
        for (int i = 0; i < W; i++) {
            if (!(mask >> i & 1)) continue;
            TextureOpt one = first;
            one.swidth = options.swidth[i], one.twidth = options.twidth[i];
            detail::Place p = {in[0][i], in[1][i], in[2][i], in[3][i], in[4][i], in[5][i]};
            if (options.sblur[i] != 0 || options.tblur[i] != 0 || !adjust(p, one)) return false;
            all_points &= is_point(p);
            if (!is_point(p) && is_aniso(first)) detail::shape(p, 0, 0, std::max(first.anisotropic, 1));
            const double all[6] = {p.s, p.t, p.dsdx, p.dtdx, p.dsdy, p.dtdy};
            std::copy(all, all + 6, at[count]);
            lane[count++] = i;
        }
        if (!count) return true;
        bool is_closest = first.interpmode == TextureOpt::InterpClosest;
        bool as_points = first.mipmode == TextureOpt::MipModeNoMIP || all_points;
        if (!as_points && (is_closest || !is_aniso(first) || first.anisotropic < 2)) return false;
        std::uint16_t values[W * 8];
        texcache_answer answer;
        texcache_texture_options how = detail::usual;
        how.swrap = wrap_of(first.swrap), how.twrap = wrap_of(first.twrap);
        how.channels = channels_of(facts->info, first, nchannels);
        how.filter = is_closest ? TEXCACHE_CLOSEST : TEXCACHE_BILINEAR;
        how.max_probes = std::uint32_t(std::min(std::max(first.anisotropic, 1), 32));
        const double *d = as_points ? nullptr : at[0] + 2;
        texcache_coordinates places = {at[0], at[0] + 1, d, d ? d + 1 : d, d ? d + 2 : d, d ? d + 3 : d, 6};
        detail::Access &by = access(own);
        int status = called(by, [&] {
            return texcache_texture_many(by.pass, handle.file_, &how, &places, std::size_t(count), values, W * 8, nullptr,
                                         &answer); });
        if (status || answer.generation != facts->generation) return false;
        for (int k = 0; k < count; k++)
            put_values(facts->info, first, values + std::size_t(k) * how.channels, {result + lane[k], nullptr, nullptr, nchannels, W});
        return true;
    }

    // -- regions

    bool texels(TextureHandle &handle, detail::Access &by, const texcache_region &region, int chbegin, int chend,
                TypeDesc format, void *result)
    {
        std::vector<std::uint16_t> values;
        texcache_answer answer;
        int status;
        std::uint64_t count = std::uint64_t(region.w) * region.h;
        do {
            status = called(by, [&] {
                return texcache_get_pixels(by.pass, handle.file_, &region, values.data(), values.size(), &answer); });
            if (status == TEXCACHE_SMALL_BUFFER) values.resize(std::size_t(answer.value));
        } while (status == TEXCACHE_SMALL_BUFFER);
        if (status) return says(latest(handle));
        int channels = int(answer.channels), wanted = chend - chbegin;
        for (std::uint64_t n = 0; n < count; n++)
            for (int c = 0; c < wanted; c++) {
                std::uint16_t value = chbegin + c < channels ? values[n * std::uint64_t(channels) + std::uint64_t(chbegin + c)] : 0;
                std::uint64_t to = n * std::uint64_t(wanted) + std::uint64_t(c);
                if (format == TypeUInt16) static_cast<std::uint16_t *>(result)[to] = value;
                else if (format == TypeUInt8) static_cast<std::uint8_t *>(result)[to] = std::uint8_t((value + 128) / 257);
                else static_cast<float *>(result)[to] = texcache_float(value);
            }
        return true;
    }

    static bool put_ints(void *data, const std::vector<int> &values)
    {
        std::copy(values.begin(), values.end(), static_cast<int *>(data));
        return true;
    }

    static ImageSpec spec_of(const texcache_info &info)
    {
        ImageSpec spec;
        spec.width = spec.full_width = int(info.width);
        spec.height = spec.full_height = int(info.height);
        spec.nchannels = int(info.channels);
        spec.format = info.depth == 8 ? TypeUInt8 : TypeUInt16;
        static const char *const names[] = {"R", "G", "B", "A"};
        for (int c = 0; c < spec.nchannels; c++)
            spec.channelnames.push_back(spec.nchannels == 1 ? "Y" : c < 4 ? names[c] : "channel" + std::to_string(c));
        if (spec.nchannels == 4) spec.alpha_channel = 3;
        return spec;
    }

    // -- attributes

    // Sets an option of the cache, which has to be made yet.
    bool set_number(string_view name, double value)
    {
        if (name == "gray_to_rgb" || name == "flip_t") {
            (name == "flip_t" ? state_->flip_t : state_->gray_to_rgb) = value != 0;
            return true;
        }
        // what texcache always does, or never
        static const struct {
            const char *name;
            double value;
        } fixed[] = {{"accept_untiled", 1}, {"accept_unmipped", 1}, {"forcefloat", 0}, {"deduplicate", 0}, {"stochastic", 0},
                     {"autoscanline", 0}, {"unassociatedalpha", 1}};
        for (const auto &it : fixed)
            if (name == it.name)
                return value == it.value ? true
                                         : says(std::string(name) + " is always " + std::to_string(int(it.value)));
        std::unique_lock<std::mutex> guard(state_->lock);
        texcache_options changed = state_->options;
        const char *range = changed_by(changed, name, value);
        bool is_known = range, is_in_range = range && !*range;
        const texcache_options &o = state_->options;
        bool is_same = changed.budget == o.budget && changed.handles == o.handles && changed.autotile == o.autotile
                       && changed.automip == o.automip;
        if (is_in_range && (!state_->files.cache || is_same)) {
            state_->options = changed;
            return true;
        }
        guard.unlock();
        if (!is_known) return says("there is no attribute " + std::string(name) + " that is a number");
        if (!is_in_range) return says(std::string(name) + " is out of range: " + range);
        return says(std::string(name) + " cannot change any more: the cache is open. Set it before the first file is opened");
    }

    // Changes an option. Returns an empty text; or the range, if the value is not in it; or NULL for an unknown name.
    static const char *changed_by(texcache_options &options, string_view name, double value)
    {
        if (name == "max_memory_MB") {
            if (!(value >= 0 && value <= 4096)) return "0 to 4096";
            options.budget = std::uint64_t(value * 1048576);
        } else if (name == "max_open_files") {
            if (!(value >= 1 && value <= 1024)) return "1 to 1024";
            options.handles = std::uint32_t(value);
        } else if (name == "autotile") {
            if (!(value >= 0 && value <= 4096) || std::fmod(value, 16) != 0) return "0, or a multiple of 16 up to 4096";
            options.autotile = std::uint32_t(value);
        } else if (name == "automip") {
            options.automip = value != 0;
        } else {
            return nullptr;
        }
        return "";
    }

    // Attributes of the form name=value,name="a,b".
    bool set_many(const std::string &text)
    {
        bool is_good = true;
        for (std::size_t at = 0; at < text.size();) {
            std::size_t equals = text.find('=', at);
            if (equals == std::string::npos) return says("options: no = in " + text.substr(at));
            std::string name = text.substr(at, equals - at), value;
            char quote = equals + 1 < text.size() && (text[equals + 1] == '"' || text[equals + 1] == '\'') ? text[equals + 1] : 0;
            std::size_t from = equals + (quote ? 2 : 1), end = std::min(text.find(quote ? quote : ',', from), text.size());
            value = text.substr(from, end - from);
            at = quote ? std::min(text.find(',', end), text.size()) + 1 : end + 1;
            name.erase(0, name.find_first_not_of(' '));
            char *rest = nullptr;
            double number = std::strtod(value.c_str(), &rest);
            bool is_number = !value.empty() && rest && !*rest;
            is_good &= is_number ? set_number(name, number) : attribute(name, string_view(value));
        }
        return is_good;
    }

    // The value of an attribute or of a count.
    bool number_of(string_view name, double &value) const
    {
        std::unique_lock<std::mutex> guard(state_->lock);
        const texcache_options &o = state_->options;
        if (name == "max_memory_MB") value = double(o.budget) / 1048576;
        else if (name == "max_open_files") value = o.handles;
        else if (name == "autotile") value = o.autotile;
        else if (name == "automip") value = o.automip;
        else if (name == "gray_to_rgb") value = state_->gray_to_rgb;
        else if (name == "flip_t") value = state_->flip_t;
        else if (name == "accept_untiled" || name == "accept_unmipped" || name == "unassociatedalpha") value = 1;
        else if (name == "forcefloat" || name == "deduplicate" || name == "stochastic" || name == "autoscanline") value = 0;
        else if (name == "total_files" || name == "stat:unique_files") value = double(state_->handles.size());
        else if (name == "stat:bytes_read" || name == "stat:open_files_created") {
            const texcache_statistics found = statistics();
            value = double(name == "stat:bytes_read" ? found.bytes : found.opens);
        } else {
            guard.unlock();
            return says("there is no attribute " + std::string(name) + " that is a number");
        }
        return true;
    }

    std::shared_ptr<State> state_;
};

}  // namespace texcache_oiio

template <> struct std::hash<texcache_oiio::ustring> {
    std::size_t operator()(const texcache_oiio::ustring &text) const noexcept { return text.hash(); }
};

#endif
