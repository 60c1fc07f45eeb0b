// The lookups of embedded.c through OpenImageIO's TextureSystem: oiio_lookups FOLDER NAME THREADS LOOKUPS, bilinear
// without levels, three channels, with a handle and a record for each thread. Prints nanoseconds a lookup, of the whole
// time of all threads side by side.
#include <OpenImageIO/texture.h>

#include <atomic>
#include <chrono>
#include <cstdio>
#include <cstdlib>
#include <string>
#include <thread>
#include <vector>

using namespace OIIO;

int main(int count, char **words)
{
    if (count != 5) return 2;
    TextureSystem *system = TextureSystem::create(false);
    system->attribute("max_memory_MB", 256.0f);
    ustring name(std::string(words[1]) + "/" + words[2]);
    int threads = std::atoi(words[3]);
    long lookups = std::atol(words[4]);
    std::vector<double> sums(threads);
    std::atomic<int> ready{0};
    std::atomic<bool> begins{false};
    std::vector<std::thread> workers;
    for (int i = 0; i < threads; i++)
        workers.emplace_back([&, i] {
            TextureSystem::Perthread *own = system->get_perthread_info();
            TextureSystem::TextureHandle *file = system->get_texture_handle(name, own);
            TextureOpt options;
            options.swrap = options.twrap = TextureOpt::WrapPeriodic;
            options.interpmode = TextureOpt::InterpBilinear;
            options.mipmode = TextureOpt::MipModeNoMIP;
            float rgb[3];
            double total = 0;
            auto look = [&](long n) {
                float s = (4000 + (n & 1023)) / 65536.0f, t = (4000 + (n >> 10 & 1023)) / 65536.0f;
                if (!system->texture(file, own, options, s, t, 0, 0, 0, 0, 3, rgb)) {
                    std::fprintf(stderr, "oiio_lookups: %s\n", system->geterror().c_str());
                    std::exit(1);
                }
                total += rgb[0] + rgb[1] + rgb[2];
            };
            look(0);
            ready++;
            while (!begins) std::this_thread::yield();
            for (long n = 0; n < lookups; n++) look(n);
            sums[i] = total;
        });
    while (ready < threads) std::this_thread::yield();
    auto began = std::chrono::steady_clock::now();
    begins = true;
    for (auto &it : workers) it.join();
    double took = std::chrono::duration<double, std::nano>(std::chrono::steady_clock::now() - began).count();
    std::printf("threads %d lookups %ld ns %.1f sum %.0f\n", threads, lookups, took / lookups, sums[0] * 65535);
    return 0;
}
