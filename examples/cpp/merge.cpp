// DNG files are merged on the sharpest of the first three, from C++17: merge WIDTH HEIGHT OUTPUT.pgm FILE.dng...
//     cmake -S examples/cpp -B target/cpp -DCMAKE_PREFIX_PATH=PREFIX && cmake --build target/cpp
#include <stacker.h>

#include <algorithm>
#include <cstdlib>
#include <exception>
#include <fstream>
#include <iostream>
#include <iterator>
#include <stdexcept>
#include <string>
#include <vector>

// A refusal as an exception: nothing has changed.
static void accepted(const std::string &what, std::uint64_t refusal)
{
    if (refusal != STACKER_ACCEPTED)
        throw std::runtime_error(what + ": refused " + std::to_string(refusal) + ": " + stacker_refusal_text(refusal));
}

static std::vector<std::uint8_t> contents(const std::string &path)
{
    std::ifstream file(path, std::ios::binary);
    if (!file)
        throw std::runtime_error(path + ": cannot be read");
    return { std::istreambuf_iterator<char>(file), std::istreambuf_iterator<char>() };
}

struct Burst {
    stacker_frames frames;
    stacker_noise noise;
    std::vector<std::uint16_t> samples;
};

// Noise and black levels are the first file's.
static Burst read_frames(std::uint64_t width, std::uint64_t height, const std::vector<std::string> &paths)
{
    Burst burst{ STACKER_FRAMES(width, height, paths.size()), STACKER_NOISE(0, 0), std::vector<std::uint16_t>(paths.size() * width * height) };
    for (std::size_t i = 0; i < paths.size(); i++) {
        const auto file = contents(paths[i]);
        const stacker_dng dng = stacker_read_dng(file.data(), file.size(), burst.frames, i, burst.samples.data(), burst.samples.size());
        accepted(paths[i], dng.refusal);
        if (i == 0) {
            burst.noise = stacker_noise STACKER_NOISE(dng.shot, dng.read);
            std::copy(std::begin(dng.black), std::end(dng.black), burst.frames.black);
        }
    }
    return burst;
}

static void write_frame(const std::string &path, std::uint64_t width, std::uint64_t height, const std::vector<std::uint16_t> &frame)
{
    std::vector<std::uint8_t> bytes(stacker_pgm_length(width, height));
    accepted(path, stacker_write_pgm(width, height, frame.data(), frame.size(), bytes.data(), bytes.size()));
    std::ofstream file(path, std::ios::binary);
    if (!file.write(reinterpret_cast<const char *>(bytes.data()), static_cast<std::streamsize>(bytes.size())).flush())
        throw std::runtime_error(path + ": cannot be written");
}

static void merge(std::uint64_t width, std::uint64_t height, const std::string &output, const std::vector<std::string> &paths)
{
    const Burst burst = read_frames(width, height, paths);
    const stacker_tuning tuning = STACKER_TUNING(600);
    std::vector<std::int32_t> vectors((paths.size() - 1) * 2 * (width / tuning.side + 1) * (height / tuning.side + 1));
    std::vector<std::uint16_t> merged(width * height);
    std::vector<std::int64_t> work(2 * width * height);
    const stacker_choice choice = stacker_run_sharpest(burst.frames, burst.noise, tuning, burst.samples.data(), burst.samples.size(), vectors.data(),
        vectors.size(), merged.data(), merged.size(), work.data(), work.size());
    accepted("merge", choice.alignment.refusal);
    write_frame(output, width, height, merged);
    std::cout << "merged on frame " << choice.reference << '\n';
}

int main(int argc, char **argv)
{
    const std::vector<std::string> words(argv, argv + argc);
    if (argc < 5) {
        std::cerr << "usage: merge WIDTH HEIGHT OUTPUT.pgm FILE.dng...\n";
        return 2;
    }
    try {
        merge(std::stoull(words[1]), std::stoull(words[2]), words[3], { words.begin() + 4, words.end() });
        return 0;
    } catch (const std::exception &error) {
        std::cerr << error.what() << '\n';
        return 1;
    }
}
