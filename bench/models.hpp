// The models that are timed: bytes of the project's model format, always the same ones.
#pragma once
#include <cmath>
#include <cstdint>
#include <string>
#include <vector>

using Bytes = std::vector<std::uint8_t>;

constexpr int SIDE = 400;
constexpr std::uint32_t MOST = 1000000;

// Random numbers from a fixed seed (splitmix64).
struct Random {
    std::uint64_t state;
    std::uint64_t next() {
        std::uint64_t z = (state += 0x9e3779b97f4a7c15u);
        z = (z ^ (z >> 30)) * 0xbf58476d1ce4e5b9u;
        z = (z ^ (z >> 27)) * 0x94d049bb133111ebu;
        return z ^ (z >> 31);
    }
    std::uint32_t below(std::uint32_t end) { return next() % end; }
};

inline void put(Bytes &bytes, std::uint32_t value, int size) {
    for (int i = 0; i < size; i++) bytes.push_back(value >> (8 * i) & 255);
}

// A model of these heights, with some rain everywhere and one drain among a thousand cells.
inline Bytes model_of(const std::vector<std::uint32_t> &heights) {
    Random random{7};
    Bytes bytes;
    put(bytes, SIDE, 2);
    put(bytes, SIDE, 2);
    for (std::uint32_t height : heights) {
        put(bytes, height, 4);
        put(bytes, random.below(1000), 4);
        put(bytes, random.below(1000) == 0, 1);
    }
    return bytes;
}

// Each height by itself.
inline std::vector<std::uint32_t> random_heights() {
    Random random{1};
    std::vector<std::uint32_t> heights(SIDE * SIDE);
    for (auto &height : heights) height = random.below(MOST + 1);
    return heights;
}

// Hills and valleys of every size: midpoint displacement on 513 by 513 points, of which a part is taken.
inline std::vector<std::uint32_t> fractal_heights() {
    constexpr int N = 512;
    Random random{2};
    std::vector<double> field((N + 1) * (N + 1), 0.0);
    auto at = [&](int r, int x) -> double & { return field[r * (N + 1) + x]; };
    double swing = 200000;
    auto shift = [&] { return swing * (random.below(20001) / 10000.0 - 1); };
    for (int step = N; step > 1; step /= 2, swing *= 0.55) {
        int half = step / 2;
        for (int r = half; r < N; r += step)
            for (int x = half; x < N; x += step)
                at(r, x) = (at(r - half, x - half) + at(r - half, x + half) + at(r + half, x - half) + at(r + half, x + half)) / 4 + shift();
        for (int r = 0; r <= N; r += half)
            for (int x = (r / half) % 2 ? 0 : half; x <= N; x += step) {
                double sum = 0;
                int count = 0;
                if (r >= half) sum += at(r - half, x), count++;
                if (x >= half) sum += at(r, x - half), count++;
                if (x + half <= N) sum += at(r, x + half), count++;
                if (r + half <= N) sum += at(r + half, x), count++;
                at(r, x) = sum / count + shift();
            }
    }
    std::vector<std::uint32_t> heights;
    for (int r = 0; r < SIDE; r++)
        for (int x = 0; x < SIDE; x++)
            heights.push_back(std::fmin(std::fmax(at(r + 50, x + 50) + 500000, 0), MOST));
    return heights;
}

// One hollow, lowest in the middle.
inline std::vector<std::uint32_t> bowl_heights() {
    std::vector<std::uint32_t> heights;
    for (int r = 0; r < SIDE; r++)
        for (int x = 0; x < SIDE; x++)
            heights.push_back((r - SIDE / 2) * (r - SIDE / 2) + (x - SIDE / 2) * (x - SIDE / 2));
    return heights;
}

// All cells equally high.
inline std::vector<std::uint32_t> flat_heights() { return std::vector<std::uint32_t>(SIDE * SIDE, 5000); }

struct Named {
    std::string name;
    Bytes bytes;
};

inline std::vector<Named> all_models() {
    return {{"random", model_of(random_heights())},
            {"fractal", model_of(fractal_heights())},
            {"bowl", model_of(bowl_heights())},
            {"flat", model_of(flat_heights())}};
}
