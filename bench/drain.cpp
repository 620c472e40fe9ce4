// The drain program in C++: reads a model, drains it, and prints the lines that target/bin/drain prints.
#include "floods.hpp"
#include <cstdio>
#include <string>
#include <vector>

int main(int argc, char **argv) {
    std::FILE *file = argc == 2 ? std::fopen(argv[1], "rb") : nullptr;
    if (!file) return 1;
    std::vector<std::uint8_t> bytes;
    std::uint8_t part[65536];
    for (std::size_t got; (got = std::fread(part, 1, sizeof part, file)) > 0;) bytes.insert(bytes.end(), part, part + got);
    std::fclose(file);

    View view;
    if (read(bytes.data(), bytes.size(), view).refused) return 1;
    const std::uint32_t n = view.count();
    Slices out(n, 0);
    Heap queue(n);
    queue.start(view);
    flood(view, out, queue);
    const Answer answer = pour(view, out);

    std::string text = "cells " + std::to_string(n) + " rain " + std::to_string(answer.rain) + " leaves " + std::to_string(answer.leaves) + "\n";
    for (std::uint32_t c = 0; c < n; c++)
        if (out.levels[c] > view.height(c)) text += "level " + std::to_string(c) + " " + std::to_string(out.levels[c]) + "\n";
    for (std::uint32_t c = 0; c < n; c++)
        if (out.flow[c] == NONE && out.amounts[c] > view.rain(c)) text += "exit " + std::to_string(c) + " amount " + std::to_string(out.amounts[c]) + "\n";
    return std::fwrite(text.data(), 1, text.size(), stdout) == text.size() ? 0 : 1;
}
