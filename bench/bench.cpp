// Times the proved drain beside two in C++ on four models, after it has seen that their results agree.
#include "floods.hpp"
#include "models.hpp"
#include <chrono>
#include <cstdio>
#include <cstdlib>
#include <fcntl.h>
#include <fstream>
#include <iterator>
#include <numeric>
#include <string>
#include <sys/wait.h>
#include <unistd.h>
#include <vector>

// The proved drain, from crates/bench_api/out/libbench_api.a; a slice is passed as its start and its length.
extern "C" Answer zaefmoln_drain(const std::uint8_t *, std::size_t, std::uint32_t *, std::size_t, std::uint32_t *, std::size_t,
                                 std::uint64_t *, std::size_t, std::uint64_t *, std::size_t);

// What applying a row of changes answers: 0 or why it failed, the number of changes answered, the place of a refusal.
struct RowAnswer {
    std::uint32_t failed;
    std::size_t answers, place;
};

// A drain and a row of changes, from the same library; the last slice is the text of the row.
extern "C" RowAnswer zaefmoln_change(std::uint8_t *, std::size_t, std::uint32_t *, std::size_t, std::uint32_t *, std::size_t,
                                     std::uint64_t *, std::size_t, std::uint64_t *, std::size_t, const char *, std::size_t);

constexpr int CALL_ROUNDS = 60;
constexpr int PROGRAM_ROUNDS = 20;
constexpr int CHANGES = 1000;
constexpr std::size_t CELLS = SIDE * SIDE;

[[noreturn]] void fail(const std::string &why) {
    std::fprintf(stderr, "bench: %s\n", why.c_str());
    std::exit(1);
}

// One way of draining with its memory, which is there before anything is timed.
struct Proved {
    Slices out{CELLS, CELLS};
    RowAnswer change(Bytes &b, const std::string &row) {
        return zaefmoln_change(b.data(), b.size(), out.levels.data(), out.levels.size(), out.flow.data(), out.flow.size(),
                               out.amounts.data(), out.amounts.size(), out.work.data(), out.work.size(), row.data(), row.size());
    }
    Answer run(const Bytes &b) {
        return zaefmoln_drain(b.data(), b.size(), out.levels.data(), out.levels.size(), out.flow.data(), out.flow.size(),
                              out.amounts.data(), out.amounts.size(), out.work.data(), out.work.size());
    }
};

template <class Queue> struct InCpp {
    Slices out{CELLS, 0};
    Queue queue{CELLS};
    Answer run(const Bytes &b) { return drain(b.data(), b.size(), out, queue); }
};

// How long one call takes, in milliseconds.
template <class Call> double timed(Call call) {
    const auto start = std::chrono::steady_clock::now();
    call();
    return std::chrono::duration<double, std::milli>(std::chrono::steady_clock::now() - start).count();
}

template <class Call> void keep_least(double &least, Call call) { least = std::min(least, timed(call)); }

void want(bool holds, const std::string &model, const char *what) {
    if (!holds) fail(model + ": " + what + " differ");
}

// Runs all three and compares them. Each starts from other rubbish in its slices.
void compare(const Named &model, Proved &ours, InCpp<Heap> &heap, InCpp<Buckets> &buckets) {
    std::fill(ours.out.levels.begin(), ours.out.levels.end(), 1);
    std::fill(heap.out.levels.begin(), heap.out.levels.end(), 2);
    std::fill(buckets.out.levels.begin(), buckets.out.levels.end(), 3);
    const Answer a = ours.run(model.bytes), b = heap.run(model.bytes), c = buckets.run(model.bytes);
    want(!a.refused && !b.refused && !c.refused, model.name, "refusals");
    want(ours.out.levels == heap.out.levels && heap.out.levels == buckets.out.levels, model.name, "levels");
    want(ours.out.flow == heap.out.flow, model.name, "flows");
    want(std::equal(ours.out.order(), ours.out.order() + 2 * CELLS, heap.out.order()), model.name, "orders or places");
    want(ours.out.amounts == heap.out.amounts, model.name, "amounts");
    want(a.rain == b.rain && b.rain == c.rain, model.name, "sums of rain");
    want(a.leaves == b.leaves && b.leaves == c.leaves && a.leaves == a.rain, model.name, "sums of what leaves");
}

// Damaged files: all must refuse the same number at the same place.
void compare_refusals(const Bytes &good, Proved &ours, InCpp<Heap> &heap) {
    std::vector<Bytes> bad = {{}, {1, 0, 0}, {0, 0, 1, 0}, {1, 0, 145, 1}, good, good, good, good};
    bad[4].pop_back();
    bad[5].push_back(0);
    bad[6][4 + 9 * 777 + 3] = 9;
    bad[7][4 + 9 * 777 + 8] = 2;
    for (const Bytes &bytes : bad) {
        const Answer a = ours.run(bytes), b = heap.run(bytes);
        want(a.refused && a.refused == b.refused && a.place == b.place, "a damaged model", "refusals");
    }
}

// A row of so many changes of rain.
std::string rain_changes(int count) {
    Random random{3};
    std::string row;
    for (int k = 0; k < count; k++)
        row += "rain " + std::to_string(random.below(CELLS)) + " " + std::to_string(random.below(1000)) + "\n";
    return row;
}

// A changed model has the table of a whole drain of it, in C++.
void compare_changed(const Named &model, const std::string &row, int count, Proved &ours, InCpp<Heap> &heap) {
    Bytes bytes = model.bytes;
    const RowAnswer a = ours.change(bytes, row);
    want(a.failed == 0 && a.answers == std::size_t(count) && bytes != model.bytes, model.name, "answers to changes");
    want(!heap.run(bytes).refused && ours.out.levels == heap.out.levels && ours.out.flow == heap.out.flow, model.name, "changed levels or flows");
    want(std::equal(ours.out.order(), ours.out.order() + 2 * CELLS, heap.out.order()), model.name, "changed orders or places");
    want(ours.out.amounts == heap.out.amounts, model.name, "changed amounts");
}

// Ends with the peak of this process's memory in KiB on standard output; in a process of its own for each way.
template <class Way> int tell_memory(const char *path) {
    std::ifstream file(path, std::ios::binary);
    const Bytes bytes((std::istreambuf_iterator<char>(file)), {});
    Way way;
    if (way.run(bytes).refused) return 1;
    std::ifstream status("/proc/self/status");
    for (std::string line; std::getline(status, line);)
        if (line.rfind("VmHWM:", 0) == 0) std::printf("%ld\n", std::strtol(line.c_str() + 6, nullptr, 10));
    return 0;
}

// What a program prints, or nothing kept where its output goes to /dev/null.
std::string output_of(std::vector<std::string> words, bool keep) {
    int ends[2];
    if (pipe(ends)) fail("no pipe");
    const pid_t child = fork();
    if (child == 0) {
        std::vector<char *> args;
        for (auto &word : words) args.push_back(word.data());
        args.push_back(nullptr);
        dup2(keep ? ends[1] : open("/dev/null", O_WRONLY), 1);
        close(ends[0]);
        close(ends[1]);
        execv(args[0], args.data());
        _exit(127);
    }
    close(ends[1]);
    std::string text;
    char part[65536];
    for (ssize_t got; (got = read(ends[0], part, sizeof part)) > 0;) text.append(part, got);
    close(ends[0]);
    int status;
    if (child < 0 || waitpid(child, &status, 0) != child || status != 0) fail(words[0] + " failed");
    return text;
}

long memory(const std::string &self, const char *way, const std::string &path) {
    return std::atol(output_of({self, "--memory", way, path}, true).c_str());
}

// The least time of each way on one model, in milliseconds.
struct Times {
    double ours = 1e9, heap = 1e9, buckets = 1e9, program = 1e9, cpp_program = 1e9, no_change = 1e9, changes = 1e9;
};

struct Bench {
    std::string self, program, cpp_program, scratch;
    std::vector<Named> models = all_models();
    std::vector<Times> times = std::vector<Times>(models.size());
    Proved ours{};
    InCpp<Heap> heap{};
    InCpp<Buckets> buckets{};

    std::string path(const Named &model) const { return scratch + "/" + model.name + ".bin"; }

    // Ends the run where any two results differ.
    void compare_all() {
        compare_refusals(models[0].bytes, ours, heap);
        for (const Named &model : models) {
            compare(model, ours, heap, buckets);
            compare_changed(model, rain_changes(CHANGES), CHANGES, ours, heap);
            std::ofstream(path(model), std::ios::binary).write(reinterpret_cast<const char *>(model.bytes.data()), model.bytes.size());
            want(output_of({program, path(model)}, true) == output_of({cpp_program, path(model)}, true), model.name, "printed lines");
        }
        std::printf("results agree; models of %d by %d cells, milliseconds\n", SIDE, SIDE);
    }

    void time_calls() {
        for (int round = 0; round < CALL_ROUNDS; round++)
            for (std::size_t m = 0; m < models.size(); m++) {
                const Bytes &bytes = models[m].bytes;
                keep_least(times[m].ours, [&] { ours.run(bytes); });
                keep_least(times[m].heap, [&] { heap.run(bytes); });
                keep_least(times[m].buckets, [&] { buckets.run(bytes); });
            }
        std::printf("\nlibrary call, least of %d rounds\n", CALL_ROUNDS);
        std::printf("model           ours  priority_queue  buckets   ours/pq  buckets/pq\n");
        for (std::size_t m = 0; m < models.size(); m++) {
            const Times &t = times[m];
            std::printf("%-12s %7.2f %15.2f %8.2f %9.2f %11.2f\n", models[m].name.c_str(), t.ours, t.heap, t.buckets, t.ours / t.heap,
                        t.buckets / t.heap);
        }
    }

    // A row drains once and then makes its changes, so one change is the difference of two rows by the number of changes.
    void time_changes() {
        const std::string row = rain_changes(CHANGES);
        for (int round = 0; round < CALL_ROUNDS; round++)
            for (std::size_t m = 0; m < models.size(); m++) {
                Bytes bytes = models[m].bytes;
                keep_least(times[m].no_change, [&] { ours.change(bytes, ""); });
                keep_least(times[m].changes, [&] { ours.change(bytes, row); });
            }
        std::printf("\na change of rain, its line read too, beside a whole drain, least of %d rounds\n", CALL_ROUNDS);
        std::printf("model          drain    change  change/drain\n");
        for (std::size_t m = 0; m < models.size(); m++) {
            const double drain = times[m].ours, change = (times[m].changes - times[m].no_change) / CHANGES;
            std::printf("%-12s %7.2f %9.5f %13.6f\n", models[m].name.c_str(), drain, change, change / drain);
        }
    }

    void time_programs() {
        for (int round = 0; round < PROGRAM_ROUNDS; round++)
            for (std::size_t m = 0; m < models.size(); m++) {
                const std::string file = path(models[m]);
                keep_least(times[m].program, [&] { output_of({program, file}, false); });
                keep_least(times[m].cpp_program, [&] { output_of({cpp_program, file}, false); });
            }
        std::printf("\nwhole program, least of %d rounds\n", PROGRAM_ROUNDS);
        std::printf("model           ours      C++  ours/C++\n");
        for (std::size_t m = 0; m < models.size(); m++) {
            const Times &t = times[m];
            std::printf("%-12s %7.2f %8.2f %9.2f\n", models[m].name.c_str(), t.program, t.cpp_program, t.program / t.cpp_program);
        }
    }

    void tell_memories() {
        const std::string file = path(models[0]);
        const long a = memory(self, "ours", file), b = memory(self, "heap", file), c = memory(self, "buckets", file);
        std::printf("\npeak memory of a process with one model, KiB: ours %ld, priority_queue %ld, buckets %ld; ours/pq %.2f\n", a, b, c,
                    double(a) / b);
    }
};

int main(int argc, char **argv) {
    if (argc == 4 && std::string(argv[1]) == "--memory") {
        const std::string way = argv[2];
        if (way == "ours") return tell_memory<Proved>(argv[3]);
        return way == "heap" ? tell_memory<InCpp<Heap>>(argv[3]) : tell_memory<InCpp<Buckets>>(argv[3]);
    }
    if (argc != 4) fail("usage: bench DRAIN CPP_DRAIN SCRATCH");
    Bench bench{argv[0], argv[1], argv[2], argv[3]};
    bench.compare_all();
    bench.time_calls();
    bench.time_changes();
    bench.time_programs();
    bench.tell_memories();
}
