// Draining in C++: the same rule as the proved code, with std::priority_queue, and with a bucket for each level.
#pragma once
#include <algorithm>
#include <cstddef>
#include <cstdint>
#include <cstring>
#include <functional>
#include <queue>
#include <utility>
#include <vector>

constexpr std::uint32_t NONE = 4294967295u;

// What a drain answers; the proved code gives it in this layout too.
struct Answer {
    std::uint32_t refused = 0; // 0, or the refusal's number
    std::uint32_t looks = 0;   // counted by the proved code alone
    std::size_t place = 0;     // where it was refused
    std::uint64_t rain = 0;
    std::uint64_t leaves = 0;
};

// The slices for n cells. Behind the words of a queue the work has the order and the places; a queue in C++ has its own memory.
struct Slices {
    std::size_t queued;
    std::vector<std::uint32_t> levels, flow;
    std::vector<std::uint64_t> amounts, work;
    Slices(std::size_t n, std::size_t queue_words) : queued(queue_words), levels(n), flow(n), amounts(n), work(queue_words + 2 * n) {}
    std::uint64_t *order() { return work.data() + queued; }
    std::uint64_t *places() { return order() + levels.size(); }
};

inline std::uint32_t four(const std::uint8_t *at) {
    std::uint32_t value;
    std::memcpy(&value, at, 4);
    return value;
}

// A model's sizes and cells; the bytes were found right.
struct View {
    const std::uint8_t *cells;
    std::uint32_t w, h;
    std::uint32_t count() const { return w * h; }
    std::uint32_t height(std::uint32_t c) const { return four(cells + 9 * c); }
    std::uint32_t rain(std::uint32_t c) const { return four(cells + 9 * c + 4); }
    bool drain(std::uint32_t c) const { return cells[9 * c + 8] == 1; }
};

// The first fault of the bytes, front to back, or the view of a model without one.
inline Answer read(const std::uint8_t *bytes, std::size_t length, View &view) {
    if (length < 4) return {1, 0, length};
    view = {bytes + 4, bytes[0] + 256u * bytes[1], bytes[2] + 256u * bytes[3]};
    if (view.w == 0 || view.w > 400) return {2, 0, 0};
    if (view.h == 0 || view.h > 400) return {2, 0, 2};
    const std::size_t end = 4 + std::size_t(9) * view.count();
    for (std::size_t at = 4; at < end; at += 9) {
        if (at + 4 > length) return {1, 0, length};
        if (four(bytes + at) > 1000000) return {3, 0, at};
        if (at + 8 > length) return {1, 0, length};
        if (four(bytes + at + 4) > 1000000) return {3, 0, at + 4};
        if (at + 9 > length) return {1, 0, length};
        if (bytes[at + 8] > 1) return {3, 0, at + 8};
    }
    if (length > end) return {1, 0, end};
    return {};
}

// The neighbours of a cell: up, left, right, down.
template <class Visit> void each_side(const View &view, std::uint32_t cell, Visit visit) {
    const std::uint32_t row = cell / view.w, column = cell % view.w;
    if (row > 0) visit(cell - view.w);
    if (column > 0) visit(cell - 1);
    if (column + 1 < view.w) visit(cell + 1);
    if (row + 1 < view.h) visit(cell + view.w);
}

// The flood over any queue of pairs of level and cell. Only levels have to be cleared: each entry of the rest is written.
template <class Queue> void flood(const View &view, Slices &out, Queue &queue) {
    const std::uint32_t n = view.count();
    std::fill_n(out.levels.begin(), n, NONE);
    auto put = [&](std::uint32_t level, std::uint32_t cell, std::uint32_t to) {
        out.levels[cell] = level;
        out.flow[cell] = to;
        queue.push(level, cell);
    };
    for (std::uint32_t row = 0, cell = 0; row < view.h; row++)
        for (std::uint32_t column = 0; column < view.w; column++, cell++)
            if (row == 0 || row + 1 == view.h || column == 0 || column + 1 == view.w || view.drain(cell))
                put(view.height(cell), cell, NONE);
    std::uint64_t *order = out.order(), *places = out.places();
    for (std::uint64_t placed = 0; !queue.empty(); placed++) {
        const auto [level, cell] = queue.pop();
        order[placed] = cell;
        places[cell] = placed;
        each_side(view, cell, [&, level = level, cell = cell](std::uint32_t next) {
            if (out.levels[next] == NONE) put(std::max(view.height(next), level), next, cell);
        });
    }
}

// Amounts along the order turned around, what rained and what leaves.
inline Answer pour(const View &view, Slices &out) {
    Answer answer;
    const std::uint32_t n = view.count();
    for (std::uint32_t c = 0; c < n; c++) answer.rain += out.amounts[c] = view.rain(c);
    const std::uint64_t *order = out.order();
    for (std::uint32_t place = n; place-- > 0;) {
        const std::uint32_t cell = order[place], to = out.flow[cell];
        if (to == NONE)
            answer.leaves += out.amounts[cell];
        else
            out.amounts[to] += out.amounts[cell];
    }
    return answer;
}

using Entry = std::pair<std::uint32_t, std::uint32_t>;

// std::priority_queue, an entry packed into one word; its memory is kept from call to call.
class Heap {
    struct Words : std::priority_queue<std::uint64_t, std::vector<std::uint64_t>, std::greater<>> {
        void reserve(std::size_t n) { c.reserve(n); }
        void clear() { c.clear(); }
    } words;

  public:
    explicit Heap(std::size_t n) { words.reserve(n); }
    void start(const View &) { words.clear(); }
    bool empty() const { return words.empty(); }
    void push(std::uint32_t level, std::uint32_t cell) { words.push(std::uint64_t(level) << 32 | cell); }
    Entry pop() {
        const std::uint64_t word = words.top();
        words.pop();
        return {word >> 32, std::uint32_t(word)};
    }
};

// A list of cells for each level: pushes and pops take no comparison. Of equal levels the last one in comes out first, so levels are
// those of the rule, and order and flow may be others.
class Buckets {
    std::vector<std::uint32_t> first, next;
    std::uint32_t now = 0, count = 0;

  public:
    explicit Buckets(std::size_t n) : first(1000001), next(n) {}
    void start(const View &view) {
        std::uint32_t low = NONE, high = 0;
        for (std::uint32_t c = 0; c < view.count(); c++) {
            low = std::min(low, view.height(c));
            high = std::max(high, view.height(c));
        }
        std::fill(first.begin() + low, first.begin() + high + 1, NONE);
        now = low;
        count = 0;
    }
    bool empty() const { return count == 0; }
    void push(std::uint32_t level, std::uint32_t cell) {
        next[cell] = first[level];
        first[level] = cell;
        count++;
    }
    Entry pop() {
        while (first[now] == NONE) now++;
        const std::uint32_t cell = first[now];
        first[now] = next[cell];
        count--;
        return {now, cell};
    }
};

// Reads, floods and pours: what the proved `drain` does.
template <class Queue> Answer drain(const std::uint8_t *bytes, std::size_t length, Slices &out, Queue &queue) {
    View view;
    const Answer refusal = read(bytes, length, view);
    if (refusal.refused) return refusal;
    const std::size_t n = view.count();
    if (out.levels.size() < n) return {4, 0, 0};
    if (out.flow.size() < n) return {4, 0, 1};
    if (out.amounts.size() < n) return {4, 0, 2};
    if (out.work.size() < out.queued + 2 * n) return {4, 0, 3};
    queue.start(view);
    flood(view, out, queue);
    return pour(view, out);
}
