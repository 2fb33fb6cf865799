// Grows decision trees, one behind the other in a group of tasks each: a task for each node, which looks for the best
// question in a task for each column where it has many rows; rewritten, all trees grow at the same time.
#include <algorithm>
#include <array>
#include <cstdio>
#include <vector>

namespace {
constexpr int rows = 48000, columns = 8, bins = 32, trees = 12, deepest = 8, fewest = 200, many = 4000;
using Rows = std::vector<int>;

struct Question {
    int column = 0, bin = 0;
    double gain = 0;
};

std::array<std::array<unsigned char, rows>, columns> value;
std::array<double, rows> wanted;

class Tree {
    std::array<Question, 2 << deepest> questions;
    Rows row;

    Question best_of(int column, int begin, int end) const {
        std::array<double, bins> sum{}, count{};
        for (int i = begin; i < end; i++) {
            sum[value[column][row[i]]] += wanted[row[i]];
            count[value[column][row[i]]] += 1;
        }
        double all = 0, left = 0, of_left = 0;
        for (double one : sum) all += one;
        Question best;
        for (int bin = 0; bin < bins - 1; bin++) {
            left += sum[bin];
            of_left += count[bin];
            double right = end - begin - of_left, apart = left * (end - begin) - all * of_left;
            double gain = of_left && right ? apart * apart / (of_left * right) : 0;
            if (gain > best.gain) best = Question{column, bin, gain};
        }
        return best;
    }

    Question ask(int begin, int end) const {
        std::array<Question, columns> found;
        if (end - begin < many) {
            for (int column = 0; column < columns; column++) found[column] = best_of(column, begin, end);
        } else {
#pragma omp taskgroup
            for (int column = 0; column < columns; column++) {
#pragma omp task shared(found)
                found[column] = best_of(column, begin, end);
            }
        }
        return *std::max_element(found.begin(), found.end(),
                                 [](const Question &a, const Question &b) { return a.gain < b.gain; });
    }

    void grow(int node, int depth, int begin, int end) {
        if (depth == deepest || end - begin < fewest) return;
        Question best = ask(begin, end);
        questions[node] = best;
        auto middle = std::partition(row.begin() + begin, row.begin() + end,
                                     [&](int one) { return value[best.column][one] <= best.bin; });
        int half = static_cast<int>(middle - row.begin());
#pragma omp task
        grow(2 * node, depth + 1, begin, half);
#pragma omp task
        grow(2 * node + 1, depth + 1, half, end);
    }

public:
    void grow(unsigned seed) {
        row.resize(rows);
        for (int &one : row) {
            seed = seed * 1664525u + 1013904223u;
            one = static_cast<int>((seed >> 8) % rows);
        }
        grow(1, 0, 0, rows);
    }

    double gain() const {
        double sum = 0;
        for (const Question &one : questions) sum += one.gain;
        return sum;
    }
};

void make_rows() {
    unsigned x = 6;
    for (int i = 0; i < rows; i++) {
        for (auto &column : value) {
            x = x * 1664525u + 1013904223u;
            column[i] = static_cast<unsigned char>((x >> 27) * (x >> 20 & 31) / 31);
        }
        wanted[i] = value[0][i] * value[1][i] * 0.1 + value[2][i] + (x >> 16) % 10;
    }
}
}  // namespace

int main() {
    static std::array<Tree, trees> forest;
    make_rows();
#pragma omp parallel
#pragma omp single
    for (int number = 0; number < trees; number++) {
#ifndef REWRITTEN
#pragma omp taskgroup
#endif
        {
#pragma omp task
            forest[number].grow(7 + number);
        }
    }
    double sum = 0;
    for (const Tree &one : forest) sum += one.gain();
    std::printf("%.6g\n", sum);
}
