// How often any of many words occurs in each of several thousand messages, by an automaton of all words (Aho and
// Corasick): one thread makes a task for each message; rewritten, a task for eight messages.
#include <array>
#include <cstdio>
#include <string>
#include <string_view>
#include <vector>

namespace {
constexpr int letters = 26;
#ifdef REWRITTEN
constexpr int together = 8;
#else
constexpr int together = 1;
#endif

class Automaton {
    struct State {
        std::array<int, letters> next{};
        int back = 0, words = 0;
    };
    std::vector<State> states{State()};

public:
    void add(std::string_view word) {
        int at = 0;
        for (char letter : word) {
            if (int to = states[at].next[letter - 'a']) {
                at = to;
                continue;
            }
            states[at].next[letter - 'a'] = static_cast<int>(states.size());
            at = static_cast<int>(states.size());
            states.emplace_back();
        }
        states[at].words++;
    }

    void finish() {
        std::vector<int> open{0};
        for (std::size_t i = 0; i < open.size(); i++) {
            for (int letter = 0; letter < letters; letter++) follow(open[i], letter, open);
        }
    }

    long count(std::string_view text) const {
        long found = 0;
        int at = 0;
        for (char letter : text) {
            at = states[at].next[letter - 'a'];
            found += states[at].words;
        }
        return found;
    }

private:
    void follow(int at, int letter, std::vector<int> &open) {
        int &to = states[at].next[letter];
        int other = at ? states[states[at].back].next[letter] : 0;
        if (!to) {
            to = other;
            return;
        }
        states[to].back = other;
        states[to].words += states[other].words;
        open.push_back(to);
    }
};

class Random {
    unsigned x;

public:
    explicit Random(unsigned seed) : x(seed) {}
    unsigned below(unsigned most) {
        x = x * 1664525u + 1013904223u;
        return (x >> 8) % most;
    }
    std::string word(unsigned length) {
        std::string made;
        for (unsigned i = 0; i < length; i++) made += static_cast<char>('a' + below(8 + 18 * (i % 2)));
        return made;
    }
};
}  // namespace

int main() {
    Random random(41);
    Automaton automaton;
    for (int i = 0; i < 400; i++) automaton.add(random.word(3 + random.below(6)));
    automaton.finish();
    std::string text = random.word(1 << 20);
    std::vector<std::string_view> messages;
    for (int i = 0; i < 12000; i++)
        messages.push_back(std::string_view(text).substr(random.below(1000000), 1000 + random.below(5000)));
    std::vector<long> found(messages.size());
#pragma omp parallel
#pragma omp single
    for (std::size_t first = 0; first < messages.size(); first += together) {
#pragma omp task
        for (std::size_t i = first; i < first + together; i++) found[i] = automaton.count(messages[i]);
    }
    long sum = 0;
    for (long one : found) sum += one;
    std::printf("%ld\n", sum);
}
