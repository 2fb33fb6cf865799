// Orders of deliveries: each task sorts the times of many tours, each in a tree whose nodes are allocated one by one and
// freed again. The repair takes the nodes of each tree from an array of the task's.
#include <cstdio>
#include <vector>

static const int tasks = 64, tours = 6000, stops = 24;
struct Node {
    unsigned time;
    Node *before, *after;
};

static unsigned late(const Node *node, unsigned depth) {
    return node ? late(node->before, depth + 1) + node->time % (depth + 7) + late(node->after, depth + 1) : 0;
}

static void insert(Node *&tree, Node *node) {
    Node **at = &tree;
    while (*at) at = node->time < (*at)->time ? &(*at)->before : &(*at)->after;
    *at = node;
}

#ifndef FIXED
static int free_tree(Node *node) {
    if (!node) return 0;
    int freed = free_tree(node->before) + free_tree(node->after);
    delete node; // <- cause
    return freed + 1;
}
#endif

static unsigned tour(unsigned &state, std::vector<Node> &nodes) {
    Node *tree = nullptr;
    for (int stop = 0; stop < stops; stop++) {
        state = state * 1664525 + 1013904223;
#ifdef FIXED
        nodes[stop] = Node{state >> 8, nullptr, nullptr};
        insert(tree, &nodes[stop]);
#else
        insert(tree, new Node{state >> 8, nullptr, nullptr}); // <- cause
#endif
    }
    unsigned found = late(tree, 0);
#ifndef FIXED
    if (free_tree(tree) != stops) return 0;
#endif
    return found;
}

int main() {
    std::vector<unsigned> sums(tasks);
#pragma omp parallel
#pragma omp single
    for (int task = 0; task < tasks; task++) {
#pragma omp task shared(sums)
        {
            std::vector<Node> nodes(stops);
            unsigned state = task + 1, sum = 0;
            for (int i = 0; i < tours; i++) sum += tour(state, nodes);
            sums[task] = sum;
        }
    }
    unsigned sum = 0;
    for (unsigned one : sums) sum = sum * 7 + one;
    printf("%u\n", sum);
}
