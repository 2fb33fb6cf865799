/* How many shortest paths lead through each vertex of a graph (Brandes): a task for each few vertices where they begin
 * adds its share by a task reduction; rewritten, a task has half as many. */
#include <stdio.h>
#include <stdlib.h>
#include <string.h>

enum { vertices = 3000, edges_of = 6, edges = vertices * edges_of, tasks = 128 };
#ifdef REWRITTEN
enum { together = 2 };
#else
enum { together = 4 };
#endif
typedef struct {
    int order[vertices], far[vertices];
    double paths[vertices], share[vertices];
} Search;
static int begin[vertices + 1], neighbour[2 * edges];
static double score[vertices];

static void visit(Search *s, int at, int *many) {
    for (int i = begin[at]; i < begin[at + 1]; i++) {
        int to = neighbour[i];
        if (s->far[to] < 0) {
            s->far[to] = s->far[at] + 1;
            s->order[(*many)++] = to;
        }
        if (s->far[to] == s->far[at] + 1) s->paths[to] += s->paths[at];
    }
}

static void share_out(Search *s, int at) {
    double each = (1 + s->share[at]) / s->paths[at];
    for (int i = begin[at]; i < begin[at + 1]; i++) {
        int to = neighbour[i];
        if (s->far[to] == s->far[at] - 1) s->share[to] += s->paths[to] * each;
    }
}

static void from_one(int source, double *sums) {
    Search s;
    int many = 1;
    memset(&s, 0, sizeof s);
    memset(s.far, -1, sizeof s.far);
    s.order[0] = source;
    s.far[source] = 0;
    s.paths[source] = 1;
    for (int i = 0; i < many; i++) visit(&s, s.order[i], &many);
    for (int i = many - 1; i > 0; i--) share_out(&s, s.order[i]);
    for (int i = 1; i < many; i++) sums[s.order[i]] += s.share[s.order[i]];
}

static void make_graph(void) {
    static int from[edges], to[edges];
    srand(8);
    for (int i = 0; i < edges; i++) {
        from[i] = i / edges_of;
        to[i] = i % 3 ? (from[i] + 1 + rand() % 60) % vertices : rand() % vertices;
        begin[from[i]]++;
        begin[to[i]]++;
    }
    for (int i = 1; i <= vertices; i++) begin[i] += begin[i - 1];
    for (int i = 0; i < edges; i++) {
        neighbour[--begin[from[i]]] = to[i];
        neighbour[--begin[to[i]]] = from[i];
    }
}

int main(void) {
    make_graph();
#pragma omp parallel
#pragma omp single
#pragma omp taskgroup task_reduction(+ : score)
    for (int i = 0; i < tasks; i++) {
#pragma omp task in_reduction(+ : score)
        for (int j = 0; j < together; j++) from_one((i * 4 + j) * 5 % vertices, score);
    }
    double most = 0;
    for (int i = 0; i < vertices; i++) most = score[i] > most ? score[i] : most;
    printf("%.1f\n", most);
    return 0;
}
