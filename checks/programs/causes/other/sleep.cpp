// Jobs are handed to workers, which take their time and answer over a pipe; each task waits for its answer before it
// goes on with its own code. The repair asks for all answers before the tasks begin, so that they wait at most once.
#include <cmath>
#include <cstdio>
#include <cstdlib>
#include <ctime>
#include <thread>
#include <unistd.h>
#include <vector>

static const int jobs = 40;

struct Pipe {
    int from, to;
};

static Pipe ask(int number, std::thread &worker) {
    int ends[2];
    if (pipe(ends)) abort();
    worker = std::thread([=] {
        timespec rest = {0, 10000000 + number % 3 * 1000000};
        char answer = 'a' + number % 26;
        nanosleep(&rest, nullptr);
        if (write(ends[1], &answer, 1) != 1) abort();
    });
    return {ends[0], ends[1]};
}

static double finish(Pipe answers) {
    char got = 0;
    if (read(answers.from, &got, 1) != 1) abort(); // <- cause
    close(answers.from);
    close(answers.to);
    double sum = got;
    for (int i = 1; i < 60000; i++) sum += std::sin(sum + i) / i;
    return sum;
}

int main() {
    std::vector<double> found(jobs);
    std::vector<Pipe> asked(jobs);
    std::vector<std::thread> workers(jobs);
#ifdef FIXED
    for (int job = 0; job < jobs; job++) asked[job] = ask(job, workers[job]);
#endif
#pragma omp parallel
#pragma omp single
    for (int job = 0; job < jobs; job++) {
#pragma omp task shared(found, asked, workers) // <- cause
        {
#ifndef FIXED
            asked[job] = ask(job, workers[job]); // <- cause
#endif
            found[job] = finish(asked[job]); // <- cause
        }
    }
    for (auto &worker : workers) worker.join();
    double sum = 0;
    for (double one : found) sum += one;
    printf("%.9f\n", sum);
}
