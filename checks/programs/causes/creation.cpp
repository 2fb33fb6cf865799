// Events of a detector: one thread makes a task for each of 24,000, with a copy of its readings; the others wait for
// tasks. The repair makes them in 16 tasks, in each those of a part of the events.
#include <cmath>
#include <cstdint>
#include <cstdio>
#include <vector>

static const int events = 24000, channels = 384;

struct Event {
    float readings[channels];
};

static Event event_of(int number) {
    Event out;
    uint32_t state = number * 747796405u + 2891336453u;
    for (float &one : out.readings) {
        state = state * 1664525 + 1013904223;
        one = std::log(1.0f + (state >> 8)) * std::exp((state & 255) * -0.01f);
    }
    return out;
}

static float energy(const Event &event) {
    float sum = 0;
    for (float one : event.readings) sum += one / (1 + one * std::sqrt(sum + 1));
    return sum;
}

static void make_tasks(int first, int last, std::vector<float> &found) {
    for (int number = first; number < last; number++) {
        Event event = event_of(number);
#pragma omp task firstprivate(event) shared(found) // <- cause
        found[number] = energy(event);
    }
}

int main() {
    std::vector<float> found(events);
#pragma omp parallel
#pragma omp single
    {
#ifdef FIXED
        const int parts = 16;
        for (int part = 0; part < parts; part++) {
#pragma omp task shared(found)
            make_tasks(events / parts * part, events / parts * (part + 1), found);
        }
#else
        make_tasks(0, events, found); // <- cause
#endif
    }
    double sum = 0;
    for (float one : found) sum += one;
    printf("%.3f\n", sum);
}
