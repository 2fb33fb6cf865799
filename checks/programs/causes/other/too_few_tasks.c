// Reverberation of a recording: a task for the left channel and one for the right, and two threads have nothing to do.
// The repair makes a task of each block of a channel.
#include <stdio.h>
#include <stdlib.h>

enum { channels = 2, samples = 60000, block = 3000, echoes = 2700 };
static float sound[channels][samples], heard[channels][samples], room[channels][echoes];

static void reverberate(int channel, int first, int last) {
    for (int i = first; i < last; i++) {
        float sum = sound[channel][i];
        for (int echo = 1; echo < echoes && echo <= i; echo++) sum += room[channel][echo] * sound[channel][i - echo];
        heard[channel][i] = sum;
    }
}

int main(void) {
    unsigned state = 1;
    for (int channel = 0; channel < channels; channel++) {
        for (int i = 0; i < samples; i++) {
            state = state * 1664525 + 1013904223;
            sound[channel][i] = (float)(state >> 9) / 8388608.0f - 0.5f;
        }
        for (int echo = 1; echo < echoes; echo++) room[channel][echo] = 0.3f / (echo + 10 * channel);
    }
#pragma omp parallel
#pragma omp single
    for (int channel = 0; channel < channels; channel++) {
#ifdef FIXED
        for (int first = 0; first < samples; first += block) {
#pragma omp task
            reverberate(channel, first, first + block);
        }
#else
#pragma omp task // <- cause
        reverberate(channel, 0, samples);
#endif
    }
    double sum = 0;
    for (int channel = 0; channel < channels; channel++)
        for (int i = 0; i < samples; i++) sum += heard[channel][i] * (i % 7);
    printf("%.5f\n", sum);
}
