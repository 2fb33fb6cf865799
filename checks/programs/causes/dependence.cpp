// Spectra are divided by the instrument's response and smoothed. One task measures the response; those that use it say
// that they change it too, so they run one after another. The repair says `in`.
#include <cmath>
#include <cstdio>
#include <vector>

static const int spectra = 40, channels = 20000, passes = 40;

static void measure_response(std::vector<double> &response) {
    for (int i = 0; i < channels; i++) response[i] = 1 + 0.3 * std::sin(i * 0.001) + 0.1 * std::cos(i * 0.013);
}

static void correct(std::vector<double> &spectrum, const std::vector<double> &response) {
    for (int i = 0; i < channels; i++) spectrum[i] /= response[i];
    for (int pass = 0; pass < passes; pass++) {
        double before = spectrum[0];
        for (int i = 1; i + 1 < channels; i++) {
            double here = spectrum[i];
            spectrum[i] = std::sqrt(before * spectrum[i + 1]) * 0.5 + here * 0.5;
            before = here;
        }
    }
}

int main() {
    std::vector<double> response(channels);
    std::vector<std::vector<double>> spectrum(spectra, std::vector<double>(channels));
    for (int k = 0; k < spectra; k++)
        for (int i = 0; i < channels; i++) spectrum[k][i] = 2 + (i * 31 + k * 17) % 101 * 0.01;
    double *shape = response.data();
#pragma omp parallel
#pragma omp single
    {
#pragma omp task depend(out : shape[0]) shared(response)
        measure_response(response);
        for (int k = 0; k < spectra; k++) {
            double *own = spectrum[k].data();
#ifdef FIXED
#pragma omp task depend(inout : own[0]) depend(in : shape[0]) shared(spectrum, response)
#else
#pragma omp task depend(inout : own[0]) depend(inout : shape[0]) shared(spectrum, response) // <- cause
#endif
            correct(spectrum[k], response);
        }
    }
    double sum = 0;
    for (const auto &one : spectrum)
        for (double value : one) sum += value;
    printf("%.6f\n", sum);
}
