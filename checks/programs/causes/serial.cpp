// Heat index of weather records: main reads the text of all records by itself, and only then do tasks use them. The
// repair reads the text in tasks too, a month in each.
#include <cmath>
#include <cstdio>
#include <cstdlib>
#include <string>
#include <vector>

struct Record {
    double temperature, humidity;
};

static const int days = 600, of_a_day = 1440, of_a_month = 30;

static std::string text_of_a_day() {
    std::string text;
    char line[32];
    for (int minute = 0; minute < of_a_day; minute++) {
        snprintf(line, sizeof line, "%05.2f;%05.3f\n", 10 + minute % 230 * 0.1, 0.25 + minute % 71 * 0.01);
        text += line;
    }
    return text;
}

static double heat_index(const Record &one) {
    double pressure = 6.112 * std::exp(17.67 * one.temperature / (one.temperature + 243.5)) * one.humidity;
    return one.temperature + 0.33 * pressure - 0.7 * std::sqrt(pressure) - 4.0 * std::pow(one.humidity, 0.16);
}

static void read_days(const std::string &text, size_t length, int first, int last, std::vector<Record> &records) {
    const char *at = text.data() + first * length; // <- cause
    for (size_t i = size_t(first) * of_a_day; i < size_t(last) * of_a_day; i++) { // <- cause
        char *end; // <- cause
        records[i].temperature = strtod(at, &end); // <- cause
        records[i].humidity = strtod(end + 1, &end); // <- cause
        at = end + 1; // <- cause
    }
}

int main() {
    std::string day = text_of_a_day(), text;
    for (int i = 0; i < days; i++) text += day;
    std::vector<Record> records(size_t(days) * of_a_day);
    std::vector<double> sums(days / of_a_month);
#ifndef FIXED
    read_days(text, day.size(), 0, days, records); // <- cause
#endif
#pragma omp parallel // <- cause
#pragma omp single
    for (int month = 0; month < days / of_a_month; month++) {
#pragma omp task shared(records, sums, text, day)
        {
            int first = month * of_a_month, last = first + of_a_month;
#ifdef FIXED
            read_days(text, day.size(), first, last, records);
#endif
            for (size_t i = size_t(first) * of_a_day; i < size_t(last) * of_a_day; i++)
                sums[month] += heat_index(records[i]);
        }
    }
    double sum = 0;
    for (double one : sums) sum += one;
    printf("%.6f\n", sum / records.size());
}
