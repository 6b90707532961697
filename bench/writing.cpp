// Writes the matrix of a combined file as a quick C++ program would: three elements on a line by snprintf, from doubles, to one
// text in memory. The elements are the middles of the table of kernels.cpp, as the program prints them. It writes the seconds that
// this took, without making the table, and the bytes.
#include <chrono>
#include <cstdint>
#include <cstdio>
#include <cstdlib>
#include <string>
#include <vector>

int main(int argc, char **words) {
    const int n = argc > 1 ? std::atoi(words[1]) : 900;
    std::vector<double> elements;
    std::uint64_t s = 88172645463325252ull;
    for (int i = 0; i < n; i++)
        for (int j = 0; j <= i; j++) {
            s ^= s << 13, s ^= s >> 7, s ^= s << 17;
            const double v = double(s >> 6);
            elements.push_back(1e-18 * (i == j ? double(std::int64_t(1) << 59) + v : v / (4 * n) * (s & 1 ? 1 : -1)));
        }
    auto start = std::chrono::steady_clock::now();
    std::string text;
    text.reserve(elements.size() * 27 + n * 27);
    char line[96];
    const double *next = elements.data();
    for (int i = 0; i < n; i++)
        for (int j = 0; j <= i; j += 3) {
            int length = snprintf(line, sizeof line, " %5d %5d", i + 1, j + 1);
            for (int k = j; k <= i && k < j + 3; k++) length += snprintf(line + length, sizeof line - length, " %21.13E", *next++);
            line[length++] = '\n';
            text.append(line, length);
        }
    std::chrono::duration<double> took = std::chrono::steady_clock::now() - start;
    printf("write %f bytes %zu\n", took.count(), text.size());
}
