// Reads a SINEX file as a quick C++ program would: whole lines, indices by strtol, values by strtod into one list. It tests
// nothing: no frame, no names, no repeated elements, no digits that a double loses. It writes the seconds that reading took.
#include <chrono>
#include <cstdio>
#include <cstdlib>
#include <cstring>
#include <string>
#include <vector>

struct Cell {
    long row, col;
    double value;
};

static double field(const char *line, size_t length, size_t from, size_t to, bool &given) {
    char text[32];
    size_t end = to < length ? to : length, count = 0;
    for (size_t k = from - 1; k < end; k++) text[count++] = line[k];
    text[count] = 0;
    char *stop;
    double value = strtod(text, &stop);
    given = stop != text;
    return value;
}

int main(int, char **words) {
    auto start = std::chrono::steady_clock::now();
    FILE *in = fopen(words[1], "rb");
    fseek(in, 0, SEEK_END);
    std::string text(ftell(in), ' ');
    rewind(in);
    if (fread(text.data(), 1, text.size(), in) != text.size()) return 1;
    fclose(in);
    std::vector<Cell> cells;
    std::vector<double> rows;
    bool matrix = false;
    bool given;
    for (size_t at = 0; at < text.size();) {
        const char *line = text.data() + at;
        const char *end = static_cast<const char *>(memchr(line, '\n', text.size() - at));
        size_t length = end ? end - line : text.size() - at;
        if (*line == '+') matrix = length > 30 && !memcmp(line, "+SOLUTION/NORMAL_EQUATION_MATRIX", 32);
        if (*line == ' ' && matrix) {
            long row = strtol(line, nullptr, 10);
            long col = strtol(line + 6, nullptr, 10);
            for (size_t k = 0; k < 3 && 13 + 22 * k < length; k++) {
                double value = field(line, length, 14 + 22 * k, 34 + 22 * k, given);
                if (given && value != 0) cells.push_back({row, col + static_cast<long>(k), value});
            }
        } else if (*line == ' ') {
            rows.push_back(field(line, length, 48, 68, given));
        }
        at += length + 1;
    }
    std::chrono::duration<double> took = std::chrono::steady_clock::now() - start;
    printf("read %f cells %zu rows %zu\n", took.count(), cells.size(), rows.size());
}
