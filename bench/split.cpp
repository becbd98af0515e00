// A plain splitter of the two texts of bench/run: find, trim, parse, push. It prints the least time of seven turns.
#include <algorithm>
#include <chrono>
#include <cstdint>
#include <cstdio>
#include <cstring>
#include <fstream>
#include <string>
#include <string_view>
#include <unordered_map>
#include <vector>

using std::string_view;

static bool is_blank(char byte) { return byte == ' ' || byte == '\t'; }

static string_view trimmed(string_view field) {
    while (!field.empty() && is_blank(field.front())) field.remove_prefix(1);
    while (!field.empty() && is_blank(field.back())) field.remove_suffix(1);
    if (field.size() >= 2 && field.front() == '"' && field.back() == '"') field = field.substr(1, field.size() - 2);
    return field;
}

static bool whole(string_view field, int64_t& number) {
    if (field.empty() || field.size() > 18) return false;
    number = 0;
    for (char digit : field) {
        if (digit < '0' || digit > '9') return false;
        number = number * 10 + (digit - '0');
    }
    return true;
}

static bool fixed(string_view field, int64_t& number) {
    size_t point = field.find('.');
    if (!whole(field.substr(0, point), number)) return false;
    int64_t fraction = 0, place = 1000000;
    if (point != string_view::npos) {
        if (point + 1 == field.size()) return false;
        for (char digit : field.substr(point + 1)) {
            if (digit < '0' || digit > '9') return false;
            place /= 10;
            fraction += (digit - '0') * place;
        }
    }
    number = number * 1000000 + fraction;
    return true;
}

// Hands each line that has a row to `take`, with its number and its fields.
template <class Take>
static void each_row(string_view text, std::vector<string_view>& fields, Take take) {
    uint64_t number = 0;
    while (!text.empty()) {
        const void* feed = memchr(text.data(), '\n', text.size());
        size_t end = feed ? static_cast<const char*>(feed) - text.data() : text.size();
        string_view line = text.substr(0, end);
        text.remove_prefix(std::min(end + 1, text.size()));
        if (!line.empty() && line.back() == '\r') line.remove_suffix(1);
        if (line.empty()) continue;
        number += 1;
        line = line.substr(0, line.find('#'));
        if (std::all_of(line.begin(), line.end(), is_blank)) continue;
        fields.clear();
        for (size_t from = 0;;) {
            size_t to = line.find(';', from);
            fields.push_back(trimmed(line.substr(from, to - from)));
            if (to == string_view::npos) break;
            from = to + 1;
        }
        if (fields.size() > 1 && fields.back().empty()) fields.pop_back();
        if (!take(number)) return;
    }
}

static size_t table(string_view text) {
    std::vector<uint64_t> numbers;
    std::vector<int64_t> cells;
    std::vector<string_view> fields;
    each_row(text, fields, [&](uint64_t number) {
        if (fields.size() != 7) return false;
        for (size_t column = 0; column < 7; column++) {
            int64_t cell = 0;
            if (column == 3 ? !fixed(fields[column], cell) : column < 6 && !whole(fields[column], cell)) return false;
            if (cell < 0 || cell > 10000000000) return false;
            cells.push_back(cell);
        }
        numbers.push_back(number);
        return true;
    });
    return numbers.size();
}

static size_t config(string_view text) {
    std::unordered_map<string_view, size_t> places{{"period_length", 0}, {"vs_empty_costs", 1}, {"dm_wait", 2}};
    std::vector<std::string> said(places.size());
    std::vector<string_view> fields;
    size_t rows = 0;
    each_row(text, fields, [&](uint64_t) {
        if (fields.size() != 2) return false;
        auto place = places.find(fields[0]);
        if (place != places.end()) said[place->second] = fields[1];
        rows += 1;
        return true;
    });
    return rows;
}

int main(int count, char** words) {
    if (count != 3) return 1;
    std::ifstream file(words[2], std::ios::binary | std::ios::ate);
    std::string text(file.tellg(), '\0');
    file.seekg(0).read(text.data(), text.size());
    auto read = words[1] == string_view("table") ? table : config;
    long long least = -1;
    size_t rows = 0;
    for (int turn = 0; turn < 7; turn++) {
        auto start = std::chrono::steady_clock::now();
        rows = read(text);
        auto end = std::chrono::steady_clock::now();
        long long time = std::chrono::duration_cast<std::chrono::microseconds>(end - start).count();
        if (least < 0 || time < least) least = time;
    }
    printf("%zu %lld\n", rows, least);
}
