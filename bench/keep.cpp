// What `lintim make` has to do over a dataset where nothing changed, as `bench/whole` measures it: a plain program with
// nothing to spare, over the folder where it stands. It reads each hand file once; compares each entry of keep with the
// inputs of its stage through one buffer, and takes what was made from its last part; and then compares each made file
// with that through the same buffer. It compares no settings. Its exit status is 0 where all is the same.
#include <cstdio>
#include <cstdlib>
#include <cstring>
#include <fcntl.h>
#include <map>
#include <string>
#include <sys/stat.h>
#include <unistd.h>
#include <vector>

using std::string;
using std::vector;

// A text, which is not copied.
struct Text {
    char* bytes;
    size_t size;
};

static const size_t PART = 65536;
static char buffer[PART];

static void differs(const char* name) {
    fprintf(stderr, "%s: is not as it was made\n", name);
    exit(1);
}

static int open_file(const string& name, size_t& size) {
    int file = open(name.c_str(), O_RDONLY);
    struct stat found;
    if (file < 0 || fstat(file, &found) != 0) return -1;
    size = found.st_size;
    return file;
}

// The next so many bytes of a file.
static Text read_text(int file, size_t size) {
    Text text = {static_cast<char*>(malloc(size + 1)), 0};
    while (text.size < size) {
        ssize_t count = read(file, text.bytes + text.size, size - text.size);
        if (count <= 0) exit(2);
        text.size += count;
    }
    return text;
}

// Whether the next bytes of a file are these.
static bool has_next(int file, const Text& text) {
    for (size_t at = 0; at < text.size;) {
        size_t most = text.size - at < PART ? text.size - at : PART;
        ssize_t count = read(file, buffer, most);
        if (count <= 0 || memcmp(buffer, text.bytes + at, count) != 0) return false;
        at += count;
    }
    return true;
}

// The front of a file up to the first input, as its lines tell it: its first line, and the block of its settings.
static size_t front_size(const char* bytes, size_t count) {
    const char* first = static_cast<const char*>(memchr(bytes, '\n', count));
    if (first == nullptr) return 0;
    const char* second = static_cast<const char*>(memchr(first + 1, '\n', count - (first + 1 - bytes)));
    if (second == nullptr) return 0;
    const char* space = second;
    while (*space != ' ') space--;
    return second + 1 - bytes + strtoul(space + 1, nullptr, 10);
}

struct Stage {
    const char* name;
    vector<const char*> inputs;
};

static const vector<Stage> STAGES = {
    {"load", {"basis/Stop.giv", "basis/Edge.giv", "basis/OD.giv"}},
    {"cost", {"basis/Stop.giv", "basis/Edge.giv", "basis/Pool.giv"}},
    {"concept", {"basis/Stop.giv", "basis/Edge.giv", "basis/Pool.giv", "line-planning/Load.giv", "basis/Pool-Cost.giv"}},
    {"ean", {"basis/Stop.giv", "basis/Edge.giv", "line-planning/Line-Concept.lin"}},
    {"timetable", {"timetabling/Events-periodic.giv", "timetabling/Activities-periodic.giv"}},
    {"rollout", {"timetabling/Events-periodic.giv", "timetabling/Activities-periodic.giv",
        "timetabling/Timetable-periodic.tim"}},
    {"vehicles", {"basis/Stop.giv", "basis/Edge.giv", "delay-management/Trips.giv"}},
    {"disposition", {"delay-management/Events-expanded.giv", "delay-management/Activities-expanded.giv",
        "vehicle-scheduling/Vehicle_Schedules.vs", "delay-management/Event-delays.giv",
        "delay-management/Activity-delays.giv"}},
    {"statistic", {"basis/Pool-Cost.giv", "line-planning/Line-Concept.lin", "timetabling/Events-periodic.giv",
        "timetabling/Activities-periodic.giv", "timetabling/Timetable-periodic.tim", "delay-management/Trips.giv",
        "delay-management/Events-expanded.giv", "delay-management/Activities-expanded.giv",
        "vehicle-scheduling/Vehicle_Schedules.vs", "delay-management/Timetable-disposition.tim"}},
};

static std::map<string, Text> hand, made;

// The text of an input: one that a stage before made, or a hand file, which is read once.
static const Text& input(const char* name) {
    auto earlier = made.find(name);
    if (earlier != made.end()) return earlier->second;
    auto known = hand.find(name);
    if (known != hand.end()) return known->second;
    size_t size = 0;
    int file = open_file(name, size);
    Text text = file < 0 ? Text{nullptr, 0} : read_text(file, size);
    if (file >= 0) close(file);
    return hand[name] = text;
}

// Notes the made files of the last part of an entry, where they stand.
static void note_made(const Text& last) {
    char* at = last.bytes;
    char* end = last.bytes + last.size;
    while (strncmp(at, "made ", 5) == 0) {
        char* line = static_cast<char*>(memchr(at, '\n', end - at));
        char* space = line;
        while (*space != ' ') space--;
        size_t size = strtoul(space + 1, nullptr, 10);
        made[string(at + 5, space)] = Text{line + 1, size};
        at = line + 1 + size;
    }
}

static void check_entry(const Stage& stage) {
    string name = string("keep/") + stage.name + ".keep";
    size_t size = 0;
    int file = open_file(name, size);
    if (file < 0) differs(name.c_str());
    ssize_t count = read(file, buffer, 4096);
    size_t at = front_size(buffer, count);
    lseek(file, at, SEEK_SET);
    for (const char* each : stage.inputs) {
        const Text& text = input(each);
        string head = "input " + std::to_string(text.size) + "\n";
        if (!has_next(file, Text{head.data(), head.size()}) || !has_next(file, text)) differs(name.c_str());
        at += head.size() + text.size;
    }
    note_made(read_text(file, size - at));
    close(file);
}

static void check_made(const string& name, const Text& text) {
    size_t size = 0;
    int file = open_file(name, size);
    if (file < 0 || size != text.size || !has_next(file, text)) differs(name.c_str());
    close(file);
}

int main() {
    for (const Stage& stage : STAGES) check_entry(stage);
    for (const auto& each : made) check_made(each.first, each.second);
    puts("all is as it was made");
}
