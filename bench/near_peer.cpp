// The look-ups of a near client's script on what any C++ program would keep entries in: a list in the order of use, and a
// hash table of its places. bench/near.sh compiles it and times it beside the grid, on the same script.
//
//     near_peer < SCRIPT
//     near_peer ENTRIES LOOKS
//
// It reads the lines of such a script alone: `near 0 NAME CAP` makes an empty cache, and `nearget 0 KEY` looks a key up. A
// miss is answered null at once, and kept. It prints what the grid prints of them, but for the bytes of messages, and `ok` for
// each other line. With two words it does what `near_bench` does.
#include <cstdio>
#include <cstdlib>
#include <list>
#include <optional>
#include <string>
#include <string_view>
#include <unordered_map>
#include <unistd.h>
#include <utility>

namespace {

using Value = std::optional<std::string>;
using Entries = std::list<std::pair<std::string, Value>>;

struct Cache {
    std::size_t room = 0;
    Entries entries;
    std::unordered_map<std::string, Entries::iterator> places;

    // The value that is kept for a key, whose entry comes to the front.
    const Value *hit(const std::string &key) {
        const auto place = places.find(key);
        if (place == places.end()) {
            return nullptr;
        }
        entries.splice(entries.begin(), entries, place->second);
        return &place->second->second;
    }

    // Keeps a value for a key that isn't there, in place of the entry that wasn't used for longest.
    void keep(const std::string &key, Value value) {
        if (entries.size() == room) {
            places.erase(entries.back().first);
            entries.pop_back();
        }
        entries.emplace_front(key, std::move(value));
        places.emplace(key, entries.begin());
    }
};

int digit_of(char c) { return c <= '9' ? c - '0' : (c | 0x20) - 'a' + 10; }

void read_hex(std::string_view digits, std::string &bytes) {
    bytes.clear();
    for (std::size_t at = 0; at + 1 < digits.size(); at += 2) {
        bytes.push_back(static_cast<char>(digit_of(digits[at]) << 4 | digit_of(digits[at + 1])));
    }
}

// What stands behind the last space.
std::string_view last_word(std::string_view line) { return line.substr(line.rfind(' ') + 1); }

bool begins(std::string_view line, std::string_view word) { return line.substr(0, word.size()) == word; }

// Looks a key up, and keeps null where it isn't there. Was it there?
bool look_up(Cache &cache, const std::string &key) {
    if (cache.hit(key) != nullptr) {
        return true;
    }
    cache.keep(key, std::nullopt);
    return false;
}

// Runs a line, and prints what comes of it.
void run(Cache &cache, unsigned long number, std::string_view line) {
    static std::string key;
    if (begins(line, "nearget 0 ")) {
        read_hex(last_word(line), key);
        std::printf(look_up(cache, key) ? "%lu hit -\n" : "%lu miss\n", number);
        return;
    }
    if (begins(line, "near 0 ")) {
        cache.room = std::stoul(std::string(last_word(line)));
    }
    std::printf("%lu ok\n", number);
}

// The key of this number: a hash, and no content.
std::string key_of(unsigned long number) {
    const auto hash = static_cast<unsigned>(number + 1);
    std::string key;
    for (const int shift : {24, 16, 8, 0}) {
        key.push_back(static_cast<char>(hash >> shift));
    }
    key += "\xff\xff\xff\xf5";
    return key;
}

// Fills a cache of so many entries, and prints how many of so many look-ups hit.
void look(unsigned long entries, unsigned long looks) {
    Cache cache;
    cache.room = entries;
    for (unsigned long number = 0; number < entries; ++number) {
        cache.keep(key_of(number), std::nullopt);
    }
    unsigned long hits = 0;
    unsigned long number = 0;
    for (unsigned long at = 0; at < looks; ++at) {
        hits += cache.hit(key_of(number)) != nullptr;
        number = (number + 7919) % entries;
    }
    std::printf("%lu hits\n", hits);
}

// Runs the lines of the standard input. What comes of those that were read at once is printed before more is read.
void run_script(Cache &cache) {
    std::string text;
    char piece[65536];
    unsigned long number = 0;
    for (ssize_t count; (count = read(STDIN_FILENO, piece, sizeof piece)) > 0;) {
        text.append(piece, static_cast<std::size_t>(count));
        std::size_t begin = 0;
        for (std::size_t end; (end = text.find('\n', begin)) != std::string::npos; begin = end + 1) {
            run(cache, ++number, std::string_view(text).substr(begin, end - begin));
        }
        text.erase(0, begin);
        std::fflush(stdout);
    }
}

} // namespace

int main(int count, char **words) {
    if (count == 3) {
        look(std::strtoul(words[1], nullptr, 10), std::strtoul(words[2], nullptr, 10));
        return EXIT_SUCCESS;
    }
    Cache cache;
    run_script(cache);
    return EXIT_SUCCESS;
}
