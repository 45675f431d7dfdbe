// How long a processor waits for a place in memory that it hasn't at hand: bench/near.sh compiles this and runs it beside look-ups.
//
//     near_memory PLACES
//
// Goes from place to place, each of 128 bytes, of which each names the next one, in an order without a pattern, and prints the
// nanoseconds of processor time a place. So a place can't be fetched before the one in front of it was.
#include <algorithm>
#include <cstdio>
#include <cstdlib>
#include <ctime>
#include <numeric>
#include <random>
#include <vector>

namespace {

struct alignas(128) Place {
    Place *next;
};

constexpr unsigned long STEPS = 2000000;

// A chain through so many places that ends where it begins.
std::vector<Place> chain_of(unsigned long places) {
    std::vector<unsigned long> order(places);
    std::iota(order.begin(), order.end(), 0ul);
    std::shuffle(order.begin(), order.end(), std::mt19937_64(1));
    std::vector<Place> chain(places);
    for (unsigned long at = 0; at < places; ++at) {
        chain[order[at]].next = &chain[order[(at + 1) % places]];
    }
    return chain;
}

Place *walk(Place *place, unsigned long steps) {
    for (unsigned long step = 0; step < steps; ++step) {
        place = place->next;
    }
    return place;
}

double nanoseconds() {
    timespec now{};
    clock_gettime(CLOCK_PROCESS_CPUTIME_ID, &now);
    return 1e9 * static_cast<double>(now.tv_sec) + static_cast<double>(now.tv_nsec);
}

} // namespace

int main(int count, char **words) {
    const unsigned long places = count == 2 ? std::strtoul(words[1], nullptr, 10) : 0;
    if (places == 0) {
        std::fprintf(stderr, "usage: near_memory PLACES\n");
        return EXIT_FAILURE;
    }
    auto chain = chain_of(places);
    Place *volatile end = walk(chain.data(), places);
    const double before = nanoseconds();
    end = walk(end, STEPS);
    std::printf("%.1f\n", (nanoseconds() - before) / static_cast<double>(STEPS));
    return EXIT_SUCCESS;
}
