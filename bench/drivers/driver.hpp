// The drivers in C++: `once(document, patch)` gives the text, or throws.
#pragma once
#include "driver.h"

#include <stdexcept>
#include <string>
#include <vector>

template <class Once> int driver_main(int argc, char **argv, Once once) {
    const long count = driver_pairs(argc, argv), rounds = std::atol(argv[argc - 1]);
    std::vector<std::string> documents, patches;
    for (int i = 1; i + 1 < argc; i++) {
        size_t length;
        const char *bytes = driver_read(argv[i], &length);
        (i % 2 ? documents : patches).emplace_back(bytes, length);
    }
    try {
        std::string text;
        const auto round = [&] {
            for (long k = 0; k < count; k++) text = once(documents[k], patches[k]);
        };
        driver_sum sum = driver_none();
        for (long k = 0; k < count; k++) {
            text = once(documents[k], patches[k]);
            sum = driver_more(sum, text.data(), text.size());
            if (rounds == 0) driver_print(k, text.data(), text.size());
        }
        if (rounds == 0) return 0;
        for (long i = 0; i < rounds / 10; i++) round();
        const double elapsed = driver_clock(CLOCK_MONOTONIC), processor = driver_clock(CLOCK_PROCESS_CPUTIME_ID);
        for (long i = 0; i < rounds; i++) round();
        const double processor_end = driver_clock(CLOCK_PROCESS_CPUTIME_ID), elapsed_end = driver_clock(CLOCK_MONOTONIC);
        driver_tell(elapsed_end - elapsed, processor_end - processor, rounds * count, sum);
        return 0;
    } catch (const std::exception &error) {
        std::fprintf(stderr, "error: %s\n", error.what());
        return 1;
    }
}
