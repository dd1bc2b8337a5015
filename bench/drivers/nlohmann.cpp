// nlohmann/json (nlohmann-json3-dev). patch_inplace is its fastest way; with
// -DCOPY, patch(), its documented one, which leaves the caller's document alone.
#include "driver.hpp"
#include <nlohmann/json.hpp>

int main(int argc, char **argv) {
    return driver_main(argc, argv, [](const std::string &d, const std::string &p) {
        nlohmann::json document = nlohmann::json::parse(d);
        const nlohmann::json patch = nlohmann::json::parse(p);
#ifdef COPY
        return document.patch(patch).dump();
#else
        document.patch_inplace(patch);
        return document.dump();
#endif
    });
}
