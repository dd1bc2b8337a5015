// nlohmann/json (nlohmann-json3-dev), merge_patch.
#include "driver.hpp"
#include <nlohmann/json.hpp>

int main(int argc, char **argv) {
    return driver_main(argc, argv, [](const std::string &d, const std::string &p) {
        nlohmann::json document = nlohmann::json::parse(d);
        const nlohmann::json patch = nlohmann::json::parse(p);
        document.merge_patch(patch);
        return document.dump();
    });
}
