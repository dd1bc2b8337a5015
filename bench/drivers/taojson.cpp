// taoJSON (tao-json-dev), contrib/patch.hpp.
#include "driver.hpp"
#include <tao/json.hpp>
#include <tao/json/contrib/patch.hpp>

int main(int argc, char **argv) {
    return driver_main(argc, argv, [](const std::string &d, const std::string &p) {
        tao::json::value document = tao::json::from_string(d);
        const tao::json::value patch = tao::json::from_string(p);
        tao::json::patch_inplace(document, patch);
        return tao::json::to_string(document);
    });
}
