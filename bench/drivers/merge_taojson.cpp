// taoJSON (tao-json-dev) has no merge patch: RFC 7396's procedure, over its values.
#include "driver.hpp"
#include <tao/json.hpp>
#include <utility>

static void merge(tao::json::value &target, tao::json::value &&patch) {
    if (!patch.is_object()) {
        target = std::move(patch);
        return;
    }
    if (!target.is_object()) target = tao::json::empty_object;
    auto &members = target.get_object();
    for (auto &pair : patch.get_object()) {
        if (pair.second.is_null())
            members.erase(pair.first);
        else
            merge(members[pair.first], std::move(pair.second));
    }
}

int main(int argc, char **argv) {
    return driver_main(argc, argv, [](const std::string &d, const std::string &p) {
        tao::json::value document = tao::json::from_string(d);
        merge(document, tao::json::from_string(p));
        return tao::json::to_string(document);
    });
}
