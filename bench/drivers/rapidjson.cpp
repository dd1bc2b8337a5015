// A stand-in: RapidJSON (rapidjson-dev) has no JSON Patch, so the operations here
// are our own. It stands for what a fast library would cost. Errors are found,
// but neither repeated names nor any limits.
#include "driver.hpp"
#include <rapidjson/document.h>
#include <rapidjson/error/en.h>
#include <rapidjson/stringbuffer.h>
#include <rapidjson/writer.h>
using namespace rapidjson;

struct Refused : std::runtime_error {
    using std::runtime_error::runtime_error;
};

static SizeType index_of(const std::string &token, SizeType limit) {
    if (token.empty() || token.size() > 9 || (token.size() > 1 && token[0] == '0')) throw Refused("no index");
    SizeType index = 0;
    for (char c : token) {
        if (c < '0' || c > '9') throw Refused("no index");
        index = index * 10 + SizeType(c - '0');
    }
    if (index > limit) throw Refused("index out of range");
    return index;
}

static Value *child(Value *value, const std::string &token) {
    if (value->IsObject()) {
        auto member = value->FindMember(Value(StringRef(token.data(), token.size())));
        if (member == value->MemberEnd()) throw Refused("no such member");
        return &member->value;
    }
    if (!value->IsArray()) throw Refused("not a container");
    const SizeType index = index_of(token, value->Size());
    if (index == value->Size()) throw Refused("index out of range");
    return &(*value)[index];
}

// The next token of a pointer, and whether another follows.
static bool next(const char *&at, const char *end, std::string &token) {
    token.clear();
    for (++at; at < end && *at != '/'; ++at) {
        if (*at != '~') {
            token += *at;
            continue;
        }
        ++at;
        if (at >= end || (*at != '0' && *at != '1')) throw Refused("malformed pointer");
        token += *at == '0' ? '~' : '/';
    }
    return at < end;
}

// A location: its parent and last token, or the root.
struct Location {
    Value *parent;
    std::string last;
    bool root;
};

static Location locate(Value &document, const Value &pointer) {
    const char *at = pointer.GetString(), *end = at + pointer.GetStringLength();
    if (at == end) return {&document, {}, true};
    if (*at != '/') throw Refused("malformed pointer");
    Value *value = &document;
    std::string token;
    while (next(at, end, token)) value = child(value, token);
    return {value, token, false};
}

static const Value &member(const Value &operation, const char *name) {
    auto found = operation.FindMember(name);
    if (found == operation.MemberEnd()) throw Refused("missing member");
    return found->value;
}

static const Value &text(const Value &operation, const char *name) {
    const Value &value = member(operation, name);
    if (!value.IsString()) throw Refused("not a string");
    return value;
}

static void add(Document &document, const Value &pointer, Value &&value) {
    auto &allocator = document.GetAllocator();
    Location at = locate(document, pointer);
    if (at.root) {
        static_cast<Value &>(document) = value;
    } else if (at.parent->IsObject()) {
        auto found = at.parent->FindMember(Value(StringRef(at.last.data(), at.last.size())));
        if (found != at.parent->MemberEnd()) found->value = value;
        else at.parent->AddMember(Value(at.last.data(), SizeType(at.last.size()), allocator).Move(), value, allocator);
    } else if (at.parent->IsArray()) {
        Value &array = *at.parent;
        const SizeType size = array.Size(), index = at.last == "-" ? size : index_of(at.last, size);
        array.PushBack(Value().Move(), allocator);
        for (SizeType k = size; k > index; k--) array[k] = array[k - 1];
        array[index] = value;
    } else {
        throw Refused("not a container");
    }
}

static Value take(Document &document, const Value &pointer) {
    Location at = locate(document, pointer);
    if (at.root) throw Refused("remove of the root");
    Value *found = child(at.parent, at.last);
    Value value;
    value = *found;
    if (at.parent->IsObject()) at.parent->EraseMember(at.parent->FindMember(Value(StringRef(at.last.data(), at.last.size()))));
    else at.parent->Erase(at.parent->Begin() + (found - at.parent->Begin()));
    return value;
}

static Value *find(Document &document, const Value &pointer) {
    Location at = locate(document, pointer);
    return at.root ? at.parent : child(at.parent, at.last);
}

static void perform(Document &document, const Value &operation) {
    auto &allocator = document.GetAllocator();
    if (!operation.IsObject()) throw Refused("operation is not an object");
    const Value &op = text(operation, "op"), &path = text(operation, "path");
    const std::string kind(op.GetString(), op.GetStringLength());
    if (kind == "add") add(document, path, Value(member(operation, "value"), allocator));
    else if (kind == "remove") take(document, path);
    else if (kind == "replace") *find(document, path) = Value(member(operation, "value"), allocator);
    else if (kind == "move") add(document, path, take(document, text(operation, "from")));
    else if (kind == "copy") add(document, path, Value(*find(document, text(operation, "from")), allocator));
    else if (kind != "test") throw Refused("unknown op");
    else if (*find(document, path) != member(operation, "value")) throw Refused("test found a difference");
}

static void read(Document &document, const std::string &text) {
    if (document.Parse<kParseFullPrecisionFlag>(text.data(), text.size()).HasParseError())
        throw Refused(GetParseError_En(document.GetParseError()));
}

int main(int argc, char **argv) {
    return driver_main(argc, argv, [](const std::string &d, const std::string &p) {
        Document document, patch;
        read(document, d);
        read(patch, p);
        if (!patch.IsArray()) throw Refused("patch is not an array");
        for (auto &operation : patch.GetArray()) perform(document, operation);
        StringBuffer buffer;
        Writer<StringBuffer> writer(buffer);
        document.Accept(writer);
        return std::string(buffer.GetString(), buffer.GetSize());
    });
}
