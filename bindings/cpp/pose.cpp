/* A vehicle publishes its pose while the type changes: the library from C++. It prints what the caller in C prints, bindings/c/pose.out.
 *
 *   c++ -std=c++17 -Iinclude bindings/cpp/pose.cpp out/libxt.a -o pose */
#include "xt.hpp"

#include <iomanip>
#include <iostream>
#include <utility>

/* Three versions of a type. The second appends a member; the third has wider numbers. And a type with floats. */
static const char *const versions[] = {
    "module geo { @appendable struct Pose { @key string<32> vehicle; long east; long north; }; };",
    "module geo { @appendable struct Pose { @key string<32> vehicle; long east; long north; @optional long heading; }; };",
    "module geo { @appendable struct Pose { @key string<32> vehicle; long long east; long long north; }; };",
    "module geo { @final struct Fix { double height; float speed; }; };",
};

static const char older[] = R"({"vehicle":"rover-7","east":12500,"north":-300})";
static const char newer[] = R"({"vehicle":"rover-7","east":12500,"north":-300,"heading":90})";

static xt::types open_types() {
    xt::bundle all;
    for (const char *version : versions) all.idl(version);
    return xt::types(all);
}

static void show_octets(const char *what, xt::octets octets) {
    std::cout << what << ':' << std::hex << std::setfill('0');
    for (std::size_t i = 0; i < octets.size(); i++) std::cout << ' ' << std::setw(2) << unsigned{octets.data()[i]};
    std::cout << std::dec << '\n';
}

static void show_verdict(const char *what, const xt::verdict &verdict) {
    std::cout << what << ": " << (verdict ? "yes" : verdict.why) << '\n';
}

template <class Call> static void show_refusal(const char *what, Call call) {
    try {
        call();
    } catch (const xt::refused &refused) {
        std::cout << what << ": refused " << refused.status() << (refused.text().empty() ? "" : ", ") << refused.text() << '\n';
    }
}

static void show_types(xt::types &types) {
    std::cout << "complete identifier: " << types.type_id("0/geo::Pose") << '\n';
    std::cout << "minimal identifier: " << types.minimal_id("0/geo::Pose") << '\n';
    std::cout << types.print("0/geo::Pose");
    show_verdict("the second reads the first", types.judge("1/geo::Pose", "0/geo::Pose"));
    show_verdict("the third reads the first", types.judge("2/geo::Pose", "0/geo::Pose"));
    show_refusal("no such type", [&] { xt::reader(types, "geo::Plan", "geo::Pose"); });
}

static void show_floats(xt::reader fixes) {
    const auto sample = fixes.write(R"({"height":12.5,"speed":0.1})");
    show_octets("floats", sample);
    std::cout << "as bits: " << fixes.read(sample, xt::floats::bits) << '\n';
    std::cout << "as numbers: " << fixes.read(sample) << '\n';
    show_refusal("too large for a float", [&] { fixes.write(R"({"height":1e39,"speed":1e39})"); });
}

static void show_newer(xt::reader &first, xt::reader &second) {
    std::cout << "read by the first: " << first.read(second.write(newer)) << '\n';
    show_refusal("a text for a number", [&] { first.write(R"({"vehicle":"rover-7","east":"far","north":-300})"); });
    show_refusal("no JSON", [&] { first.write("{"); });
}

static void show_older(xt::reader &first, xt::reader &second) {
    const auto sample = first.write(older);
    show_octets("written", sample);
    std::cout << "read by the second: " << second.read(sample) << '\n';
    show_octets("key hash", first.key_hash(sample));
    show_octets("converted", first.convert(sample, xt::rep::xcdr1));
    show_refusal("a cut sample", [&] { first.read({sample.data(), sample.size() - 3}); });
}

int main() {
    auto types = open_types();
    show_types(types);
    xt::reader first(types, "0/geo::Pose", "1/geo::Pose");
    xt::reader second(types, "1/geo::Pose", "0/geo::Pose");
    show_floats(xt::reader(types, "geo::Fix", "geo::Fix"));
    types.close();
    show_older(first, second);
    show_newer(first, second);
    const xt::reader moved = std::move(first);
    show_refusal("a closed reader", [&] { first.read({}); });
    return moved.is_closed();
}
