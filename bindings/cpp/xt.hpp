/* Ruhvelma for C++17: the calls of xt.h with handles that close themselves, answers as values, and refusals as exceptions.
 *
 * A handle can be moved and not copied; one that was moved from is closed. As xt.h says it, a handle is for one call at a time, and may go to another
 * thread. A call copies no input. Refusals are of the class `refused`, or rather of the one of their status. */
#ifndef XT_HPP
#define XT_HPP

#include "xt.h"

#include <array>
#include <cstddef>
#include <cstdint>
#include <new>
#include <stdexcept>
#include <string>
#include <string_view>
#include <utility>
#include <vector>

namespace xt {

/* Octets of somebody else's, as a pointer and a length. */
class octets {
public:
    octets() = default;
    octets(const std::uint8_t *data, std::size_t size) : data_(data), size_(size) {}
    octets(std::string_view text) : data_(reinterpret_cast<const std::uint8_t *>(text.data())), size_(text.size()) {}
    octets(const std::vector<std::uint8_t> &all) : data_(all.data()), size_(all.size()) {}
    template <std::size_t N> octets(const std::array<std::uint8_t, N> &all) : data_(all.data()), size_(N) {}
    const std::uint8_t *data() const { return data_; }
    std::size_t size() const { return size_; }

private:
    const std::uint8_t *data_ = nullptr;
    std::size_t size_ = 0;
};

enum class rep : std::uint32_t { xcdr1 = XT_XCDR1, xcdr2 = XT_XCDR2 };

/* How floats stand in JSON: as texts of their bits, or as numbers where they are finite. */
enum class floats : std::uint32_t { bits = 0, numbers = XT_NUMBERS };

/* What a verdict is given under: a sum of XT_DISALLOW and its like, 0 for the standard's own. */
using policy = std::uint32_t;

/* ---- refusals */

/* A refusal, with its status and the library's words. */
class refused : public std::runtime_error {
public:
    refused(std::uint32_t status, const std::string &text)
        : std::runtime_error(text.empty() ? "status " + std::to_string(status) : text + " (status " + std::to_string(status) + ")"),
          status_(status), text_(text) {}
    std::uint32_t status() const noexcept { return status_; }
    const std::string &text() const noexcept { return text_; }

private:
    std::uint32_t status_;
    std::string text_;
};

template <std::uint32_t Status> class refused_with : public refused {
public:
    explicit refused_with(const std::string &text) : refused(Status, text) {}
};

using not_assignable = refused_with<XT_NO>;
using bad_words = refused_with<XT_WORDS>;
using bad_bundle = refused_with<XT_BUNDLE>;
using out_of_memory = refused_with<XT_MEMORY>;
using bad_types = refused_with<XT_TYPES>;
using no_such_name = refused_with<XT_NAME>;
using bad_json = refused_with<XT_JSON>;
using closed = refused_with<XT_CLOSED>;
using discarded = refused_with<XT_DISCARDED>;
using must_understand = refused_with<XT_MUST_UNDERSTAND>;
using malformed = refused_with<XT_MALFORMED>;
using too_large = refused_with<XT_TOO_LARGE>;

[[noreturn]] inline void refuse(std::uint32_t status, const std::string &text) {
    switch (status) {
    case XT_NO: throw not_assignable(text);
    case XT_WORDS: throw bad_words(text);
    case XT_BUNDLE: throw bad_bundle(text);
    case XT_MEMORY: throw out_of_memory(text);
    case XT_TYPES: throw bad_types(text);
    case XT_NAME: throw no_such_name(text);
    case XT_JSON: throw bad_json(text);
    case XT_CLOSED: throw closed(text);
    case XT_DISCARDED: throw discarded(text);
    case XT_MUST_UNDERSTAND: throw must_understand(text);
    case XT_MALFORMED: throw malformed(text);
    case XT_TOO_LARGE: throw too_large(text);
    default: throw refused(status, text);
    }
}

/* ---- answers */

/* Makes a call, given as a function of a room, its size and the size that is needed; once more where the answer doesn't fit. What it answers
 * stands in `out`, whose memory serves as the room. */
template <class Out, class Call> std::uint32_t answer_into(Out &out, Call call) {
    if (out.size() < 256) out.resize(256);
    for (;;) {
        std::size_t needed = 0;
        const std::uint32_t status = call(reinterpret_cast<std::uint8_t *>(out.data()), out.size(), &needed);
        const bool fits = needed <= out.size();
        out.resize(needed);
        if (fits) return status;
    }
}

template <class Out, class Call> void answered_into(Out &out, Call call) {
    const std::uint32_t status = answer_into(out, call);
    if (status != XT_OK) refuse(status, std::string(out.begin(), out.end()));
}

template <class Out, class Call> Out answered(Call call) {
    Out out;
    answered_into(out, call);
    return out;
}

/* ---- handles */

/* A handle that is closed where it ends. A move leaves a null handle behind, so that there is never a second one. */
template <class Raw, void (*Close)(Raw *)> class handle {
public:
    handle() = default;
    handle(handle &&other) noexcept : raw_{std::exchange(other.raw_.at, nullptr)} {}
    handle &operator=(handle &&other) noexcept {
        handle moved(std::move(other));
        std::swap(raw_.at, moved.raw_.at);
        return *this;
    }
    ~handle() { Close(&raw_); }
    void close() noexcept { Close(&raw_); }
    bool is_closed() const noexcept { return raw_.at == nullptr; }
    Raw *get() noexcept { return &raw_; }

private:
    Raw raw_ XT_NULL;
};

/* ---- bundles */

/* The records of types, one after another. */
class bundle {
public:
    bundle &idl(std::string_view text) { return record(3, text); }
    bundle &object(octets typeobject) { return record(1, typeobject); }
    operator octets() const { return all_; }

private:
    bundle &record(std::uint8_t kind, octets payload) {
        all_.push_back(kind);
        for (int shift = 24; shift >= 0; shift -= 8) all_.push_back(static_cast<std::uint8_t>(payload.size() >> shift));
        all_.insert(all_.end(), payload.data(), payload.data() + payload.size());
        return *this;
    }
    std::vector<std::uint8_t> all_;
};

/* ---- types */

/* Whether a type is assignable from another; if not, `why` has the rule and the path, as `no RULE PATH`. */
struct verdict {
    bool is_assignable;
    std::string why;
    explicit operator bool() const { return is_assignable; }
};

/* The types of a bundle. A word names one: `geo::Pose`, `0/geo::Pose` or `#` and an identifier. */
class types {
public:
    explicit types(octets bundle) {
        answered<std::string>([&](auto... room) { return xt_types_open(handle_.get(), bundle.data(), bundle.size(), room...); });
    }
    void close() noexcept { handle_.close(); }
    bool is_closed() const noexcept { return handle_.is_closed(); }
    xt_types *get() noexcept { return handle_.get(); }

    /* Whether the type `reads` is assignable from the type `writes`. */
    verdict judge(std::string_view reads, std::string_view writes, rep in = rep::xcdr2, policy under = 0) {
        std::string text;
        const octets r = reads, w = writes;
        const std::uint32_t status = answer_into(text, [&](auto... room) {
            return xt_judge(get(), r.data(), r.size(), w.data(), w.size(), static_cast<std::uint32_t>(in), under, room...);
        });
        if (status != XT_OK && status != XT_NO) refuse(status, text);
        return {status == XT_OK, text};
    }
    /* The identifier of a type's complete TypeObject, or of the object that the word names, in 30 hexadecimal digits. */
    std::string type_id(std::string_view word) { return of_word(xt_type_id, word); }
    /* The identifier of its minimal TypeObject. */
    std::string minimal_id(std::string_view word) { return of_word(xt_minimal_id, word); }
    /* The IDL text of a type, a line. */
    std::string print(std::string_view word) { return of_word(xt_print, word); }
    /* The IDL text of all types that the texts declare, a line for each. */
    std::string print_all() {
        return answered<std::string>([&](auto... room) { return xt_print_all(get(), room...); });
    }

private:
    template <class Call> std::string of_word(Call call, octets word) {
        return answered<std::string>([&](auto... room) { return call(get(), word.data(), word.size(), room...); });
    }
    handle<xt_types, xt_types_close> handle_;
};

/* ---- samples */

/* A reader of samples, as its own type sees them. The types may end before it. */
class reader {
public:
    reader(types &among, std::string_view reads, std::string_view writes, rep in = rep::xcdr2, policy under = 0) {
        const octets r = reads, w = writes;
        answered<std::string>([&](auto... room) {
            return xt_reader_open(get(), among.get(), r.data(), r.size(), w.data(), w.size(), static_cast<std::uint32_t>(in), under, room...);
        });
    }
    void close() noexcept { handle_.close(); }
    bool is_closed() const noexcept { return handle_.is_closed(); }
    xt_reader *get() noexcept { return handle_.get(); }

    /* A sample as JSON. */
    std::string read(octets sample, floats as = floats::numbers) {
        std::string json;
        read_into(sample, json, as);
        return json;
    }
    /* The same into a text, whose memory serves for the next one too. */
    void read_into(octets sample, std::string &json, floats as = floats::numbers) {
        answered_into(json, [&](auto... room) { return xt_read(get(), sample.data(), sample.size(), static_cast<std::uint32_t>(as), room...); });
    }
    /* A value in JSON as a sample in little-endian order. With numbers a text of bits is read too. */
    std::vector<std::uint8_t> write(std::string_view json, rep to = rep::xcdr2, floats as = floats::numbers) {
        const octets j = json;
        return answered<std::vector<std::uint8_t>>([&](auto... room) {
            return xt_write(get(), j.data(), j.size(), static_cast<std::uint32_t>(to), static_cast<std::uint32_t>(as), room...);
        });
    }
    /* A sample as one of the reader's type in a representation, in little-endian order. */
    std::vector<std::uint8_t> convert(octets sample, rep to) {
        return answered<std::vector<std::uint8_t>>(
            [&](auto... room) { return xt_convert(get(), sample.data(), sample.size(), static_cast<std::uint32_t>(to), room...); });
    }
    /* The hash of the key of a sample's value, as the reader's type sees it. */
    std::array<std::uint8_t, 16> key_hash(octets sample) {
        const auto hash =
            answered<std::vector<std::uint8_t>>([&](auto... room) { return xt_key_hash(get(), sample.data(), sample.size(), room...); });
        std::array<std::uint8_t, 16> all{};
        for (std::size_t i = 0; i < all.size() && i < hash.size(); i++) all[i] = hash[i];
        return all;
    }

private:
    handle<xt_reader, xt_reader_close> handle_;
};

} // namespace xt

#endif
